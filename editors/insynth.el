;;; insynth.el --- Completion of Java by insynthd -*- lexical-binding: t; -*-

;; Package-Requires: ((emacs "27.1") (jsonrpc "1.0.9"))

;;; Commentary:

;; Completes Java beside the language server that you have.  It stands on jsonrpc, the library under eglot: eglot itself
;; manages one server for a buffer, and this one leaves that place to another.
;;
;;   (load "/home/me/insynthd/editors/insynth.el")
;;   (setq insynth-start "/home/me/start.txt")
;;   (add-hook 'java-mode-hook #'insynth-mode)   ; and java-ts-mode-hook, where you have it
;;
;; C-c , asks at point and shows the first page of expressions, each with its weight, in a window below.  There RET takes
;; the one at point, C-c , or + adds the next page, n and p move, q leaves.  Where something is wrong, a message says what.
;; M-x insynth-log shows the server's standard error, M-x insynth-restart starts it anew with the class path as it is then.

;;; Code:

(require 'jsonrpc)
(require 'cl-lib)
(require 'seq)
(require 'url-util)

(defgroup insynth nil "Completion of Java by insynthd." :group 'tools)

(defcustom insynth-program
  (expand-file-name "../insynthd" (file-name-directory (or load-file-name buffer-file-name default-directory)))
  "The program insynthd." :type 'file)

(defcustom insynth-start nil
  "The start text that tools/class-path wrote; nil for no classes at all." :type '(choice (const nil) file))

(defcustom insynth-limit nil
  "The greatest weight, 1 to 10000; nil for the server's own, 4000." :type '(choice (const nil) integer))

(defcustom insynth-depth nil
  "How deep lambdas nest, 0 to 3; nil for the server's own, 1." :type '(choice (const nil) integer))

(defcustom insynth-count 20
  "How many expressions a page has, 1 to 1000." :type 'integer)

(defcustom insynth-timeout 60
  "For how many seconds Emacs waits for an answer of a server that is ready." :type 'number)

(defvar insynth-mode-map (let ((map (make-sparse-keymap))) (define-key map (kbd "C-c ,") #'insynth-complete) map)
  "Keys of `insynth-mode'.")

(defvar insynth--server nil "The connection to the one server that is ready, or nil.")

(defvar insynth--starting nil "The connection to a server that hasn't answered its first request yet, or nil.")

(defvar insynth--why nil "Why no server runs, in words, where one ended by itself.")

(defconst insynth--start-patience 10
  "For how many seconds a key waits for a server that is starting.")

(defvar-local insynth--sent nil
  "The `buffer-chars-modified-tick' of the text that the server has, or nil.")

(defconst insynth--causes
  '((3 . "the server doesn't know this file: turn insynth-mode off and on")
    (4 . "the server has lost this file's text: turn insynth-mode off and on")
    (5 . "the server's text of this file has no such line: turn insynth-mode off and on")
    (6 . "this list is closed, ask again"))
  "What the causes of a refusal mean.")

(defconst insynth--codes
  '((1 . "it was closed before it was told to end")
    (2 . "the words of its call don't fit")
    (3 . "what it read were no messages")
    (4 . "it couldn't read its input or the start text")
    (5 . "it couldn't write")
    (6 . "it has no memory")
    (8 . "the start text is refused: write it anew by tools/class-path"))
  "What the statuses of the server mean.")

;;;; The server

(defun insynth--command ()
  "The words that start the server, or a `user-error' where a file is missing."
  (let ((program (expand-file-name insynth-program)) (start (and insynth-start (expand-file-name insynth-start))))
    (cond ((not (file-executable-p program)) (user-error "insynth: %s isn't there or can't be run" program))
          ((and start (not (file-readable-p start))) (user-error "insynth: %s isn't there: tools/class-path writes it" start))
          (start (list program "serve" "--start" start))
          (t (list program "serve")))))

(defun insynth--options ()
  "The user's settings as initializationOptions."
  (append (and insynth-limit (list :limit insynth-limit))
          (and insynth-depth (list :depth insynth-depth))
          (list :count insynth-count)))

(defun insynth--ended (connection)
  "Forgets CONNECTION, which has ended, and says so where it ended by itself."
  (when (memq connection (list insynth--server insynth--starting))
    (setq insynth--server nil insynth--starting nil insynth--why (insynth--last-words connection))
    (insynth--forget-texts)
    (message "insynth: %s" insynth--why)))

(defun insynth--last-words (connection)
  "How the process of CONNECTION ended."
  (let ((code (process-exit-status (jsonrpc--process connection))))
    (format "the server ended with status %s: %s (M-x insynth-log)" code (alist-get code insynth--codes "see the log"))))

(defun insynth--forget-texts ()
  (dolist (buffer (buffer-list))
    (with-current-buffer buffer (setq insynth--sent nil))))

(defun insynth--connect ()
  "Starts the server, which is ready when it has answered its first request."
  (let* ((command (insynth--command))
         (default-directory (file-name-directory (car command)))
         (connection (make-instance 'jsonrpc-process-connection :name "insynth" :on-shutdown #'insynth--ended
                                    :process (lambda ()
                                               (make-process :name "insynth" :command command :connection-type 'pipe
                                                             :coding 'utf-8-emacs-unix :noquery t
                                                             :stderr (get-buffer-create "*insynth stderr*"))))))
    (message "insynth: starting (M-x insynth-log shows how far it is)")
    (setq insynth--starting connection insynth--why nil)
    (jsonrpc-async-request connection :initialize
                           (list :processId (emacs-pid) :rootUri nil :capabilities (make-hash-table)
                                 :initializationOptions (insynth--options))
                           :success-fn (lambda (_) (insynth--started connection))
                           :error-fn (lambda (fault) (insynth--not-started connection fault))
                           :timeout nil))) ; the program may have to be built first

(defun insynth--started (connection)
  "Takes CONNECTION, which has answered its first request, for the server."
  (when (eq connection insynth--starting)
    (setq insynth--starting nil insynth--server connection)
    (jsonrpc-notify connection :initialized (make-hash-table))
    (message "insynth: ready")))

(defun insynth--not-started (connection fault)
  "Ends CONNECTION, whose first request was refused by FAULT, where it hasn't ended by itself."
  (when (and (eq connection insynth--starting) (jsonrpc-running-p connection))
    (setq insynth--starting nil
          insynth--why (format "the server doesn't take the settings: %s (cause %s)"
                               (plist-get fault :message) (plist-get (plist-get fault :data) :cause)))
    (jsonrpc-shutdown connection)))

(defun insynth--ready-server ()
  "The server, started where it isn't running; a `user-error' where it isn't ready soon."
  (unless (or insynth--starting (and insynth--server (jsonrpc-running-p insynth--server)))
    (insynth--connect))
  (let ((end (+ (float-time) insynth--start-patience)))
    (while (and insynth--starting (< (float-time) end)) (accept-process-output nil 0.05)))
  (cond (insynth--starting (user-error "insynth: the server is still starting (M-x insynth-log shows how far it is)"))
        (insynth--server)
        (t (user-error "insynth: %s" insynth--why))))

(defun insynth--await-end (connection)
  "Waits for the end of CONNECTION, and kills its process where that doesn't come."
  (with-timeout (3) (while (jsonrpc-running-p connection) (accept-process-output nil 0.05)))
  (jsonrpc-shutdown connection))

(defun insynth-stop ()
  "Tells the server to end, and waits until it has ended."
  (interactive)
  (when-let ((starting insynth--starting))
    (setq insynth--starting nil)
    (signal-process (jsonrpc--process starting) 'SIGTERM) ; a build of the program ends in good order by it
    (insynth--await-end starting))
  (when-let ((server insynth--server))
    (setq insynth--server nil)
    (insynth--forget-texts)
    (ignore-errors
      (jsonrpc-request server :shutdown nil :timeout 3)
      (jsonrpc-notify server :exit nil))
    (insynth--await-end server)))

(defun insynth-restart ()
  "Starts the server anew, with the settings and the class path as they are now."
  (interactive)
  (insynth-stop)
  (insynth--ready-server))

(defun insynth-log ()
  "Shows what the server wrote on its standard error."
  (interactive)
  (display-buffer (or (get-buffer " *insynth stderr*") ; jsonrpc hides it so
                      (get-buffer "*insynth stderr*")
                      (user-error "insynth: the server hasn't been started"))))

(add-hook 'kill-emacs-hook #'insynth-stop)

(defun insynth--words (fault)
  "What FAULT, the signal of a refused request, means."
  (let* ((data (and (eq (car fault) 'jsonrpc-error) (alist-get 'jsonrpc-error-data (cddr fault))))
         (cause (plist-get data :cause)))
    (cond ((alist-get cause insynth--causes))
          ((eql (alist-get 'jsonrpc-error-code (cdr-safe (cdr fault))) -32801)
           "the class path has changed since, ask again")
          ((eq (car fault) 'jsonrpc-error)
           (format "refused: %s (%s, cause %s)" (alist-get 'jsonrpc-error-message (cddr fault))
                   (alist-get 'jsonrpc-error-code (cddr fault)) (or cause "none")))
          (t (error-message-string fault)))))

(defun insynth--ask (method params)
  "The server's answer to METHOD with PARAMS, or a `user-error' that says why not."
  (condition-case fault
      (jsonrpc-request (insynth--ready-server) method params :timeout insynth-timeout)
    (jsonrpc-error (user-error "insynth: %s" (insynth--words fault)))))

;;;; Texts and places

(defun insynth--uri ()
  (let ((path (or buffer-file-name (user-error "insynth: this buffer has no file"))))
    (concat "file://" (url-hexify-string (expand-file-name path) url-path-allowed-chars))))

(defun insynth--text ()
  (save-restriction (widen) (buffer-substring-no-properties (point-min) (point-max))))

(defun insynth--send-text ()
  "Sends the whole text, where the server hasn't it yet."
  (let ((server (insynth--ready-server)) (tick (buffer-chars-modified-tick)))
    (cond ((null insynth--sent)
           (jsonrpc-notify server :textDocument/didOpen
                           (list :textDocument (list :uri (insynth--uri) :languageId "java" :version tick :text (insynth--text)))))
          ((/= insynth--sent tick)
           (jsonrpc-notify server :textDocument/didChange
                           (list :textDocument (list :uri (insynth--uri) :version tick)
                                 :contentChanges (vector (list :text (insynth--text)))))))
    (setq insynth--sent tick)))

(defun insynth--close-text ()
  "Lets the server forget this buffer's text."
  (when (and insynth--sent insynth--server (jsonrpc-running-p insynth--server))
    (jsonrpc-notify insynth--server :textDocument/didClose (list :textDocument (list :uri (insynth--uri)))))
  (setq insynth--sent nil))

(defun insynth--units (from to)
  "How many units of UTF-16 stand between FROM and TO."
  (/ (length (encode-coding-string (buffer-substring-no-properties from to) 'utf-16le)) 2))

(defun insynth--position ()
  "Point as a position of the protocol: a line and a unit of it, both from 0."
  (list :line (save-restriction (widen) (1- (line-number-at-pos nil t)))
        :character (insynth--units (line-beginning-position) (point))))

(defun insynth--place (character)
  "The place of the unit CHARACTER in the line of point."
  (save-excursion
    (beginning-of-line)
    (let ((start (point)))
      (while (and (not (eolp)) (< (insynth--units start (point)) character)) (forward-char))
      (point))))

;;;; Lists

(cl-defstruct insynth--list
  "A list at the server: its cursor, whether its last page came, how many of its
items are shown, and the buffer, the range and the text that an item replaces."
  cursor last (shown 0) buffer start end tick prefix)

(defconst insynth--most-pages 10
  "How many pages one key fetches while nothing begins with what was typed.")

(defvar-local insynth--shown nil "In *insynth*, the list that is shown there.")

(defvar insynth-list-mode-map
  (let ((map (make-sparse-keymap)))
    (define-key map (kbd "RET") #'insynth-take)
    (define-key map (kbd "+") #'insynth-next-page)
    (define-key map (kbd "C-c ,") #'insynth-next-page)
    (define-key map (kbd "n") #'next-line)
    (define-key map (kbd "p") #'previous-line)
    (define-key map (kbd "q") #'insynth-leave)
    map)
  "Keys where expressions are shown.")

(define-derived-mode insynth-list-mode special-mode "Insynth"
  "Shows expressions that fit a hole, the cheapest first."
  (setq truncate-lines t)
  (hl-line-mode 1)
  (add-hook 'kill-buffer-hook #'insynth--close-list nil t))

(defun insynth--close-list ()
  "Lets the server forget the list that is shown here."
  (when-let ((list insynth--shown))
    (setq insynth--shown nil)
    (when (and insynth--server (jsonrpc-running-p insynth--server))
      (jsonrpc-async-request insynth--server :workspace/executeCommand
                             (list :command "insynth.close" :arguments (vector (list :cursor (insynth--list-cursor list))))
                             :success-fn #'ignore :error-fn #'ignore))))

(defun insynth--add-page (list page)
  "Shows the items of PAGE that begin with what was typed, behind those of LIST.
Point moves to the first of them.  Answers how many there are."
  (let ((inhibit-read-only t) (number 0))
    (goto-char (point-max))
    (save-excursion
      (seq-doseq (item (plist-get page :items))
        (when (string-prefix-p (insynth--list-prefix list) (plist-get item :label))
          (insert (propertize (format "%6s  %s\n" (plist-get item :detail) (plist-get item :label))
                              'insynth-text (plist-get (plist-get item :textEdit) :newText)))
          (setq number (1+ number)))))
    (setf (insynth--list-shown list) (+ (insynth--list-shown list) number)
          (insynth--list-last list) (eq t (plist-get (plist-get page :insynth) :last)))
    (setq header-line-format
          (format " weight  %d expressions%s   RET takes, q leaves" (insynth--list-shown list)
                  (if (insynth--list-last list) ", that is all" ", + for more")))
    number))

(defun insynth--fetch (list)
  "The next page of LIST."
  (insynth--ask :workspace/executeCommand
                (list :command "insynth.page"
                      :arguments (vector (list :cursor (insynth--list-cursor list) :count insynth-count)))))

(defun insynth--add-pages (list page)
  "Adds PAGE to LIST, and further ones while nothing begins with what was typed."
  (let ((left insynth--most-pages))
    (while (and (= 0 (insynth--add-page list page)) (not (insynth--list-last list)) (> (setq left (1- left)) 0))
      (setq page (insynth--fetch list)))))

(defun insynth--open-list (page)
  "Shows PAGE, the answer at point, in *insynth*."
  (let* ((item (seq-first (plist-get page :items)))
         (start (if item
                    (insynth--place (plist-get (plist-get (plist-get (plist-get item :textEdit) :range) :start) :character))
                  (point)))
         (list (make-insynth--list :cursor (plist-get (plist-get page :insynth) :cursor) :buffer (current-buffer)
                                   :start (copy-marker start) :end (copy-marker (point)) :tick (buffer-chars-modified-tick)
                                   :prefix (buffer-substring-no-properties start (point)))))
    (pop-to-buffer (get-buffer-create "*insynth*") '(display-buffer-at-bottom (window-height . 12)))
    (insynth--close-list)
    (let ((inhibit-read-only t)) (erase-buffer))
    (unless (derived-mode-p 'insynth-list-mode) (insynth-list-mode))
    (setq insynth--shown list)
    (insynth--add-pages list page)))

(defun insynth-complete ()
  "Shows the expressions that fit at point."
  (interactive)
  (insynth--send-text)
  (let ((page (insynth--ask :textDocument/completion
                            (list :textDocument (list :uri (insynth--uri)) :position (insynth--position)))))
    (if page
        (insynth--open-list page)
      (message "insynth: no hole here: no value is to be written, or its type isn't known"))))

(defun insynth--list-here ()
  (or insynth--shown (user-error "insynth: no list is shown here")))

(defun insynth-next-page ()
  "Adds the next page, where there is one."
  (interactive)
  (let ((list (insynth--list-here)))
    (if (insynth--list-last list)
        (message "insynth: that is all")
      (insynth--add-pages list (insynth--fetch list)))))

(defun insynth-take ()
  "Puts the expression at point where it was asked for."
  (interactive)
  (let ((list (insynth--list-here)) (text (get-text-property (point) 'insynth-text)))
    (unless text (user-error "insynth: no expression stands here"))
    (insynth-leave)
    (with-current-buffer (insynth--list-buffer list)
      (unless (= (insynth--list-tick list) (buffer-chars-modified-tick))
        (user-error "insynth: the text has changed since, ask again"))
      (goto-char (insynth--list-start list))
      (delete-region (insynth--list-start list) (insynth--list-end list))
      (insert text))))

(defun insynth-leave ()
  "Leaves the list, back to the text."
  (interactive)
  (let ((list insynth--shown))
    (insynth--close-list)
    (quit-window)
    (when (and list (buffer-live-p (insynth--list-buffer list)))
      (pop-to-buffer (insynth--list-buffer list) '(display-buffer-reuse-window)))))

;;;###autoload
(define-minor-mode insynth-mode
  "Completes Java by insynthd on \\[insynth-complete]."
  :lighter " Insynth"
  (if insynth-mode
      (add-hook 'kill-buffer-hook #'insynth--close-text nil t)
    (insynth--close-text)
    (remove-hook 'kill-buffer-hook #'insynth--close-text t)))

(provide 'insynth)
;;; insynth.el ends here
