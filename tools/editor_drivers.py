"""Real editors in terminals that nobody sees, driven by keys, with a relay that keeps what they and the server say."""
import base64
import contextlib
import fcntl
import json
import os
import pty
import signal
import struct
import subprocess
import sys
import termios
import threading
import time

TOP = os.path.dirname(os.path.dirname(os.path.realpath(__file__)))
PATIENCE = [120]  # seconds for one answer
OPTIONS = {"limit": 3900, "depth": 3, "count": 15}  # other ones than the server's own


# ---- the relay between an editor and the server

def frames(source):
    """Yields the frames of a stream: their bytes and their bodies."""
    while True:
        head = b""
        while not head.endswith(b"\r\n\r\n"):
            byte = source.read(1)
            if not byte:
                return
            head += byte
        length = next(int(it.split(b":")[1]) for it in head.split(b"\r\n") if it.lower().startswith(b"content-length"))
        body = source.read(length)
        yield head + body, body


def relay(log, words):
    """Runs the server of these words between standard input and output, keeps all messages in the log, one a line, and ends with it."""
    signal.signal(signal.SIGHUP, signal.SIG_IGN)  # an editor that is killed takes its terminal with it
    child = subprocess.Popen(words, stdin=subprocess.PIPE, stdout=subprocess.PIPE)
    signal.signal(signal.SIGTERM, lambda *_: child.terminate())  # as an editor ends a server that hasn't answered yet
    lock = threading.Lock()

    def keep(way, message):
        with lock, open(log, "a", encoding="utf-8") as sink:
            sink.write(json.dumps({"way": way, "message": message}, ensure_ascii=False) + "\n")

    def pump(way, source, sink):
        for whole, body in frames(source):
            keep(way, json.loads(body))
            with contextlib.suppress(OSError):  # whoever was to read it is gone
                sink.write(whole)
                sink.flush()
        with contextlib.suppress(OSError):
            sink.close()

    threading.Thread(target=pump, args=("in", sys.stdin.buffer, child.stdin), daemon=True).start()
    pump("out", child.stdout, sys.stdout.buffer)
    code = child.wait()
    keep("end", code)
    os._exit(code if code >= 0 else 128 - code)  # not by way of the thread that still reads


# ---- terminals

def in_terminal(words, environment):
    """Starts a program in a terminal of its own, whose screen is thrown away. The process and where its keys go."""
    process, keys = pty.fork()
    if process == 0:
        for name in [it for it in os.environ if it.startswith("XDG_")]:
            del os.environ[name]  # what an editor keeps stands below HOME
        os.environ.update(environment, TERM="xterm-256color")
        os.execvp(words[0], words)
    fcntl.ioctl(keys, termios.TIOCSWINSZ, struct.pack("HHHH", 40, 110, 0, 0))

    def drain():
        try:
            while os.read(keys, 1 << 16):
                pass
        except OSError:
            pass
    threading.Thread(target=drain, daemon=True).start()
    return process, keys


class Failure(Exception):
    """A step that didn't do what it is to do."""


def wait_for(what, test, patience=None):
    """The first true answer of the test."""
    patience = min(patience or PATIENCE[0], PATIENCE[0])
    end = time.monotonic() + patience
    while time.monotonic() < end:
        if found := test():
            return found
        time.sleep(0.1)
    raise Failure(f"waited {patience} s for {what}")


class Editor:
    """A running editor, driven by keys, and asked by its own command line."""

    def __init__(self, folder, program, start, tag=""):
        self.folder, self.program, self.start, self.tag = folder, program, start, self.name + tag
        self.log, self.home = self.own("messages"), self.own("home")
        self.socket = os.path.join(self.own("socket"), self.socket_name)
        os.makedirs(os.path.dirname(self.socket), 0o700)
        os.makedirs(self.home, exist_ok=True)
        self.environment, self.options = {}, OPTIONS
        self.process = None

    def own(self, name):
        return os.path.join(self.folder, f"{self.tag}-{name}")

    def wrapper(self):
        """A program that an editor takes for the server: the relay."""
        path = self.own("server")
        with open(path, "w", encoding="utf-8") as sink:
            words = [sys.executable, os.path.join(TOP, "tools", "try-editors"), "--relay", self.log, self.program]
            sink.write("#!/bin/sh\nexec " + " ".join(f'"{it}"' for it in words) + ' "$@"\n')
        os.chmod(path, 0o755)
        return path

    def begin(self, words):
        self.process, self.keys = in_terminal(words, {"HOME": self.home, "LC_ALL": "C.UTF-8", **self.environment})

    def press(self, keys):
        """Types keys. An escape stands apart, so that no editor takes it and the next key for one with Alt."""
        for number, piece in enumerate(keys.split("\x1b")):
            if number:
                os.write(self.keys, b"\x1b")
                time.sleep(0.2)
            os.write(self.keys, piece.encode())

    def kill(self):
        if self.process:
            os.kill(self.process, signal.SIGKILL)
            os.waitpid(self.process, 0)
            self.process = None

    def ended(self):
        if self.process and os.waitpid(self.process, os.WNOHANG)[0]:
            self.process = None
        return self.process is None

    def messages(self, way):
        try:
            with open(self.log, encoding="utf-8") as source:
                return [it["message"] for it in map(json.loads, source) if it["way"] == way]
        except FileNotFoundError:
            return []

    def refusals(self):
        return [it["error"] for it in self.messages("out") if "error" in it]

    def texts(self):
        """The texts that the server was told, by their URIs, as they are now."""
        texts = {}
        for it in self.messages("in"):
            if it.get("method") == "textDocument/didOpen":
                texts[it["params"]["textDocument"]["uri"]] = it["params"]["textDocument"]["text"]
            elif it.get("method") == "textDocument/didChange":
                for change in it["params"]["contentChanges"]:
                    if "range" in change:
                        raise Failure("a change with a range, where whole texts are to be sent")
                    texts[it["params"]["textDocument"]["uri"]] = change["text"]
        return list(texts.values())


class Neovim(Editor):
    name, program_name, section, socket_name = "neovim", "nvim", "Neovim", "socket"

    def open(self, path, starts=True):
        """Opens a file; with `starts` the server is to start."""
        init = self.own("init.lua")
        with open(init, "w", encoding="utf-8") as sink:
            sink.write("vim.g.insynth = vim.fn.json_decode([==[" + json.dumps({"program": self.wrapper(), "start": self.start, **self.options}) + "]==])\n")
            sink.write(f"vim.cmd([[source {os.path.join(TOP, 'editors', 'insynth.lua')}]])\n")
        self.begin(["nvim", "-u", init, "-n", "-i", "NONE", "--listen", self.socket, path])
        wait_for("Neovim", lambda: os.path.exists(self.socket))
        if starts:
            wait_for("the server's start", lambda: self.texts())

    def open_by(self, commands):
        """Starts the editor by shell commands that end with its call."""
        self.environment["NVIM_LISTEN_ADDRESS"] = self.socket
        self.begin(["bash", "-ec", commands])
        wait_for("Neovim", lambda: os.path.exists(self.socket))

    def ask_editor(self, expression):
        """The value of an expression, by way of a file: what Neovim prints of a long one is cut."""
        answer = self.own("answer")
        words = ["nvim", "--headless", "--server", self.socket, "--remote-expr", f"writefile([json_encode({expression})], '{answer}')"]
        done = subprocess.run(words, capture_output=True, check=False)
        try:
            with open(answer, encoding="utf-8") as source:
                value = json.load(source)
            os.unlink(answer)
            return value
        except (OSError, ValueError) as fault:
            raise Failure(f"Neovim answers {done.stderr.decode()!r}") from fault

    def menu(self):
        """The page that is shown, as pairs of weight and expression."""
        shown = self.ask_editor("complete_info(['pum_visible', 'items'])")
        return [(int(it["menu"]), it["word"]) for it in shown["items"]] if shown["pum_visible"] else []

    def ask_at(self, line, last="i"):
        """Asks in a line, before its last character, which is a semicolon, or with `at_end` behind it."""
        self.press(f"\x1b:{line}\r")
        self.press(f"${last}\x0c")

    def ask(self, line):
        self.ask_at(line)
        return wait_for("a menu", self.menu)

    def said(self):
        """All messages of the editor so far."""
        return self.ask_editor("execute('messages')")

    def shown(self):
        """The line beside the cursor."""
        windows = "filter(nvim_list_wins(), {_, it -> nvim_win_get_config(it).relative != ''})"
        return "\n".join(self.ask_editor(f"flatten(map({windows}, {{_, it -> getbufline(winbufnr(it), 1, '$')}}))"))

    def log_text(self):
        """What the command that opens the log shows."""
        self.press("\x1b:InsynthLog\r")
        wait_for("the log", lambda: self.ask_editor("expand('%:t')") == "lsp.log")
        text = self.text()
        self.press("\x1b:q\r")
        wait_for("the file again", lambda: self.ask_editor("expand('%:e')") == "java")
        return text

    def restart(self):
        self.press("\x1b:InsynthRestart\r")

    def next_page(self, before):
        self.press("\x0c")
        return wait_for("a second page", lambda: (page := self.menu()) != before and page)

    def take(self, number):
        self.press("\x0e" * number + "\x19")
        wait_for("the menu's end", lambda: not self.ask_editor("pumvisible()"))
        self.press("\x1b")

    def leave(self):
        self.press("\x05\x1b")
        wait_for("the menu's end", lambda: not self.ask_editor("pumvisible()"))

    def text(self):
        return self.ask_editor("join(getline(1, '$'), \"\\n\")") + "\n"

    wrong_depth = "insynth: depth is to be a whole number from 0 to 3"
    rest, at_end = "\x1b", "A"  # the keys that leave insert mode, and those that write at a line's end
    edits_at_end, undo = ("\x1bGdd", "\x1bGo// end\x1b", "\x1bGx", "\x1bggdG", "\x1bGyyp"), "\x1bu"

    def open_another(self, path):
        self.press("\x1b:e! " + path.replace(" ", "\\ ") + "\r")
        wait_for("the file", lambda: self.ask_editor("expand('%:p')") == path)

    def quit(self):
        self.press("\x1b:qa!\r")

    def own_log(self):
        path = next(os.path.join(where, "lsp.log") for where, _, files in os.walk(self.home) if "lsp.log" in files)
        with open(path, encoding="utf-8") as source:
            return [it for it in source if it.startswith(("[ERROR]", "[WARN]"))]


class Emacs(Editor):
    name, program_name, section, socket_name = "emacs", "emacs", "Emacs", "emacs/server"

    def open(self, path, starts=True):
        """Opens a file. The server starts at the first question, whatever `starts` says."""
        init = self.own("init.el")
        values = {"program": self.wrapper(), "start": self.start, "el": os.path.join(TOP, "editors", "insynth.el"), "socket": self.socket,
                  "folder": os.path.dirname(self.socket)}
        with open(init, "w", encoding="utf-8") as sink:
            sink.write("""(load %(el)s)
(setq insynth-program %(program)s insynth-start %(start)s insynth-timeout 120 insynth-limit %(limit)d insynth-depth %(depth)d insynth-count %(count)d)
(add-hook 'java-mode-hook #'insynth-mode)
(setq server-socket-dir %(folder)s auto-save-default nil make-backup-files nil)
(require 'server)
(server-start)
""" % {**{key: json.dumps(value, ensure_ascii=False) for key, value in values.items()}, **self.options})
        self.begin(["emacs", "-nw", "-Q", "-l", init, path])
        wait_for("Emacs", lambda: os.path.exists(self.socket) and self.ask_editor("(buffer-name)").endswith(".java"))

    def open_by(self, commands):
        """Starts the editor by shell commands that end with its call."""
        self.environment["XDG_RUNTIME_DIR"] = os.path.dirname(os.path.dirname(self.socket))
        self.begin(["bash", "-ec", commands])
        for _ in range(10):  # until Emacs reads keys
            time.sleep(1)
            self.press("\x1bxserver-start\r")
            with contextlib.suppress(Failure):
                return wait_for("Emacs", lambda: os.path.exists(self.socket), 5)
        raise Failure("Emacs doesn't start")

    def ask_editor(self, expression):
        """The value of an expression that gives a text, in the window that is selected."""
        form = f"(with-current-buffer (window-buffer (selected-window)) (base64-encode-string (encode-coding-string {expression} 'utf-8) t))"
        out = subprocess.run(["emacsclient", "-s", self.socket, "--eval", form], capture_output=True, check=False)
        if out.returncode:
            raise Failure(f"Emacs answers {out.stderr.decode()!r}")
        return base64.b64decode(out.stdout.strip()[1:-1]).decode()

    def menu(self):
        if self.ask_editor("(buffer-name)") != "*insynth*":
            return []
        rows = [it.split(None, 1) for it in self.ask_editor("(buffer-string)").splitlines()]
        return [(int(weight), text) for weight, text in rows]

    def ask_at(self, line, last="\x02"):
        """Asks in a line, before its last character, which is a semicolon, or with `at_end` behind it."""
        self.press(f"\x1bg\x1bg{line}\r\x05{last}\x03,")

    def ask(self, line):
        self.ask_at(line)
        return wait_for("a menu", self.menu)

    def said(self):
        """All messages of the editor so far."""
        return self.ask_editor("(with-current-buffer (messages-buffer) (buffer-string))")

    def shown(self):
        """The line at the bottom."""
        return self.ask_editor("(or (current-message) \"\")")

    def log_text(self):
        """What the command that opens the log shows."""
        self.press("\x1bxinsynth-log\r")
        return wait_for("the log", lambda: self.ask_editor("(if-let ((it (get-buffer-window \" *insynth stderr*\"))) (with-current-buffer (window-buffer it) (buffer-string)) \"\")"))

    def restart(self):
        self.press("\x1bxinsynth-restart\r")

    def next_page(self, before):
        self.press("+")
        return wait_for("a second page", lambda: len(page := self.menu()) > len(before) and page[len(before):])

    def take(self, number):
        self.press("n" * number + "\r")
        wait_for("the menu's end", lambda: self.ask_editor("(buffer-name)") != "*insynth*")

    def leave(self):
        self.press("q")
        wait_for("the menu's end", lambda: self.ask_editor("(buffer-name)") != "*insynth*")

    def text(self):
        return self.ask_editor("(save-restriction (widen) (buffer-substring-no-properties (point-min) (point-max)))")

    wrong_depth = "insynth: the server doesn't take the settings"
    rest, at_end = "", ""  # not C-g, after which a terminal may forget further keys
    edits_at_end, undo = ("\x1b>\x7f", "\x1b>// end", "\x1b>\x7f\x7f", "\x18h\x17"), "\x18u"

    def open_another(self, path):
        self.press("\x18\x06\x01\x0b" + path + "\r")
        wait_for("the file", lambda: self.ask_editor("(buffer-file-name)") == path)

    def quit(self):
        self.press("\x18\x03")
        time.sleep(1)
        self.press("qyes\r")  # save none, and leave all the same

    def own_log(self):
        return []  # it ends with Emacs: the relay has what was refused
