-- Completion of Java by insynthd, beside the language server that you have. Neovim 0.7 and later.
--
--   vim.g.insynth = { start = "/home/me/start.txt" }
--   vim.cmd("source /home/me/insynthd/editors/insynth.lua")
--
-- In insert mode the key (<C-l>) asks at the cursor and shows the first page with each expression's weight; the key
-- again shows the next page, and after the last one the first again. <C-n> and <C-p> move, <C-y> takes, <C-e> leaves, and
-- typing on narrows, as in any completion menu. Where something is wrong, a line says what.
-- :InsynthLog opens the log, :InsynthRestart starts the server anew, with the settings and the class path as they are then.
--
-- vim.g.insynth may hold
--   start    the start text that tools/class-path wrote; without it no class is known
--   program  insynthd; the one of this clone without it
--   limit    the greatest weight, 1 to 10000 (4000 without it)
--   depth    how deep lambdas nest, 0 to 3 (1 without it)
--   count    expressions on a page, 1 to 1000 (20)
--   key      the key (<C-l>)

local here = vim.fn.fnamemodify(debug.getinfo(1, "S").source:sub(2), ":p:h:h")
local group = vim.api.nvim_create_augroup("insynth", { clear = true })
local MOST_PAGES = 10 -- fetched by one press while nothing begins with what was typed

local client_id = nil -- of the one server, nil where none runs
local menu = nil -- what is shown, or asked for: see open_menu

local CAUSES = {
  [3] = "the server doesn't know this file (:edit opens it anew)",
  [4] = "the server has lost this file's text (:edit opens it anew)",
  [5] = "the server's text of this file has no such line (:edit opens it anew)",
  [6] = "this list is closed, ask again",
}
local RANGES = { limit = { 1, 10000 }, depth = { 0, 3 }, count = { 1, 1000 } } -- what the server allows
local WITHDRAWN = -32801 -- the code of a page of a version that was withdrawn
local CODES = {
  [1] = "it was closed before it was told to end",
  [2] = "the words of its call don't fit",
  [3] = "what it read were no messages",
  [4] = "it couldn't read its input or the start text",
  [5] = "it couldn't write",
  [6] = "it has no memory",
  [8] = "the start text is refused",
}

local function say(text)
  vim.notify("insynth: " .. text, vim.log.levels.WARN)
  if vim.fn.mode():sub(1, 1) == "i" then -- there "-- INSERT --" is written over the message at once
    local ends = { "CursorMovedI", "InsertCharPre", "InsertLeave" }
    vim.lsp.util.open_floating_preview({ "insynth: " .. text }, "", { focusable = false, close_events = ends })
  end
end

local function settings()
  local given = vim.g.insynth or {}
  return {
    program = vim.fn.expand(given.program or (here .. "/insynthd")),
    start = given.start and vim.fn.fnamemodify(vim.fn.expand(given.start), ":p"),
    options = { limit = given.limit, depth = given.depth, count = given.count },
    count = given.count or 20,
    key = given.key or "<C-l>",
  }
end

local function log_path()
  return vim.lsp.get_log_path and vim.lsp.get_log_path() or vim.lsp.log.get_filename()
end

local function words_of(fault)
  if fault.code == WITHDRAWN then
    return "the class path has changed since, ask again"
  end
  local data = type(fault.data) == "table" and fault.data or {}
  return CAUSES[data.cause] or string.format("refused: %s (%s, cause %s)", fault.message, fault.code, data.cause or "none")
end

-- Sends a request to the server; `answered(fault, result)` is called with its answer.
local function request(method, params, answered)
  local client = client_id and vim.lsp.get_client_by_id(client_id)
  if not client then
    return say("the server isn't running (:InsynthLog, :InsynthRestart)")
  elseif not client.initialized then
    return say("the server is still starting (:InsynthLog)")
  end
  local handler = function(fault, result)
    answered(fault, result ~= vim.NIL and result or nil)
  end
  -- the buffer by its number: with 0, Neovim 0.7 doesn't send the pending change before the request
  local buffer = vim.api.nvim_get_current_buf()
  if vim.fn.has("nvim-0.11") == 1 then
    client:request(method, params, handler, buffer)
  else
    client.request(method, params, handler, buffer)
  end
end

local function command(name, argument, answered)
  request("workspace/executeCommand", { command = name, arguments = { argument } }, answered)
end

-- Lets the server forget the list, and puts completeopt back.
local function close_menu()
  local old = menu
  menu = nil
  if old and old.completeopt then
    vim.o.completeopt = old.completeopt
  end
  if old and old.cursor then
    command("insynth.close", { cursor = old.cursor }, function() end)
  end
end

-- The text between the start of what is completed and the cursor, nil where the cursor is elsewhere by now.
local function typed()
  local place = vim.api.nvim_win_get_cursor(0)
  local inside = vim.api.nvim_get_current_buf() == menu.buffer and place[1] == menu.line and place[2] >= menu.start
  if inside and vim.fn.mode():sub(1, 1) == "i" then
    return vim.api.nvim_get_current_line():sub(menu.start + 1, place[2])
  end
end

-- The entries of a page that begin with what was typed.
local function entries(page, prefix)
  local found = {}
  for _, item in ipairs(page) do
    if vim.startswith(item.label, prefix) then
      found[#found + 1] = { word = item.textEdit.newText, abbr = item.label, menu = item.detail, dup = 1 }
    end
  end
  return found
end

local next_page

-- Shows the page that is current, or goes on to the next one where nothing there begins with what was typed.
local function show()
  local prefix = typed()
  if not prefix then
    return close_menu()
  end
  local found = entries(menu.pages[menu.page], prefix)
  if #found > 0 then
    menu.turning = false
    vim.fn.complete(menu.start + 1, found)
  elseif menu.last and menu.page == #menu.pages or menu.fetched >= MOST_PAGES then
    say(prefix == "" and "nothing fits here" or ("nothing begins with " .. prefix .. ", of what is here so far"))
    close_menu()
  else
    next_page()
  end
end

local function take_page(list)
  menu.pages[#menu.pages + 1] = list.items
  menu.page, menu.last, menu.cursor, menu.fetched = #menu.pages, list.insynth.last, list.insynth.cursor, menu.fetched + 1
  show()
end

next_page = function()
  local asked = menu
  if menu.page < #menu.pages then
    menu.page = menu.page + 1
    return show()
  elseif menu.last then
    menu.page = 1
    return show()
  end
  command("insynth.page", { cursor = menu.cursor, count = settings().count }, function(fault, list)
    if menu ~= asked then
      return
    elseif fault then
      say(words_of(fault))
      return close_menu()
    end
    take_page(list)
  end)
end

-- The menu of an answer: where it is shown, the pages so far, and the cursor that keeps the list at the server.
local function open_menu(list)
  local place = vim.api.nvim_win_get_cursor(0)
  local first = list.items[1] and list.items[1].textEdit.range.start.character
  local line = vim.api.nvim_get_current_line()
  menu = {
    buffer = vim.api.nvim_get_current_buf(),
    line = place[1],
    start = first and vim.str_byteindex(line, first, true) or place[2],
    pages = {},
    fetched = 0,
    completeopt = vim.o.completeopt,
  }
  vim.o.completeopt = "menuone,noinsert"
  take_page(list)
end

local function ask()
  close_menu()
  local tick, place = vim.api.nvim_buf_get_changedtick(0), vim.api.nvim_win_get_cursor(0)
  local params = vim.lsp.util.make_position_params(0, "utf-16")
  request("textDocument/completion", params, function(fault, list)
    if fault then
      return say(words_of(fault))
    elseif not list then
      return say("no hole here: nothing to write, or its type isn't known")
    end
    local same = vim.api.nvim_buf_get_changedtick(0) == tick and vim.deep_equal(vim.api.nvim_win_get_cursor(0), place)
    if same and vim.fn.mode():sub(1, 1) == "i" then
      open_menu(list)
    else
      command("insynth.close", { cursor = list.insynth.cursor }, function() end)
    end
  end)
end

-- Takes the menu away, so that the text is as it was typed, and shows the next page.
local function turn()
  menu.turning, menu.fetched = true, 0
  vim.api.nvim_feedkeys(vim.api.nvim_replace_termcodes("<C-e>", true, false, true), "n", false)
  vim.schedule(function()
    if menu then
      next_page()
    end
  end)
end

local function on_key()
  if menu and vim.fn.pumvisible() == 1 then
    turn()
  else
    ask()
  end
end

local function on_exit(code, _, id)
  vim.schedule(function()
    if id == client_id then
      client_id, menu = nil, nil
    end
    if code ~= 0 then
      say(string.format("status %d: %s (:InsynthLog)", code, CODES[code] or "see the log"))
    end
  end)
end

local function config()
  local given = settings()
  local cmd = { given.program, "serve" }
  if given.start then
    vim.list_extend(cmd, { "--start", given.start })
  end
  return {
    name = "insynth",
    cmd = cmd,
    init_options = next(given.options) and given.options or nil,
    -- whole texts: an incremental change of Neovim may name the line behind the last one, which isn't in the document
    flags = { allow_incremental_sync = false },
    -- other completion set-ups ask every server that offers completion; this one is asked by its key alone
    on_init = function(client)
      client.server_capabilities.completionProvider = nil
      if client.resolved_capabilities then
        client.resolved_capabilities.completion = false
      end
    end,
    on_exit = on_exit,
  }
end

local function start_for(buffer)
  if vim.lsp.start then
    vim.api.nvim_buf_call(buffer, function()
      client_id = vim.lsp.start(config(), {
        reuse_client = function(client, wanted)
          return client.name == wanted.name
        end,
      })
    end)
  else
    client_id = client_id or vim.lsp.start_client(config())
    vim.lsp.buf_attach_client(buffer, client_id)
  end
end

-- What is wrong with a number of the settings, or nil.
local function wrong_number(options)
  for name, range in pairs(RANGES) do
    local it = options[name]
    if it ~= nil and (type(it) ~= "number" or it % 1 ~= 0 or it < range[1] or it > range[2]) then
      return string.format("%s is to be a whole number from %d to %d", name, range[1], range[2])
    end
  end
end

local function attach(buffer)
  local given = settings()
  local wrong = wrong_number(given.options)
  if wrong then
    return say(wrong)
  end
  if vim.fn.executable(given.program) == 0 then
    return say(given.program .. " isn't there or can't be run")
  elseif given.start and vim.fn.filereadable(given.start) == 0 then
    return say(given.start .. " isn't there: tools/class-path writes it")
  end
  start_for(buffer)
  vim.keymap.set("i", given.key, on_key, { buffer = buffer, desc = "insynth: complete, or the next page" })
end

local function attach_all()
  for _, buffer in ipairs(vim.api.nvim_list_bufs()) do
    if vim.api.nvim_buf_is_loaded(buffer) and vim.bo[buffer].filetype == "java" then
      attach(buffer)
    end
  end
end

vim.api.nvim_create_autocmd("FileType", {
  group = group,
  pattern = "java",
  callback = function(event)
    attach(event.buf)
  end,
})

vim.api.nvim_create_autocmd("CompleteDone", {
  group = group,
  callback = function()
    if menu and not menu.turning then
      close_menu()
    end
  end,
})

vim.api.nvim_create_user_command("InsynthLog", function()
  vim.cmd("split " .. vim.fn.fnameescape(log_path()))
  vim.cmd("silent! edit | normal! G") -- as it is by now
end, { desc = "Opens the log, where the server's standard error stands" })

vim.api.nvim_create_user_command("InsynthRestart", function()
  local client = client_id and vim.lsp.get_client_by_id(client_id)
  client_id, menu = nil, nil
  if client then
    vim.lsp.stop_client(client.id)
  end
  vim.defer_fn(attach_all, 500)
end, { desc = "Starts the server anew" })

attach_all()
