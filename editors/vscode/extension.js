// Completion of Java by insynthd in VS Code, with nothing but VS Code's own interface and Node's own library. A command asks
// at the cursor and shows the expressions with their weights in a list to pick from; its last row fetches the next page.
"use strict";
const { spawn } = require("child_process");
const vscode = require("vscode");

const CAUSES = {
  3: "the server doesn't know this file",
  4: "the server has lost this file's text",
  5: "the server's text of this file has no such line",
  6: "this list is closed, ask again",
};

const WITHDRAWN = -32801; // the code of a page of a version that was withdrawn

/** A connection to a running server. */
class Server {
  constructor(program, words, log) {
    this.number = 0;
    this.waiting = new Map(); // number of a request -> what takes its answer
    this.sent = new Map(); // URI -> the version of the text that the server has
    this.held = Buffer.alloc(0);
    this.child = spawn(program, words);
    this.child.stdout.on("data", (piece) => this.take(piece));
    this.child.stderr.on("data", (piece) => log.append(piece.toString()));
    this.child.stdin.on("error", () => {}); // the exit says why
    this.ended = new Promise((resolve) => {
      this.child.on("error", (fault) => resolve(`${program} can't be run: ${fault.message}`));
      this.child.on("exit", (code, signal) => resolve(`the server ended with status ${code === null ? signal : code}`));
    });
    this.ended.then((why) => {
      this.why = why;
      for (const { reject } of this.waiting.values()) reject(new Error(why));
      this.waiting.clear();
    });
  }

  send(message) {
    const body = Buffer.from(JSON.stringify({ jsonrpc: "2.0", ...message }));
    this.child.stdin.write(Buffer.concat([Buffer.from(`Content-Length: ${body.length}\r\n\r\n`), body]));
  }

  notify(method, params) {
    this.send({ method, params });
  }

  request(method, params) {
    if (this.why) return Promise.reject(new Error(this.why));
    const id = ++this.number;
    this.send({ id, method, params });
    return new Promise((resolve, reject) => this.waiting.set(id, { resolve, reject }));
  }

  command(command, argument) {
    return this.request("workspace/executeCommand", { command, arguments: [argument] });
  }

  /** Takes bytes of the server, and hands on each answer that is whole. */
  take(piece) {
    this.held = Buffer.concat([this.held, piece]);
    for (;;) {
      const head = this.held.indexOf("\r\n\r\n");
      if (head < 0) return;
      const length = Number(/content-length: *(\d+)/i.exec(this.held.toString("latin1", 0, head))[1]);
      if (this.held.length < head + 4 + length) return;
      const answer = JSON.parse(this.held.toString("utf8", head + 4, head + 4 + length));
      this.held = this.held.subarray(head + 4 + length);
      this.answered(answer);
    }
  }

  answered({ id, result, error }) {
    const asked = this.waiting.get(id);
    this.waiting.delete(id);
    if (!asked) return;
    if (error && error.code === WITHDRAWN) asked.reject(new Error("the class path has changed since, ask again"));
    else if (error) asked.reject(new Error(CAUSES[error.data && error.data.cause] || `refused: ${error.message} (${error.code})`));
    else asked.resolve(result);
  }

  /** Sends the whole text, where the server hasn't it yet. */
  show(document) {
    const uri = document.uri.toString();
    const known = this.sent.get(uri);
    if (known === undefined) {
      this.notify("textDocument/didOpen", { textDocument: { uri, languageId: "java", version: document.version, text: document.getText() } });
    } else if (known !== document.version) {
      this.notify("textDocument/didChange", { textDocument: { uri, version: document.version }, contentChanges: [{ text: document.getText() }] });
    }
    this.sent.set(uri, document.version);
    return uri;
  }

  hide(document) {
    const uri = document.uri.toString();
    if (this.sent.delete(uri) && !this.why) this.notify("textDocument/didClose", { textDocument: { uri } });
  }

  /** Tells the server to end. */
  async stop() {
    if (this.why) return;
    await this.request("shutdown", null).catch(() => {});
    if (!this.why) this.notify("exit", null);
  }
}

let log;
let server; // a promise of the one server that is ready, undefined where none runs

async function start() {
  const given = vscode.workspace.getConfiguration("insynth");
  const words = given.get("start") ? ["serve", "--start", given.get("start")] : ["serve"];
  const fresh = new Server(given.get("program"), words, log);
  fresh.ended.then((why) => {
    server = undefined;
    log.appendLine(why);
  });
  const options = { limit: given.get("limit"), depth: given.get("depth"), count: given.get("count") };
  await fresh.request("initialize", { processId: process.pid, rootUri: null, capabilities: {}, initializationOptions: options }).catch((fault) => {
    fresh.child.kill();
    throw fault;
  });
  fresh.notify("initialized", {});
  return fresh;
}

function rows(items) {
  return items.map((item) => ({ label: item.label, description: item.detail, item }));
}

/** Shows a list to pick from, and answers the item that is taken, or undefined. */
function pick(running, list) {
  const menu = vscode.window.createQuickPick();
  const next = { label: "next page", alwaysShow: true, isNext: true };
  const count = vscode.workspace.getConfiguration("insynth").get("count");
  let last = list.insynth.last;
  let shown = rows(list.items);
  menu.items = last ? shown : [...shown, next];
  return new Promise((resolve) => {
    menu.onDidHide(() => resolve(undefined));
    menu.onDidAccept(async () => {
      const [row] = menu.selectedItems;
      if (!row || !row.isNext) return resolve(row && row.item);
      menu.busy = true;
      const page = await running.command("insynth.page", { cursor: list.insynth.cursor, count }).catch((fault) => vscode.window.showWarningMessage(`insynth: ${fault.message}`));
      menu.busy = false;
      if (!page || !page.items) return resolve(undefined);
      const added = rows(page.items);
      last = page.insynth.last;
      shown = [...shown, ...added];
      menu.items = last ? shown : [...shown, next];
      if (added.length) menu.activeItems = [added[0]];
    });
    menu.show();
  }).finally(() => {
    menu.dispose();
    running.command("insynth.close", { cursor: list.insynth.cursor }).catch(() => {});
  });
}

async function put(editor, version, item) {
  if (editor.document.version !== version) throw new Error("the text has changed since, ask again");
  const { start, end } = item.textEdit.range;
  const range = new vscode.Range(start.line, start.character, end.line, end.character);
  await editor.edit((edit) => edit.replace(range, item.textEdit.newText));
}

async function complete() {
  const editor = vscode.window.activeTextEditor;
  if (!editor) return;
  if (!server) {
    server = start();
    const started = server.catch(() => {}); // who asked says what is wrong
    vscode.window.setStatusBarMessage('insynth: the server is starting (the output "insynth" says how far it is)', started);
  }
  const running = await server;
  const uri = running.show(editor.document);
  const { version } = editor.document;
  const { line, character } = editor.selection.active;
  const list = await running.request("textDocument/completion", { textDocument: { uri }, position: { line, character } });
  if (!list) {
    vscode.window.setStatusBarMessage("insynth: no hole here: no value is to be written, or its type isn't known", 5000);
    return;
  }
  const item = await pick(running, list);
  if (item) await put(editor, version, item);
}

async function stop() {
  const old = server;
  server = undefined;
  if (old) await old.then((running) => running.stop()).catch(() => {});
}

function said(work) {
  return () => work().catch((fault) => vscode.window.showWarningMessage(`insynth: ${fault.message} (see the output "insynth")`));
}

function activate(context) {
  log = vscode.window.createOutputChannel("insynth");
  context.subscriptions.push(
    log,
    vscode.commands.registerCommand("insynth.complete", said(complete)),
    vscode.commands.registerCommand("insynth.restart", said(stop)),
    vscode.workspace.onDidCloseTextDocument((document) => {
      if (server) server.then((running) => running.hide(document)).catch(() => {});
    }),
  );
}

module.exports = { activate, deactivate: stop };
