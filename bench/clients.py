#!/usr/bin/env python3
"""Times several clients of one server, and prints tables: clients.py --start START [options].

Each client but one has a pair of named pipes, and the server a thread for each; that one has its standard input and output. A
time runs from the request's last byte to the answer's; the processor's time is that of all of the server's threads. Each part
has servers of its own:
- publications: one class file put into so many classes of the start text (--sizes), and the completion of another client after
  it, which is of the new version;
- pages: those that one client, and then all (--clients), are answered a second, where each publishes, completes and takes eight
  further pages, again and again (--seconds);
- paging: the pages of a client before, and while another one publishes (--publications);
- search: the first page at one hole, which nobody asked for before, by one client and by eight at once, and the same again;
- listing: further pages of a list (--pages) by two clients in turn: those of the first are found for it, those of the second
  are found already;
- memory: what first pages at so many holes (--holes) leave.
The file that is published is the first of the start text, again. Each part ends by itself, whatever the server does.
"""
import argparse
import errno
import os
import signal
import subprocess
import sys
import tempfile
import threading
import time
from pathlib import Path

sys.dont_write_bytecode = True
from first_page import ALWAYS, PUBLIC, TOP, Late, Server, declarations, goals, hole, package_of, read_classes
from session import HEAD, LINE, TAIL, USE, row

PAGE = 20
FURTHER = 8
NEEDED = ("/java/lang/Object.class", "/java/lang/String.class")


class Wire:
    """One end of the server that has the others' process."""

    def __init__(self, child, stdin, stdout):
        self.child, self.stdin, self.stdout = child, stdin, stdout

    def __getattr__(self, name):
        return getattr(self.child, name)


class Client(Server):
    """A session over a pair of pipes, with one text open."""

    def __init__(self, wire, patience):
        self.child = wire
        self.held, self.number, self.patience, self.cursor, self.place = b"", 0, patience, None, None

    def worked(self):
        """The seconds that processors worked for all threads so far."""
        threads = f"/proc/{self.child.pid}/task"
        return sum(int(Path(threads, it, "schedstat").read_text(encoding="utf-8").split()[0]) for it in os.listdir(threads)) / 1e9

    def begin(self):
        self.request("initialize", {"capabilities": {}}, 600)
        self.notify("initialized", {})
        self.open(HEAD + LINE + TAIL, (HEAD.count("\n"), len(LINE)))

    def open(self, text, place):
        """Opens a text in place of the one that was open."""
        self.place = {"line": place[0], "character": place[1]}
        self.notify("textDocument/didOpen", {"textDocument": {"uri": USE, "languageId": "java", "version": 1, "text": text}})

    def complete(self):
        answer = self.request("textDocument/completion", {"textDocument": {"uri": USE}, "position": self.place})
        self.cursor = (answer[0].get("result") or {}).get("insynth", {}).get("cursor")
        return answer

    def command(self, name, argument):
        return self.request("workspace/executeCommand", {"command": name, "arguments": [argument]})

    def page(self, count=PAGE):
        return self.command("insynth.page", {"cursor": self.cursor, "count": count})

    def publish(self, path):
        return self.command("insynth.publish", {"put": [Path(path).absolute().as_uri()]})

    def leave(self):
        self.request("shutdown", None)
        self.notify("exit", None)


class Clients:
    """A server and so many clients of it."""

    def __init__(self, given, start, count):
        self.folder = tempfile.TemporaryDirectory()
        pairs = [(f"{self.folder.name}/{number}in", f"{self.folder.name}/{number}out") for number in range(1, count)]
        for pipe in [it for pair in pairs for it in pair]:
            os.mkfifo(pipe)
        words = [given.program, "serve", "--start", start, *[f"{source}={sink}" for source, sink in pairs]]
        self.child = subprocess.Popen(words, stdin=subprocess.PIPE, stdout=subprocess.PIPE)
        try:
            ends = [(self.child.stdin, self.child.stdout), *[self.opened(*pair) for pair in pairs]]
            self.all = [Client(Wire(self.child, *pair), given.patience) for pair in ends]
            at_once(self.all, Client.begin)
        except BaseException:
            self.end()
            raise

    def opened(self, source, sink):
        """The other sides of a pair, which the server opens in this order, one after the other."""
        while self.child.poll() is None:
            try:
                written = os.open(source, os.O_WRONLY | os.O_NONBLOCK)
            except OSError as fault:
                if fault.errno != errno.ENXIO:
                    raise
                time.sleep(0.01)
                continue
            os.set_blocking(written, True)
            return open(written, "wb"), open(sink, "rb", buffering=0)
        raise Late(f"the server ended with status {self.child.returncode}")

    def __enter__(self):
        return self

    def __exit__(self, fault, *_):
        try:
            for client in [] if fault else self.all:
                client.leave()
            self.child.wait(0 if fault else 60)
        except (Late, OSError, subprocess.TimeoutExpired):
            self.end()

    def end(self):
        self.child.kill()
        self.child.wait()


def at_once(found, call):
    """What the call gives for each client, all in threads of their own."""
    given, wrong = [None] * len(found), []

    def work(place):
        try:
            given[place] = call(found[place])
        except Exception as fault:  # (a thread's fault is told by the thread that waits for it)
            wrong.append(fault)

    threads = [threading.Thread(target=work, args=(place,), daemon=True) for place in range(len(found))]
    for it in threads:
        it.start()
    for it in threads:
        it.join()
    if wrong:
        raise wrong[0]
    return given


def table(title):
    print(f"\n{title}\n\n| | times | median ms | 95th percentile ms | processor, median ms |\n|---|---|---|---|---|", flush=True)


def subset(lines, size, folder):
    """A start text of so many of the lines, evenly chosen, with what each text needs."""
    needed = [it for it in lines if it.endswith(NEEDED)]
    others = [it for it in lines if it not in needed]
    left = max(0, min(size, len(lines)) - len(needed))
    chosen = needed + [others[number * len(others) // left] for number in range(left)]
    path = os.path.join(folder, f"start{size}.txt")
    Path(path).write_text("".join(f"{it}\n" for it in chosen), encoding="utf-8")
    return path


def publications(given, lines, folder):
    table("Publications, and another client's completion after each.")
    for size in given.sizes:
        with Clients(given, subset(lines, size, folder), 2) as server:
            one, other = server.all
            other.complete()
            changes, after = [], []
            for _ in range(given.times):
                changes.append(one.publish(lines[0]))
                after.append(other.complete())
                version = changes[-1][0]["result"]["version"]
                if after[-1][0]["result"]["insynth"]["version"] != version:
                    raise SystemExit(f"clients: version {version} was published, and another one is listed")
            row(f"publication into {min(size, len(lines)):,}", changes)
            row("completion after it", after)


def works(client, path, until):
    """How many pages the client is answered until then, and how many publications it makes."""
    done = [0, 0]

    def asked(kind, call):
        answer = call()
        done[kind] += time.perf_counter() < until
        return answer[0]

    while time.perf_counter() < until:
        asked(1, lambda: client.publish(path))
        answer = asked(0, client.complete)
        for _ in range(FURTHER):
            if answer["result"]["insynth"]["last"] or time.perf_counter() > until:
                break
            answer = asked(0, client.page)
    return done


def pages(given, lines, _):
    print(f"\nClients that publish, complete and page at once, for {given.seconds:g} seconds.\n\n| clients | pages a second | publications a second |\n|---|---|---|")
    for count in sorted({1, given.clients}):
        with Clients(given, given.start, count) as server:
            at_once(server.all, Client.complete)
            until = time.perf_counter() + given.seconds
            done = at_once(server.all, lambda client: works(client, lines[0], until))
            found, changes = (sum(it[kind] for it in done) / given.seconds for kind in (0, 1))
            print(f"| {count} | {found:,.1f} | {changes:,.1f} |", flush=True)


def paged(client, is_over):
    """The pages that the client is answered until it is over."""
    taken = []
    while not is_over():
        answer = client.page(1)
        taken.append(answer)
        if answer[0]["result"]["insynth"]["last"]:
            client.complete()
    return taken


def published(client, path, times, until):
    taken = []
    while len(taken) < times and time.perf_counter() < until:
        taken.append(client.publish(path))
    return taken


def paging(given, lines, _):
    table("Pages of one item by a client that does nothing else.")
    with Clients(given, given.start, 2) as server:
        one, other = server.all
        other.complete()
        end = time.perf_counter() + given.seconds
        row("page", paged(other, lambda: time.perf_counter() > end))
        changes = []
        begin = time.perf_counter()
        work = threading.Thread(target=lambda: changes.extend(published(one, lines[0], given.publications, begin + given.longest)), daemon=True)
        work.start()
        taken = paged(other, lambda: not work.is_alive())
        work.join()
        row("page while another one publishes", taken)
        row("publication meanwhile", changes)
        print(f"\nThe longest page took {max(it[1] for it in taken) * 1000:,.2f} ms; {len(taken) / (time.perf_counter() - begin):,.0f} pages a second.")


def search(given, *_):
    print("\nThe first page at one hole.\n\n| clients | longest ms | all processors, ms | the same again, longest ms | all processors, ms |\n|---|---|---|---|---|")
    for count in (1, 8):
        with Clients(given, given.start, count) as server:
            cells = []
            for _ in range(2):
                before = server.all[0].worked()
                answers = at_once(server.all, Client.complete)
                cells += [max(it[1] for it in answers) * 1000, (server.all[0].worked() - before) * 1000]
            print(f"| {count} | " + " | ".join(f"{it:,.1f}" for it in cells) + " |", flush=True)


def wide(classes):
    """A text that imports all packages below `java`, the place of its hole, and how many declarations are in reach."""
    packages = sorted({package_of(it.name) for it in classes if it.flags & PUBLIC and it.name.startswith("java/")})
    head = "".join(f"import {it.replace('/', '.')}.*;\n" for it in packages if it != "java/lang") + HEAD[HEAD.index("class"):]
    return head + LINE + TAIL, (head.count("\n"), len(LINE)), declarations(classes, packages)


def listing(given, *_):
    classes, _ = read_classes(given.start)
    text, place, many = wide(classes)
    few = declarations(classes, ALWAYS)
    for about, opened in ((f"some {few:,}", (HEAD + LINE + TAIL, (HEAD.count("\n"), len(LINE)))), (f"some {many:,}", (text, place))):
        table(f"A list of two clients at a hole with {about} declarations.")
        with Clients(given, given.start, 2) as server:
            one, other = server.all
            for client in server.all:
                client.open(*opened)
            row("first page", [one.complete()])
            row("first page, found already", [other.complete() for _ in range(given.times)])
            here, there = [], []
            for _ in range(given.pages):
                here.append(one.page())
                there.append(other.page())
            row(f"further page of {PAGE}", here)
            row("the same, found already", there)


def memory(given, *_):
    classes, _ = read_classes(given.start)
    with Clients(given, given.start, 1) as server:
        client, found = server.all[0], 0
        before, end = client.memory("VmRSS"), time.perf_counter() + given.longest
        for number, goal in enumerate(goals(classes, given.holes)):
            if time.perf_counter() > end:
                break
            client.open(*hole(number, goal)[:2])
            client.complete()
            found += client.cursor is not None
        print(f"\nMemory: {before:,.0f} MB before, {client.memory('VmRSS'):,.0f} MB after first pages at {found} holes, at most {client.memory('VmHWM'):,.0f} MB.")


PARTS = {it.__name__: it for it in (publications, pages, paging, search, listing, memory)}


def words():
    parser = argparse.ArgumentParser(description=__doc__, formatter_class=argparse.RawDescriptionHelpFormatter)
    parser.add_argument("--program", default=os.path.join(TOP, "insynthd"), help="the server (%(default)s)")
    parser.add_argument("--start", required=True, help="a start text, as tools/class-path writes it")
    parser.add_argument("--parts", default=",".join(PARTS), help="which of them (%(default)s)")
    parser.add_argument("--clients", type=int, default=64, help="how many there are at most, 1 to 64 (%(default)s)")
    parser.add_argument("--sizes", type=lambda it: [int(size) for size in it.split(",")], default=[800, 1600, 3200, 6400])
    parser.add_argument("--times", type=int, default=20)
    parser.add_argument("--publications", type=int, default=1000)
    parser.add_argument("--pages", type=int, default=50)
    parser.add_argument("--holes", type=int, default=256)
    parser.add_argument("--seconds", type=float, default=5, help="how long pages are counted (%(default)s)")
    parser.add_argument("--longest", type=float, default=300, help="seconds after which publications and holes are given up (%(default)s)")
    parser.add_argument("--most", type=int, default=900, help="seconds after which a part is given up (%(default)s)")
    parser.add_argument("--patience", type=float, default=60, help="seconds for one answer (%(default)s)")
    return parser.parse_args()


def late(*_):
    raise Late("it took too long")


def main():
    given = words()
    lines = [it for it in Path(given.start).read_text(encoding="utf-8").split("\n") if it]
    signal.signal(signal.SIGALRM, late)
    with tempfile.TemporaryDirectory() as folder:
        for part in given.parts.split(","):
            signal.alarm(given.most)
            try:
                PARTS[part](given, lines, folder)
            except (Late, OSError) as fault:
                print(f"\nclients: {part} wasn't measured whole: {fault}", flush=True)
            signal.alarm(0)


if __name__ == "__main__":
    main()
