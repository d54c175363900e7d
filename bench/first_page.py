#!/usr/bin/env python3
"""Times completions over a JDK's public packages, and prints a page of results: first_page.py [options].

Fifty holes (--holes) are chosen evenly among the public classes of the packages that java.base exports, in the order of their
names: `GOAL value = ` in a method with a String, an int and the parameters of one of GOAL's constructors, in a file that
imports GOAL's package, java.util and java.io with star. At each the first page is asked for, the second, and the first once
more in an unchanged text. One server answers them all, one after the other. A time runs from the request's last byte to the
answer's, beside it stands for how long a processor worked; a percentile is of the requests that were answered with a list. An answer that doesn't come within --patience seconds
is counted, and the server is started anew. After an interrupt the results so far are printed. Declarations are the public members of the classes in reach and what a hole adds.
"""
import argparse
import json
import os
import select
import shutil
import signal
import statistics
import subprocess
import sys
import tempfile
import time

TOP = os.path.dirname(os.path.dirname(os.path.abspath(__file__)))
sys.dont_write_bytecode = True
sys.path.insert(0, os.path.join(TOP, "tools"))
import class_files  # noqa: E402
from class_files import ABSTRACT, INTERFACE, PUBLIC  # noqa: E402

PRIMITIVES = {"B": "byte", "C": "char", "D": "double", "F": "float", "I": "int", "J": "long", "S": "short", "Z": "boolean", "V": "void"}
ALWAYS = ("java/lang", "java/util", "java/io")


class Late(Exception):
    """An answer that didn't come in time, or a server that ended."""


class Server:
    """A running server, one request at a time."""

    def __init__(self, program, start, options, patience, words=()):
        begin = time.perf_counter()
        self.child = subprocess.Popen([program, "serve", "--start", start, *words], stdin=subprocess.PIPE, stdout=subprocess.PIPE)
        self.held, self.number, self.patience = b"", 0, patience
        self.request("initialize", {"capabilities": {}, "initializationOptions": options}, 600)
        self.notify("initialized", {})
        self.started = time.perf_counter() - begin

    def send(self, message):
        body = json.dumps({"jsonrpc": "2.0", **message}).encode()
        self.child.stdin.write(b"Content-Length: %d\r\n\r\n%s" % (len(body), body))
        self.child.stdin.flush()

    def notify(self, method, params):
        self.send({"method": method, "params": params})

    def more(self, end):
        left = end - time.perf_counter()
        if left <= 0 or not select.select([self.child.stdout], [], [], left)[0]:
            raise Late("no answer in time")
        piece = os.read(self.child.stdout.fileno(), 1 << 20)
        if not piece:
            raise Late(f"the server ended with status {self.child.wait()}")
        self.held += piece

    def request(self, method, params, patience=None):
        """The answer, the seconds that it took, and those in which a processor worked for it."""
        self.number += 1
        worked = self.worked()
        self.send({"id": self.number, "method": method, "params": params})
        begin = time.perf_counter()
        end = begin + (patience or self.patience)
        while b"\r\n\r\n" not in self.held:
            self.more(end)
        head, _, self.held = self.held.partition(b"\r\n\r\n")
        length = int(head.split(b":")[1])
        while len(self.held) < length:
            self.more(end)
        took = time.perf_counter() - begin
        body, self.held = self.held[:length], self.held[length:]
        return json.loads(body), took, self.worked() - worked

    def worked(self):
        """The processor's seconds so far, in hundredths."""
        with open(f"/proc/{self.child.pid}/stat", encoding="utf-8") as stat:
            fields = stat.read().rpartition(")")[2].split()
        return (int(fields[11]) + int(fields[12])) / os.sysconf("SC_CLK_TCK")

    def memory(self, name):
        with open(f"/proc/{self.child.pid}/status", encoding="utf-8") as status:
            return next(int(line.split()[1]) for line in status if line.startswith(name)) / 1024

    def end(self):
        self.child.kill()
        self.child.wait()


# ---- holes

def spelling(descriptor):
    dims = descriptor.count("[")
    base = descriptor[dims:]
    name = PRIMITIVES[base] if base in PRIMITIVES else base[1:-1].replace("/", ".").replace("$", ".")
    return name + "[]" * dims


def package_of(name):
    return name.rpartition("/")[0]


def goals(classes, count):
    """Every k-th of the public classes that aren't nested and have a public constructor or are interfaces."""
    fit = [it for it in classes if it.flags & PUBLIC and it.name not in it.nesting and (it.flags & INTERFACE or constructors(it))]
    return [fit[number * len(fit) // count] for number in range(min(count, len(fit)))]


def constructors(it):
    return [] if it.flags & ABSTRACT else [m for m in it.methods if m.name == "<init>" and m.flags & PUBLIC]


def hole(number, goal):
    """A text with a hole of the class as goal, its place, and the packages in reach."""
    built = constructors(goal)
    given = class_files.parameters(built[number % len(built)].descriptor) if built else []
    parameters = ["String text", "int size"] + [f"{spelling(it)} given{place}" for place, it in enumerate(given)]
    packages = sorted({package_of(goal.name), *ALWAYS})
    imports = "".join(f"import {it.replace('/', '.')}.*;\n" for it in packages if it != "java/lang")
    head = f"package bench;\n{imports}class Use {{\n    static void go({', '.join(parameters)}) {{\n"
    line = f"        {spelling('L' + goal.name + ';')} value = "
    return head + line + "\n    }\n}\n", (head.count("\n"), len(line)), packages, len(parameters)


def declarations(classes, packages):
    """How many public members the classes of these packages have: fields, methods with a result, constructors."""
    total = 0
    for it in classes:
        if package_of(it.name) in packages and it.flags & PUBLIC:
            fields, methods = it.kept_members()
            total += sum(bool(m.flags & PUBLIC) for m in fields) + len(constructors(it))
            total += sum(bool(m.flags & PUBLIC) and m.name not in ("<init>", "<clinit>") and not m.descriptor.endswith("V") for m in methods)
    return total


# ---- the bench

class Times:
    """What was measured of one kind of request."""

    def __init__(self, title):
        self.title, self.seconds, self.none, self.late, self.items = title, [], 0, 0, []
        self.worked = []

    def take(self, answer, took, worked):
        if answer.get("result") is None:
            self.none += 1
            return None
        self.seconds.append(took)
        self.worked.append(worked)
        self.items.append(len(answer["result"]["items"]))
        return answer["result"]

    def row(self):
        if not self.seconds:
            return f"| {self.title} | 0 | | | | | {self.none} | {self.late} |"
        at = sorted(self.seconds)
        most = at[min(len(at) - 1, int(len(at) * 0.95))]
        return (f"| {self.title} | {len(at)} | {statistics.median(at) * 1000:,.1f} | {most * 1000:,.1f} | {at[-1] * 1000:,.1f} | "
                f"{statistics.median(self.worked) * 1000:,.0f} | {self.none} | {self.late} |")


def ask_thrice(server, uri, text, place, times, count):
    """The first page, the second and the first again. Raises Late."""
    server.notify("textDocument/didOpen", {"textDocument": {"uri": uri, "languageId": "java", "version": 1, "text": text}})
    where = {"textDocument": {"uri": uri}, "position": {"line": place[0], "character": place[1]}}
    kind = 0
    try:
        first = times[0].take(*server.request("textDocument/completion", where))
        if first is None:
            return False
        kind = 1
        page = {"command": "insynth.page", "arguments": [{"cursor": first["insynth"]["cursor"], "count": count}]}
        if not first["insynth"]["last"]:
            times[1].take(*server.request("workspace/executeCommand", page))
        kind = 2
        times[2].take(*server.request("textDocument/completion", where))
    except Late:
        times[kind].late += 1
        raise
    return True


def start_text(given, folder):
    if given.start:
        return given.start
    path = os.path.join(folder, "start.txt")
    subprocess.run([os.path.join(TOP, "tools", "class-path"), "--public", "-o", path, given.jdk], check=True)
    return path


def read_classes(path):
    with open(path, encoding="utf-8") as source:
        paths = [it for it in source.read().split("\n") if it]
    classes, size = [], 0
    for it in paths:
        with open(it, "rb") as file:
            data = file.read()
        size += len(data)
        classes.append(class_files.read_class(data))
    return sorted(classes), size


def measure(given, start, classes):
    options = {key: value for key, value in (("limit", given.limit), ("count", given.count)) if value}
    times = [Times("first page"), Times("second page"), Times("the same hole again")]
    server, starts, sizes, high, missed = None, [], [], 0, []
    signal.signal(signal.SIGTERM, signal.default_int_handler)
    for number, goal in enumerate(goals(classes, given.holes)):
        text, place, packages, added = hole(number, goal)
        if server is None:
            server = Server(given.program, start, options, given.patience)
            starts.append((server.started, server.memory("VmRSS")))
        sizes.append(declarations(classes, packages) + added)
        print(f"first_page: {number + 1} of {given.holes}: {goal.name}", file=sys.stderr, flush=True)
        try:
            if not ask_thrice(server, f"file:///bench/Use{number}.java", text, place, times, given.count):
                missed.append(goal.name)
            high = max(high, server.memory("VmHWM"))
        except Late as fault:
            print(f"first_page: {goal.name}: {fault}", file=sys.stderr)
            missed.append(goal.name)
            server.end()
            server = None
        except KeyboardInterrupt:
            break
    if server:
        server.end()
    return times, starts, sizes, high, missed


def words():
    parser = argparse.ArgumentParser(description=__doc__, formatter_class=argparse.RawDescriptionHelpFormatter)
    parser.add_argument("--program", default=os.path.join(TOP, "insynthd"), help="the server (%(default)s)")
    parser.add_argument("--jdk", default=os.environ.get("JAVA_HOME") or os.path.dirname(os.path.dirname(os.path.realpath(shutil.which("javac") or "/none"))))
    parser.add_argument("--start", help="a start text in place of the JDK's public classes")
    parser.add_argument("--holes", type=int, default=50)
    parser.add_argument("--count", type=int, default=20, help="expressions on a page (%(default)s)")
    parser.add_argument("--limit", type=int, help="the greatest weight; the server's own without it")
    parser.add_argument("--patience", type=float, default=60, help="seconds for one answer (%(default)s)")
    return parser.parse_args()


def main():
    given = words()
    with tempfile.TemporaryDirectory() as folder:
        start = start_text(given, folder)
        classes, size = read_classes(start)
        times, starts, sizes, high, missed = measure(given, start, classes)
    print(f"{len(classes):,} classes of {size / 1e6:,.1f} MB, {sum(it.parts() for it in classes):,} parts of an index; pages of {given.count}.\n")
    print("| asked for | answered | median ms | 95th percentile ms | most ms | processor, median ms | no hole | late |\n|---|---|---|---|---|---|---|---|")
    for it in times:
        print(it.row())
    print(f"\nStarting: {statistics.median(it[0] for it in starts):,.2f} s, then {statistics.median(it[1] for it in starts):,.0f} MB of memory; "
          f"at most {high:,.0f} MB later.")
    print(f"Declarations at a hole: median {statistics.median(sizes):,.0f}, at most {max(sizes):,}. "
          f"Items of a first page: median {statistics.median(times[0].items or [0]):,.0f}.")
    if missed:
        print(f"Without a list: {', '.join(missed)}.")
    return 0


if __name__ == "__main__":
    sys.exit(main())
