#!/usr/bin/env python3
"""Times the parts of a session besides first pages, and prints a table: session.py --start START [options].

They are the start over class files, a completion at one hole whose list is long, the same completion again, settings of the weights
that stand already and the same completion in the version after them, pages of twenty from the item 1,000 on, first where they are still
to be found and then where another cursor has found them, and edits of one letter in a text of one megabyte. A time runs from the request's last byte to the answer's. An edit has no answer, so its time
is that of the edit and of a request after it that only looks for a cursor; the row before tells what such a request takes.
"""
import argparse
import os
import statistics
import sys
import time

sys.dont_write_bytecode = True
from first_page import TOP, Server

HEAD = "import java.io.*;\nimport java.util.*;\nclass Use {\n    static void go(String text, int size) {\n"
LINE = "        String value = "
TAIL = "\n    }\n}\n"
USE, BIG = "file:///Use.java", "file:///Big.java"
PAGE, FAR = 20, 1000
WEIGHTS = {"bound": 1, "binder": 1, "local": 5, "step": 10, "lambda": 10, "own": 20, "package": 25, "literal": 200, "far": 215, "span": 785}


class Session(Server):
    """A server with one long list and one long text."""

    def worked(self):
        """The processor's seconds so far."""
        with open(f"/proc/{self.child.pid}/schedstat", encoding="utf-8") as source:
            return int(source.read().split()[0]) / 1e9

    def open(self, uri, text):
        self.notify("textDocument/didOpen", {"textDocument": {"uri": uri, "languageId": "java", "version": 1, "text": text}})

    def complete(self):
        where = {"line": HEAD.count("\n"), "character": len(LINE)}
        return self.request("textDocument/completion", {"textDocument": {"uri": USE}, "position": where})

    def command(self, name, argument):
        return self.request("workspace/executeCommand", {"command": name, "arguments": [argument]})

    def page(self, cursor, count):
        return self.command("insynth.page", {"cursor": cursor, "count": count})

    def weigh(self):
        return self.command("insynth.weights", WEIGHTS)

    def look(self):
        return self.page(0, 1)

    def edit(self, line):
        """The seconds of an edit and of a look, and those of the processor."""
        at = {"line": line, "character": 0}
        worked, begin = self.worked(), time.perf_counter()
        self.notify("textDocument/didChange", {"textDocument": {"uri": BIG}, "contentChanges": [{"range": {"start": at, "end": at}, "text": "x"}]})
        answer, _, _ = self.look()
        return answer, time.perf_counter() - begin, self.worked() - worked

    def far(self, times):
        """Pages from the item 1,000 on, by a new cursor."""
        answer, _, _ = self.complete()
        cursor = answer["result"]["insynth"]["cursor"]
        self.page(cursor, FAR - PAGE)
        return [self.page(cursor, PAGE) for _ in range(times)]


def row(title, taken):
    seconds = sorted(it[1] for it in taken)
    most = seconds[min(len(seconds) - 1, int(len(seconds) * 0.95))]
    worked = statistics.median(it[2] for it in taken)
    print(f"| {title} | {len(taken)} | {statistics.median(seconds) * 1000:,.2f} | {most * 1000:,.2f} | {worked * 1000:,.2f} |", flush=True)


def start(given):
    return Session(given.program, given.start, {}, given.patience)


def starts(given):
    for _ in range(given.starts):
        session = start(given)
        yield None, session.started, session.worked()
        session.end()


def measure(given):
    print("| | times | median ms | 95th percentile ms | processor, median ms |\n|---|---|---|---|---|")
    row("start", list(starts(given)))
    session = start(given)
    session.open(USE, HEAD + LINE + TAIL)
    row("completion", [session.complete()])
    row("the same again", [session.complete() for _ in range(given.times)])
    row("setting of the weights", [session.weigh() for _ in range(given.times)])
    row("the same again after these", [session.complete() for _ in range(given.times)])
    row(f"page of {PAGE} from {FAR:,} on", session.far(given.times))
    row("the same, found already", session.far(given.times))
    text = HEAD + TAIL + "// a line of forty characters, and more..\n" * 24_000
    session.open(BIG, text)
    row("request that only looks", [session.look() for _ in range(given.times)])
    row(f"edit of a letter in {len(text) / 1e6:.1f} MB, and that", [session.edit(20_000 + number) for number in range(given.times)])
    print(f"\nMost memory: {session.memory('VmHWM'):,.0f} MB.")
    session.end()


def words():
    parser = argparse.ArgumentParser(description=__doc__, formatter_class=argparse.RawDescriptionHelpFormatter)
    parser.add_argument("--program", default=os.path.join(TOP, "insynthd"), help="the server (%(default)s)")
    parser.add_argument("--start", required=True, help="a start text, as tools/class-path writes it")
    parser.add_argument("--times", type=int, default=50)
    parser.add_argument("--starts", type=int, default=3)
    parser.add_argument("--patience", type=float, default=60, help="seconds for one answer (%(default)s)")
    return parser.parse_args()


if __name__ == "__main__":
    measure(words())
