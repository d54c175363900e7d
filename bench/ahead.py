#!/usr/bin/env python3
"""Times second pages where workers lengthen lists ahead, and what these cost an idle server: ahead.py --start START [options].

At each of --times holes `BufferedReader value = `, no two in the same environment, the first page of twenty is asked for, and the
second one some time (--pause) after its answer: by a server without workers, and by one with two. A time runs from the request's last
byte to the answer's; beside it stand how many of the requests took at most a millisecond, and the most items that were found for one. Then a server with
eight workers is left alone for ten seconds, once it has answered a page, and the processor's time of all its threads in these is told.
"""
import argparse
import os
import statistics
import sys
import time

sys.dont_write_bytecode = True
from first_page import TOP, Server

HEAD = "import java.io.*;\nimport java.util.*;\nclass Use {\n    static void go(String text%d, int size) {\n"
LINE = "        BufferedReader value = "
TAIL = "\n    }\n}\n"
USE = "file:///Use.java"
PAGE, WORKERS, MOST_WORKERS, IDLE = 20, 2, 8, 10


def start(given, workers):
    words = ["--ahead", str(workers)] if workers else []
    return Server(given.program, given.start, {"count": PAGE}, given.patience, words)


def first(server, number):
    """The first page at a hole of its own."""
    text = HEAD % number + LINE + TAIL
    server.notify("textDocument/didOpen", {"textDocument": {"uri": USE, "languageId": "java", "version": 1, "text": text}})
    where = {"line": HEAD.count("\n"), "character": len(LINE)}
    return server.request("textDocument/completion", {"textDocument": {"uri": USE}, "position": where})


def second(server, answer):
    cursor = answer["result"]["insynth"]["cursor"]
    return server.request("workspace/executeCommand", {"command": "insynth.page", "arguments": [{"cursor": cursor, "count": PAGE}]})


def row(title, taken):
    seconds = sorted(it[1] for it in taken)
    soon = sum(it <= 0.001 for it in seconds)
    found = max(it[0]["result"]["insynth"]["grown"] for it in taken)
    print(f"| {title} | {len(taken)} | {statistics.median(seconds) * 1000:,.2f} | {seconds[-1] * 1000:,.2f} | {soon} | {found} |", flush=True)


def pages(given, workers):
    server = start(given, workers)
    firsts, seconds = [], []
    for number in range(given.times):
        firsts.append(first(server, number))
        time.sleep(given.pause)
        seconds.append(second(server, firsts[-1][0]))
    server.end()
    told = f"with {workers} workers" if workers else "without workers"
    row(f"first page, {told}", firsts)
    row(f"second page, {told}", seconds)


def worked(server):
    """The processor's seconds so far, of all threads."""
    total = 0
    for task in os.listdir(f"/proc/{server.child.pid}/task"):
        with open(f"/proc/{server.child.pid}/task/{task}/schedstat", encoding="utf-8") as source:
            total += int(source.read().split()[0])
    return total / 1e9


def idle(given, workers):
    server = start(given, workers)
    first(server, 0)
    time.sleep(1)
    before = worked(server)
    time.sleep(IDLE)
    after = worked(server)
    server.end()
    return after - before


def measure(given):
    print("| | times | median ms | most ms | within 1 ms | most found |\n|---|---|---|---|---|---|")
    pages(given, 0)
    pages(given, WORKERS)
    print(f"\nIn {IDLE} idle seconds: {idle(given, 0) * 1000:,.1f} ms without workers, {idle(given, MOST_WORKERS) * 1000:,.1f} ms with {MOST_WORKERS}.")


def words():
    parser = argparse.ArgumentParser(description=__doc__, formatter_class=argparse.RawDescriptionHelpFormatter)
    parser.add_argument("--program", default=os.path.join(TOP, "insynthd"), help="the server (%(default)s)")
    parser.add_argument("--start", required=True, help="a start text, as tools/class-path writes it")
    parser.add_argument("--times", type=int, default=50)
    parser.add_argument("--pause", type=float, default=0.05, help="seconds between the first page and the second (%(default)s)")
    parser.add_argument("--patience", type=float, default=60, help="seconds for one answer (%(default)s)")
    return parser.parse_args()


if __name__ == "__main__":
    measure(words())
