#!/usr/bin/env python3
"""Times the start over a class path, and prints a table: class_path.py --start START [options].

The time runs from the program's start to the answer of `initialize`, with one processor and with more (--processors): as many threads
parse class files. Beside it stands the time in which `cat` reads the same files. All were read once before.
"""
import argparse
import os
import statistics
import subprocess
import sys
import time
from pathlib import Path

sys.dont_write_bytecode = True
from first_page import TOP, Server


def cat(paths):
    """The seconds in which cat reads the files."""
    begin = time.perf_counter()
    subprocess.run(["xargs", "-d", "\n", "cat"], input="\n".join(paths).encode(), stdout=subprocess.DEVNULL, check=True)
    return time.perf_counter() - begin


def started(given):
    """The seconds to the answer of initialize, and the most memory in MB."""
    server = Server(given.program, given.start, {}, given.patience)
    found = server.started, server.memory("VmHWM")
    server.end()
    return found


def row(title, seconds, memory=None):
    print(f"| {title} | {len(seconds)} | {statistics.median(seconds):.3f} | {min(seconds):.3f} | {f'{memory:,.0f}' if memory else ''} |", flush=True)


def measure(given):
    paths = [it for it in Path(given.start).read_text(encoding="utf-8").split("\n") if it]
    sizes = [os.path.getsize(it) for it in paths]
    cat(paths)
    print(f"{len(paths):,} class files, {sum(sizes) / 1e6:,.1f} MB.\n\n| | times | median s | least s | most MB |\n|---|---|---|---|---|")
    row("`cat`", [cat(paths) for _ in range(given.times)])
    every = sorted(os.sched_getaffinity(0))
    for count in given.processors:
        os.sched_setaffinity(0, every[:count])
        runs = [started(given) for _ in range(given.times)]
        row(f"start, {count} processor{'s' if count > 1 else ''}", [it[0] for it in runs], max(it[1] for it in runs))
    os.sched_setaffinity(0, every)


def words():
    parser = argparse.ArgumentParser(description=__doc__, formatter_class=argparse.RawDescriptionHelpFormatter)
    parser.add_argument("--program", default=os.path.join(TOP, "insynthd"), help="the server (%(default)s)")
    parser.add_argument("--start", required=True, help="a start text, as tools/class-path writes it")
    parser.add_argument("--processors", type=int, nargs="+", default=[1, 4])
    parser.add_argument("--times", type=int, default=5)
    parser.add_argument("--patience", type=float, default=60, help="seconds for one answer (%(default)s)")
    return parser.parse_args()


if __name__ == "__main__":
    measure(words())
