#!/usr/bin/env python3
"""Counts uses in class files, publishes them, and prints a page of what they change: counts.py --program PROGRAM [options].

The uses in all class files of two modules of a JDK (--jdk), java.base and java.desktop, are counted by `count --start`, and by
tools/CountUses.java over the JDK's own reader of class files, which --java runs (24 or later); the lines have to be equal, byte
for byte. Beside them stands the time in which the files are read and nothing else. tools/counts makes of the lines the counts
of the public classes of eight packages, and a server over these is asked for the first page at three holes, before and
after all counts were published in one change.
It exits with 1 where the lines differ.
"""
import argparse
import hashlib
import os
import subprocess
import sys
import tempfile
import time
from pathlib import Path

sys.dont_write_bytecode = True
from first_page import TOP
from holes import HOLES, JDK, Session, load, start_text, text_at

MODULES = ("java.base", "java.desktop")
JAVA = "/usr/lib/jvm/temurin-25-jdk-amd64"


def class_files(jdk, folder):
    """A text of all class files of the modules, one path a line."""
    laid = Path(folder, "modules")
    for module in MODULES:
        subprocess.run([f"{jdk}/bin/jimage", "extract", "--dir", str(laid), "--include", f"regex:/{module}/.*[.]class", f"{jdk}/lib/modules"], check=True)
    paths = sorted(str(it) for it in laid.rglob("*.class"))
    text = Path(folder, "all.txt")
    text.write_text("".join(f"{it}\n" for it in paths), encoding="utf-8")
    return str(text), paths


def timed(words, path=None):
    """The seconds that a program takes and those of its processor, and its most memory in MB. Its output goes to a file."""
    begin = time.perf_counter()
    with open(path or os.devnull, "wb") as out:
        child = subprocess.Popen(words, stdout=out)
        _, status, usage = os.wait4(child.pid, 0)
    if status:
        sys.exit(f"counts.py: {words[0]} ended with status {os.waitstatus_to_exitcode(status)}")
    return time.perf_counter() - begin, usage.ru_utime + usage.ru_stime, usage.ru_maxrss / 1024


def read_all(paths):
    """The seconds in which all files are read, and those of the processor."""
    begin, worked = time.perf_counter(), time.process_time()
    size = 0
    for path in paths:
        with open(path, "rb", buffering=0) as file:
            size += len(file.read())
    return time.perf_counter() - begin, time.process_time() - worked, size


def tell(title, seconds, worked, memory=None):
    print(f"| {title} | {seconds:,.2f} | {worked:,.2f} | {f'{memory:,.0f}' if memory else ''} |", flush=True)


def count(given, folder):
    """Both counts of all files. Answers the path of the lines, and whether they are equal."""
    text, paths = class_files(given.jdk, folder)
    read_all(paths)  # so that the files are in memory for each
    lines, others = os.path.join(folder, "lines"), os.path.join(folder, "others")
    seconds, worked, size = read_all(paths)
    print(f"{len(paths):,} class files of {' and '.join(MODULES)}, {size / 1e6:,.1f} MB.\n")
    print("| | s | processor, s | most MB |\n|---|---|---|---|")
    tell("reading the files, by Python", seconds, worked)
    tell("`count --start`", *timed([given.program, "count", "--start", text], lines))
    tell("the JDK's reader", *timed([f"{given.java}/bin/java", os.path.join(TOP, "tools", "CountUses.java"), text], others))
    ours, theirs = Path(lines).read_bytes(), Path(others).read_bytes()
    print(f"\n{ours.count(10):,} lines of {len(ours):,} bytes, SHA-256 {hashlib.sha256(ours).hexdigest()[:16]}; "
          f"those of the JDK's reader {'are equal' if ours == theirs else 'DIFFER'}. {load()}\n", flush=True)
    return lines, ours == theirs


def pages(server):
    """The first page at each hole, with its times; the second of two, since the first request of a server takes longer."""
    found = {}
    for goal in HOLES:
        text, _, where = text_at(goal)
        server.open(goal, text)
        server.complete(goal, where)
        found[goal] = server.complete(goal, where)
    return found


def published(server, lines):
    """Publishes counts, as tools/counts writes them, in one change. Answers how many, and the seconds."""
    counts = []
    for line in lines.splitlines():
        number, _, key = line.partition(" ")
        counts.append([key, int(number)])
    answer, took, worked = server.command("insynth.publish", put=[], remove=[], counts=counts)
    return len(counts), answer["version"], took, worked


def show(goal, before, after):
    print(f"\n| `{goal} value =`: without counts | | with counts | |\n|---|---|---|---|")
    for one, two in zip(before[0]["items"], after[0]["items"]):
        print(f"| `{one['label']}` | {one['detail']} | `{two['label']}` | {two['detail']} |")
    print(f"| *{before[1] * 1000:,.1f} ms, processor {before[2] * 1000:,.1f} ms* | | *{after[1] * 1000:,.1f} ms, processor {after[2] * 1000:,.1f} ms* | |")


def words():
    parser = argparse.ArgumentParser(description=__doc__, formatter_class=argparse.RawDescriptionHelpFormatter)
    parser.add_argument("--program", default=os.path.join(TOP, "insynthd"), help="the server (%(default)s)")
    parser.add_argument("--jdk", default=JDK, help="whose class files are counted (%(default)s)")
    parser.add_argument("--java", default=JAVA, help="the JDK whose reader counts them too (%(default)s)")
    parser.add_argument("--lines", help="what `count --start` wrote; nothing is counted then")
    parser.add_argument("--start", help="a start text in place of the eight packages")
    parser.add_argument("--count", type=int, default=8, help="expressions on a page (%(default)s)")
    return parser.parse_args()


def main():
    given, equal = words(), True
    with tempfile.TemporaryDirectory(prefix="counts-") as folder:
        lines = given.lines
        if not lines:
            lines, equal = count(given, folder)
        start = given.start or os.path.join(folder, "start.txt")
        if not given.start:
            start_text(start, given.jdk)
        made = subprocess.run([os.path.join(TOP, "tools", "counts"), lines, start], stdout=subprocess.PIPE, check=True).stdout.decode()
        server = Session(given.program, start, {"count": given.count}, 600)
        before = pages(server)
        number, version, took, worked = published(server, made)
        after = pages(server)
        server.end()
    print(f"{number:,} counts by `tools/counts`, published as version {version} in {took * 1000:,.0f} ms, processor {worked * 1000:,.0f} ms. {load()}")
    for goal in HOLES:
        show(goal, before[goal], after[goal])
    return 0 if equal else 1


if __name__ == "__main__":
    sys.exit(main())
