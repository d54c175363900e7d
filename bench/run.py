#!/usr/bin/env python3
"""Times `insynthd list` on generated sheets, `insynthd sample` and `insynthd upgrade`, and prints a table of each: run.py [ROUNDS].

The program is first called by its script, which builds it where it isn't built; then it is timed itself. The time of reading is that of the same sheet with a goal that no declaration makes: it is read, checked
and found to have no term. The first line is counted from the start to the first byte that comes out. Each number is the least of the
rounds (3 unless given). The high-water is of resident memory, as it stood when the last piece came out. Growth is the whole time by that of the
next smaller size of its case. A sample of 1,000,000 is to take less than a second. A sheet of
some 16 MB is upgraded in at most 1.3 times the time of its reading: that of `list` where its last line is a declaration that is too light,
which is found when all else was read and checked.
"""
import os
import subprocess
import sys
import tempfile
import time

import generate

ROWS = [("classes", 1000), ("classes", 10000), ("classes", 50000), ("dead", 1000), ("dead", 10000), ("lambdas", 2000), ("deep", 30), ("deep", 300)]
SAMPLES = [1, 3, 1000000]
LARGE = 333800  # declarations; the sheet has 16,769,182 bytes

TOP = os.path.join(os.path.dirname(os.path.abspath(__file__)), "..")
PROGRAM = os.path.join(TOP, "crates", "insynthd", "out", "insynthd")


def high_water(pid):
    """The most resident memory of a process so far in KiB, 0 where it has ended."""
    try:
        with open("/proc/%d/status" % pid) as status:
            return next((int(line.split()[1]) for line in status if line.startswith("VmHWM:")), 0)
    except OSError:
        return 0


def one_run(path, words, wanted):
    """First byte, whole time in seconds, lines, and high-water in KiB."""
    with open(path, "rb") as source:
        start = time.perf_counter()
        child = subprocess.Popen([PROGRAM, *words], stdin=source, stdout=subprocess.PIPE, stderr=subprocess.DEVNULL if wanted else None)
    first, lines, memory = None, 0, 0
    while piece := os.read(child.stdout.fileno(), 1 << 20):
        first = first or time.perf_counter() - start
        lines += piece.count(b"\n")
        memory = max(memory, high_water(child.pid))
    status = child.wait()
    whole = time.perf_counter() - start
    if status != wanted:
        sys.exit("insynthd ended with %d" % status)
    return first, whole, lines, memory


def without_terms(text):
    """The sheet with a goal that no declaration makes."""
    lines = [line for line in text.splitlines() if not line.startswith("goal ")]
    return "\n".join(lines + ["type Unmade", "goal Unmade"]) + "\n"


def best(path, rounds, words=("list",), wanted=0):
    runs = [one_run(path, words, wanted) for _ in range(rounds)]
    firsts = [run[0] for run in runs if run[0] is not None]
    return min(firsts, default=None), min(run[1] for run in runs), runs[0][2], max(run[3] for run in runs)


def measured(case, size, rounds, folder):
    text = generate.sheet(case, size)
    path = os.path.join(folder, "sheet")
    with open(path, "w") as sheet:
        sheet.write(without_terms(text))
    reading = best(path, rounds)[1]
    with open(path, "w") as sheet:
        sheet.write(text)
    return (reading,) + best(path, rounds)


def upgraded(rounds, folder):
    """The size of a large sheet, the seconds of its reading, and those in which it is upgraded."""
    path = os.path.join(folder, "sheet")
    with open(path, "w") as sheet:
        sheet.write(generate.sheet("classes", LARGE))
    size, whole = os.path.getsize(path), best(path, rounds, ("upgrade",))[1]
    with open(path, "a") as sheet:
        sheet.write("decl 4 T0 name y\n")
    return size, best(path, rounds, wanted=3)[1], whole


def main():
    rounds = int(sys.argv[1]) if len(sys.argv) > 1 else 3
    subprocess.run([os.path.join(TOP, "insynthd"), "list"], stdin=open(os.path.join(TOP, "examples", "first.sheet")), stdout=subprocess.DEVNULL, check=True)
    print("| case | size | lines | reading s | first line s | whole s | growth | memory MiB |")
    print("|---|---|---|---|---|---|---|---|")
    before = {}
    with tempfile.TemporaryDirectory() as folder:
        for case, size in ROWS:
            reading, first, whole, lines, memory = measured(case, size, rounds, folder)
            growth = "%.1f" % (whole / before[case]) if case in before else ""
            before[case] = whole
            print("| %s | %d | %d | %.3f | %.3f | %.3f | %s | %.1f |" % (case, size, lines, reading, first or whole, whole, growth, memory / 1024), flush=True)
    print("\n| sample | whole s | memory MiB |")
    print("|---|---|---|")
    for number in SAMPLES:
        _, whole, _, memory = best(os.devnull, rounds, ("sample", str(number)))
        print("| %d | %.3f | %.1f |" % (number, whole, memory / 1024), flush=True)
    with tempfile.TemporaryDirectory() as folder:
        size, reading, whole = upgraded(rounds, folder)
    print("\n| sheet, bytes | reading s | upgrade s | ratio |\n|---|---|---|---|")
    print("| %d | %.3f | %.3f | %.2f |" % (size, reading, whole, whole / reading), flush=True)


if __name__ == "__main__":
    main()
