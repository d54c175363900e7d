#!/usr/bin/env python3
"""Times the first page where lambdas nest 0 to 3 deep, and prints a table: depths.py --program PROGRAM [options].

At two holes, `JToggleButton b = ` and `JFormattedTextField f = `, over the public classes of eight packages of a JDK (--jdk), all
imported with star, the first page is asked for at each depth. The constructor of the second one takes any object and so any
lambda. Each row is a server of its own, started anew for each of --rounds; a time is the processor's from the request to the
answer, the least of the rounds, and memory is the most that the server ever took. Growth is the time by that of the depth before.
Goals of one's own, each a simple name, may stand behind the options.
"""
import argparse
import os
import sys
import tempfile

sys.dont_write_bytecode = True
from first_page import TOP
from holes import JDK, PACKAGES, Session, load, start_text

GOALS = ("JToggleButton", "JFormattedTextField")
DEPTHS = range(4)


def text_at(goal):
    """A text with a hole of this class that imports all packages, and the line and column of the hole."""
    imports = "".join(f"import {it}.*;\n" for it in PACKAGES.split(",") if it != "java.lang")
    head = f"package use;\n{imports}class Use {{\n    static void go() {{\n"
    line = f"        {goal} {goal[1].lower()} = "
    return head + line + "\n    }\n}\n", {"line": head.count("\n"), "character": len(line)}


def first_page(given, start, goal, depth):
    """The page, the seconds of the processor, and the server's most memory in MB."""
    text, where = text_at(goal)
    server = Session(given.program, start, {"depth": depth, "limit": given.limit}, given.patience)
    try:
        server.open(goal, text)
        page, _, worked = server.complete(goal, where)
        return page, worked, server.memory("VmHWM")
    finally:
        server.end()


def rows(given, start, goal):
    """Prints the rows of a goal."""
    before = None
    for depth in DEPTHS:
        runs = [first_page(given, start, goal, depth) for _ in range(given.rounds)]
        page, seconds, memory = min(runs, key=lambda run: run[1])
        if page is None:
            sys.exit(f"depths.py: there is no list at a hole of {goal}")
        growth = f"{seconds / before:.1f}" if before else ""
        items = f"{len(page['items'])}, {'last' if page['insynth']['last'] else 'more'}"
        print(f"| `{goal}` | {depth} | {seconds * 1000:,.1f} | {growth} | {memory:,.0f} | {items} |", flush=True)
        before = seconds


def words():
    parser = argparse.ArgumentParser(description=__doc__, formatter_class=argparse.RawDescriptionHelpFormatter)
    parser.add_argument("--program", default=os.path.join(TOP, "insynthd"), help="the server (%(default)s)")
    parser.add_argument("--jdk", default=JDK, help="without --start (%(default)s)")
    parser.add_argument("--start", help="a start text in place of the JDK's public classes of the eight packages")
    parser.add_argument("--rounds", type=int, default=3)
    parser.add_argument("--limit", type=int, default=4000, help="the greatest weight (%(default)s)")
    parser.add_argument("--patience", type=float, default=120, help="seconds for one answer (%(default)s)")
    parser.add_argument("goals", nargs="*", default=GOALS)
    return parser.parse_args()


def main():
    given = words()
    with tempfile.TemporaryDirectory() as folder:
        start = given.start or os.path.join(folder, "start.txt")
        if not given.start:
            start_text(start, given.jdk)
        print("| goal | depth | first page, ms | growth | most MB | items |\n|---|---|---|---|---|---|")
        for goal in given.goals:
            rows(given, start, goal)
    print(f"\n{load()}")


if __name__ == "__main__":
    main()
