#!/usr/bin/env python3
"""Times hostile inputs at a size, twice and four times it, and prints a table: costs.py PROGRAM [--rounds N] [--only WORD]

Each input is a session of PROGRAM `serve`: class files that it starts with or is told to publish, a text that is opened, and the
completion at a hole. A time is processor time in seconds of the whole session, the least of the rounds, without that of a session
over an empty class. An exponent is the growth from the size before: 1 where the time is linear. The last column says what is
answered at the greatest size: a list, null, or an error.
"""
import argparse
import json
import math
import os
import subprocess
import sys
import tempfile

PLAIN, INTERFACE = 0x21, 0x601
URI = "file:///Use.java"
TAIL = " } }"


# ---- class files (JVMS 4.1, 4.4, 4.7.6)

class Pool:
    """The constant pool of a class file: texts and classes, each once."""

    def __init__(self):
        self.bytes, self.places = bytearray(), {}

    def add(self, key, entry):
        if key not in self.places:
            self.bytes += entry
            self.places[key] = (len(self.places) + 1).to_bytes(2, "big")
        return self.places[key]

    def text(self, words):
        return self.add(words, b"\1" + len(words).to_bytes(2, "big") + words.encode())

    def named(self, name):
        return self.add((name,), b"\7" + self.text(name))


def class_file(name, above="java/lang/Object", interfaces=(), rows=(), flags=PLAIN):
    """A class without members; each row is an inner class, the class around it and its simple name."""
    pool, two = Pool(), lambda number: number.to_bytes(2, "big")
    own = two(flags) + pool.named(name) + pool.named(above)
    listed = two(len(interfaces)) + b"".join(map(pool.named, interfaces))
    nesting = b"".join(pool.named(inner) + pool.named(outer) + pool.text(simple) + two(PLAIN) for inner, outer, simple in rows)
    told = two(0)
    if rows:
        told = two(1) + pool.text("InnerClasses") + (len(nesting) + 2).to_bytes(4, "big") + two(len(rows)) + nesting
    return b"\xca\xfe\xba\xbe" + two(0) + two(52) + two(len(pool.places) + 1) + bytes(pool.bytes) + own + listed + two(0) + two(0) + told


def written(folder, classes):
    """The paths of class files that are written to a folder."""
    paths = []
    for number, data in enumerate(classes):
        paths.append(os.path.join(folder, f"{number}.class"))
        with open(paths[-1], "wb") as target:
            target.write(data)
    return paths


# ---- the inputs: class files, whether they are published by a request, and the text before the hole

def interfaces(size):
    return [class_file("p/Wide", interfaces=[f"p/I{it}" for it in range(size)])], False, "import p.*; class Use { void m(Wide wide) { Wide r = "


def circle(size):
    return [], False, "".join(f"class C{it} extends C{(it + 1) % size} {{}} " for it in range(size)) + "class Use { void m(C0 c) { C1 r = "


def dotted(size):
    return [], False, "".join(f"class C{it} extends a.b.C{it} {{ a.b.D{it} f; }} " for it in range(size)) + "class Use { void m(C0 c) { C0 r = "


def nested(size):
    return [], False, "".join(f"class N{it} {{ " for it in range(size)) + "class Use { void m(N0 c) { N0 r = "


def published(size):
    return [class_file(f"p/C{it}") for it in range(size)], True, "import p.*; class Use { void m(C0 c) { C0 r = "


def outer(size, name="p/N{0:05}"):
    rows = [(name.format(it, -it % 100_000), name.format(it - 1, (1 - it) % 100_000), f"N{it}") for it in range(1, size)]
    files = [class_file(name.format(it, -it % 100_000), rows=rows[max(it - 1, 0):it]) for it in range(size)]
    return files, False, "import p.*; class Use { void m(N0 c) { N0 r = "


def turned(size):
    return outer(size, "p/N{1:05}")


def variables(size):
    bounds = ", ".join(f"T{it} extends T{(it + 1) % size}" for it in range(size))
    return [], False, f"class Use<{bounds}> {{ void m(T0 c) {{ T1 r = "


def fields(size):
    return [], False, "class Use { " + "".join(f"int f{it}; " for it in range(size)) + "void m(int c) { int r = "


def words(size):
    return [], False, "class Use { void m(int c) { " + "integer = inter + classes.returned; " * size + "int r = "


def imports(size):
    named = "".join(f"import p.I{it}; " for it in range(size))
    return [], False, named + "".join(f"class C{it} {{}} " for it in range(size)) + "class Use { void m(C0 c) { C0 r = "


INPUTS = [
    ("one class with N interfaces", interfaces, 8_000),
    ("a text of N classes in a circle of extends", circle, 1_000),
    ("a text of N classes with dotted names", dotted, 1_000),
    ("a text of N classes, each in the one before", nested, 500),
    ("a publication of N classes", published, 20_000),
    ("class files of N classes, each in the one before", outer, 500),
    ("such class files, the outer class behind by name", turned, 500),
    ("N type variables in a circle of bounds", variables, 3_200),
    ("a class of N fields", fields, 3_200),
    ("a method of N lines without a reserved word", words, 25_000),
    ("a text of N classes and N imports", imports, 1_000),
]


# ---- a session

def frame(body):
    body = json.dumps({"jsonrpc": "2.0", **body}).encode()
    return b"Content-Length: %d\r\n\r\n" % len(body) + body


def session(paths, asks, text):
    """The frames of a session that may publish, opens a text and completes at its end."""
    yield frame({"id": 1, "method": "initialize"})
    if asks:
        files = {"put": ["file://" + it for it in paths]}
        yield frame({"id": 2, "method": "workspace/executeCommand", "params": {"command": "insynth.publish", "arguments": [files]}})
    document = {"uri": URI, "languageId": "java", "version": 1, "text": text + TAIL}
    yield frame({"method": "textDocument/didOpen", "params": {"textDocument": document}})
    where = {"textDocument": {"uri": URI}, "position": {"line": 0, "character": len(text)}}
    yield frame({"id": 3, "method": "textDocument/completion", "params": where})
    yield frame({"id": 4, "method": "shutdown"})
    yield frame({"method": "exit"})


def run(program, start, stream):
    """The processor time of a session, and what it ends with."""
    with tempfile.TemporaryFile() as given, tempfile.TemporaryFile() as said:
        given.write(stream)
        given.seek(0)
        child = subprocess.Popen([program, "serve", "--start", start], stdin=given, stdout=said)
        _, status, usage = os.wait4(child.pid, 0)
        child.returncode = status
        said.seek(0)
        answers = said.read()
    answer = "an error" if b'"error"' in answers else "list" if b'"items"' in answers else "null"
    return usage.ru_utime + usage.ru_stime, answer if status == 0 else f"status {os.waitstatus_to_exitcode(status)}"


def timed(program, rounds, made):
    """The least processor time of so many sessions over an input, and what they are answered."""
    files, asks, text = made
    with tempfile.TemporaryDirectory() as folder:
        paths = written(folder, files)
        start = os.path.join(folder, "start.txt")
        with open(start, "w", encoding="utf-8") as target:
            target.write("".join(f"{it}\n" for it in paths if not asks))
        stream = b"".join(session(paths, asks, text))
        return min(run(program, start, stream) for _ in range(rounds))


def row(given, base, title, made, size):
    times, answer = [], ""
    for factor in (1, 2, 4):
        taken, answer = timed(given.program, given.rounds, made(size * factor))
        times.append(max(taken - base, 0.001))
    grown = [f"{math.log2(after / before):.2f}" for before, after in zip(times, times[1:])]
    sizes = f"{size:,}, {2 * size:,}, {4 * size:,}"
    print(f"| {title} | {sizes} | {' | '.join(f'{it:.2f}' for it in times)} | {' | '.join(grown)} | {answer} |", flush=True)


def main():
    parser = argparse.ArgumentParser(description=__doc__, formatter_class=argparse.RawDescriptionHelpFormatter)
    parser.add_argument("program")
    parser.add_argument("--rounds", type=int, default=3)
    parser.add_argument("--only", default="", help="a word of the inputs that are wanted")
    given = parser.parse_args()
    given.program = os.path.abspath(given.program)
    base, _ = timed(given.program, given.rounds, ([], False, "class Use { void m(int c) { int r = "))
    print("| input | N | s | s | s | exponent | exponent | answer |\n|---|---|---|---|---|---|---|---|")
    for title, made, size in INPUTS:
        if given.only in title:
            row(given, base, title, made, size)
    print(f"\nAn empty class takes {base:.2f} s. Load of the machine at the end: {os.getloadavg()[0]:.1f} on {os.cpu_count()} processors.")


if __name__ == "__main__":
    main()
