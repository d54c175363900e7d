#!/usr/bin/env python3
"""Times a publication of source files, and compares classes of source files with those of class files: sources.py --start START [options].

First --files Java files of --lines lines each, which name each other, are published as `sources`, --times times by one server that
started without classes; beside it stands the time in which `cat` reads them. The time runs from the request's last byte to the answer's.

Then --classes classes of the class path START, each with those nested in it, are written as Java files: signatures alone, with erased
types by their canonical names. One server has the class files of the whole class path; another one has those of the others, and is then
published the Java files, with the names of all classes of the class path as `known`. At holes of the types String, int, boolean and Object
after a parameter of each of these classes both are asked for the first page, and pages that differ are told. What no source text can
say, or the server doesn't read of one, is left out of the choice: enums, records, annotations, and classes whose names hold a `$` of their own.
"""
import argparse
import os
import statistics
import subprocess
import sys
import tempfile
import time
from pathlib import Path

sys.dont_write_bytecode = True
from first_page import TOP, Late, Server, spelling
import class_files
from class_files import ABSTRACT, INTERFACE, MODULE, PUBLIC, STATIC, SYNTHETIC, parameters

PROTECTED, ANNOTATION, ENUM = 0x4, 0x2000, 0x4000
GOALS = ("java.lang.String", "int", "boolean", "java.lang.Object")
WORDS = {PUBLIC: "public", PROTECTED: "protected", STATIC: "static", ABSTRACT: "abstract"}


# ---- many files

def body(place, count):
    """The text of one of many files: a class with fields and methods of the types of the others."""
    lines = [f"package p{place % 10};", "", "import java.util.*;", f"import p{(place + 1) % 10}.*;", "", f"public class C{place} {{"]
    member = 0
    while len(lines) < count - 1:
        other = (place * 7 + member) % 1000
        lines += [
            f"    private p{other % 10}.C{other} field{member};",
            "",
            f"    /** The field {member}, or one made from these. */",
            f"    public C{(place + 10 * member) % 1000} method{member}(C{(place + 11 + 10 * member) % 1000} other, List<String> names, int... counts) {{",
            "        if (counts.length > 0 && names.contains(\"x\" + counts[0])) {",
            "            return null; // none",
            "        }",
            "        return other.method0(null, names, counts);",
            "    }",
            "",
        ]
        member += 1
    return "\n".join(lines[: count - 1] + ["}", ""])


def published(server, sources, known=()):
    answer, took, worked = server.request("workspace/executeCommand", {"command": "insynth.publish", "arguments": [{"sources": sources, "known": list(known)}]}, 600)
    if "error" in answer:
        sys.exit(f"sources.py: the publication was refused: {answer['error']}")
    return took, worked


def many(given, folder):
    paths = []
    for place in range(given.files):
        path = folder / f"C{place}.java"
        path.write_text(body(place, given.lines))
        paths.append(path)
    size = sum(it.stat().st_size for it in paths)
    nothing = folder / "nothing.txt"
    nothing.write_text("")
    server = Server(given.program, str(nothing), {}, given.patience)
    uris = [it.as_uri() for it in paths]
    taken = [published(server, uris) for _ in range(given.times)]
    server.end()
    begin = time.perf_counter()
    subprocess.run(["xargs", "-d", "\n", "cat"], input="\n".join(map(str, paths)).encode(), stdout=subprocess.DEVNULL, check=True)
    cat = time.perf_counter() - begin
    print(f"{given.files:,} source files of {given.lines} lines, {size / 1e6:,.1f} MB.\n\n| | times | median s | least s | processor s |\n|---|---|---|---|---|")
    print(f"| publication | {len(taken)} | {statistics.median(it[0] for it in taken):.3f} | {min(it[0] for it in taken):.3f} | {min(it[1] for it in taken):.2f} |")
    print(f"| `cat` | 1 | {cat:.3f} | {cat:.3f} | |\n", flush=True)


# ---- a class path as source files

def words(flags):
    return "".join(f"{word} " for flag, word in WORDS.items() if flags & flag)


def params(descriptor):
    return ", ".join(f"{spelling(kind)} a{place}" for place, kind in enumerate(parameters(descriptor)))


def dotted(name):
    return name.replace("/", ".").replace("$", ".")


def method(simple, it, is_interface):
    """A method's signature, with a body where its class wants one."""
    if it.name == "<init>":
        return f"{words(it.flags)}{simple}({params(it.descriptor)}) {{ }}"
    result = spelling(it.descriptor.partition(")")[2])
    default = "default " if is_interface and not it.flags & (ABSTRACT | STATIC) else ""
    return f"{words(it.flags)}{default}{result} {it.name}({params(it.descriptor)})" + (";" if it.flags & ABSTRACT else " { }")


def text_of(name, classes, depth=0):
    """A class with the classes nested in it, as Java."""
    it = classes[name]
    row = it.nesting.get(name)
    flags = row[2] if row else it.flags
    simple = row[1] if row else name.rpartition("/")[2]
    is_interface = bool(it.flags & INTERFACE)
    head = f"{words(flags & ~ABSTRACT if is_interface else flags)}{'interface' if is_interface else 'class'} {simple}"
    parents, above = it.supers[:1], it.supers[1:]
    if parents and parents != ["java/lang/Object"]:
        head += f" extends {dotted(parents[0])}"
    if above:
        head += (" extends " if is_interface else " implements ") + ", ".join(map(dotted, above))
    pad = "    " * depth
    lines = [f"{pad}{head} {{"]
    fields, methods = it.kept_members()
    lines += [f"{pad}    {words(f.flags)}{spelling(f.descriptor)} {f.name};" for f in fields]
    lines += [f"{pad}    {method(simple, m, is_interface)}" for m in methods if m.name != "<clinit>"]
    if not is_interface and not any(m.name == "<init>" for m in methods):
        lines.append(f"{pad}    private {simple}() {{ }}")
    for inner, (outer, own, _) in sorted(it.nesting.items()):
        if outer == name and own and inner in classes:
            lines.append(text_of(inner, classes, depth + 1))
    return "\n".join(lines + [f"{pad}}}"])


def is_plain(name, classes):
    """Whether a class and those nested in it can be written so."""
    it = classes.get(name)
    if it is None:
        return True  # a private one isn't there, or the class path lacks it
    if it.flags & (ENUM | ANNOTATION | MODULE | SYNTHETIC) or "java/lang/Record" in it.supers:
        return False
    simple = name.rpartition("/")[2]
    row = it.nesting.get(name)
    if "$" in (row[1] if row else simple) or any("$" in m.name for m in it.fields + it.methods):
        return False
    return all(is_plain(inner, classes) for inner, (outer, own, _) in it.nesting.items() if outer == name and own)


def within(name, classes):
    """The names of a class and of those nested in it."""
    yield name
    for inner, (outer, own, _) in classes[name].nesting.items():
        if outer == name and own and inner in classes:
            yield from within(inner, classes)


def chosen(classes, count):
    """Public classes of packages, chosen evenly in the order of their names."""
    able = sorted(n for n, it in classes.items() if it.flags & PUBLIC and "$" not in n and n.startswith("java/") and not n.startswith("java/lang/") and is_plain(n, classes))
    return [able[i * len(able) // count] for i in range(min(count, len(able)))]


def page(server, name, goal):
    """The items of the first page at a hole after a parameter of a class."""
    text = f"class Use {{ static void go({dotted(name)} it) {{ {goal} value = "
    server.notify("textDocument/didOpen", {"textDocument": {"uri": "file:///Use.java", "languageId": "java", "version": 1, "text": text}})
    answer, _, _ = server.request("textDocument/completion", {"textDocument": {"uri": "file:///Use.java"}, "position": {"line": 0, "character": len(text)}}, 600)
    return [(it["detail"], it["label"]) for it in (answer["result"] or {"items": []})["items"]]


def compared(given, folder):
    lines = [it for it in Path(given.start).read_text(encoding="utf-8").split("\n") if it]
    classes, paths = {}, {}
    for line in lines:
        it = class_files.read_class(Path(line).read_bytes())
        classes[it.name], paths[it.name] = it, line
    names = chosen(classes, given.classes)
    taken = {inner for name in names for inner in within(name, classes)}
    rest = folder / "rest.txt"
    rest.write_text("".join(f"{paths[it]}\n" for it in classes if it not in taken))
    uris = []
    for name in names:
        package, _, simple = name.rpartition("/")
        path = folder / (name.replace("/", ".") + ".java")
        path.write_text(f"package {package.replace('/', '.')};\n\n{text_of(name, classes)}\n")
        uris.append(path.as_uri())
    options = {"limit": 400, "count": 200}
    whole, other = Server(given.program, given.start, options, given.patience), Server(given.program, str(rest), options, given.patience)
    took, _ = published(other, uris, sorted(set(classes) - taken))
    holes, items, apart = 0, 0, []
    for name in names:
        for goal in GOALS:
            left, right = page(whole, name, goal), page(other, name, goal)
            holes, items = holes + 1, items + len(left)
            if left != right:
                apart.append((name, goal, [it for it in left if it not in right][:3], [it for it in right if it not in left][:3]))
    whole.end()
    other.end()
    print(f"{len(names):,} classes with {len(taken) - len(names):,} nested ones as source files, published in {took:.3f} s over {len(classes) - len(taken):,} classes.\n"
          f"{holes:,} holes with {items:,} items: {len(apart):,} pages differ.")
    for name, goal, left, right in apart[: given.told]:
        print(f"  {name}, {goal}: only by class files {left}, only by sources {right}")


def main():
    parser = argparse.ArgumentParser(description=__doc__, formatter_class=argparse.RawDescriptionHelpFormatter)
    parser.add_argument("--program", default=os.path.join(TOP, "insynthd"), help="the server (%(default)s)")
    parser.add_argument("--start", help="a start text, as tools/class-path --public writes it; without it nothing is compared")
    parser.add_argument("--files", type=int, default=1000)
    parser.add_argument("--lines", type=int, default=300)
    parser.add_argument("--classes", type=int, default=200)
    parser.add_argument("--times", type=int, default=5)
    parser.add_argument("--told", type=int, default=20, help="how many pages that differ are told (%(default)s)")
    parser.add_argument("--patience", type=float, default=60, help="seconds for one answer (%(default)s)")
    given = parser.parse_args()
    try:
        with tempfile.TemporaryDirectory() as folder:
            if given.files:
                many(given, Path(folder))
        with tempfile.TemporaryDirectory() as folder:
            if given.start:
                compared(given, Path(folder))
    except Late as why:
        sys.exit(f"sources.py: {why}")


if __name__ == "__main__":
    main()
