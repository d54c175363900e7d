"""Folders of class files, with what choosing them needs: jars and a JDK's modules are laid out once, in a cache, by checksum."""
import contextlib
import hashlib
import json
import os
import shutil
import subprocess
import sys
import time
import zipfile
import zlib
from typing import NamedTuple

import class_files

PASSED_OVER = ("module-info.class", "package-info.class")


class Trouble(Exception):
    """What ends the run: one line, with the name of what is wrong."""


class Row(NamedTuple):
    """One class file: where it lies in its folder, and what choosing it needs."""
    file: str
    name: str
    public: bool  # the class itself, by its row of nesting where it is nested
    outer: str | None  # "" of a local or anonymous class, None of one that isn't nested
    parts: int
    size: int
    supers: list


class Place(NamedTuple):
    """A folder of class files."""
    folder: str
    rows: list
    exports: list | None = None  # of a module of a JDK
    project: bool = False  # its classes are used from their own packages


# ---- what is said

class Progress:
    """Lines on standard error, one every two seconds, once a piece of work takes more than a second."""

    def __init__(self):
        self.begin()

    def begin(self):
        self.start = time.monotonic()
        self.next = self.start + 1

    def tick(self, text):
        now = time.monotonic()
        if now > self.next:
            say(f"{text} ({now - self.start:.0f} s)")
            self.next = now + 2


PROGRESS = Progress()


def say(text):
    print(f"class-path: {text}", file=sys.stderr, flush=True)


def shown(path):
    return os.fsencode(path).decode("utf-8", "backslashreplace")


# ---- reading and laying out

def checksum(path):
    total = hashlib.sha256()
    with open(path, "rb") as source:
        while piece := source.read(1 << 22):
            total.update(piece)
            PROGRESS.tick(f"{shown(path)}: reading it for its checksum")
    return total.hexdigest()[:32]


def row_of(file, data):
    """The row of a class file's bytes. NoClassFile where they are none."""
    it = class_files.read_class(data)
    outer, simple, flags = it.nesting.get(it.name, (None, None, it.flags))
    if outer is not None and not (outer and simple):
        outer = ""
    return Row(file, it.name, bool(flags & class_files.PUBLIC), outer, it.parts(), len(data), it.supers)


def class_names(folder):
    """The class files below a folder, by their paths in it, in order."""
    for where, folders, files in os.walk(folder):
        folders.sort()
        for name in sorted(files):
            if name.endswith(".class") and name not in PASSED_OVER:
                yield os.path.relpath(os.path.join(where, name), folder)


def rows_below(folder, title):
    rows = []
    for file in class_names(folder):
        path = os.path.join(folder, file)
        with open(path, "rb") as source:
            data = source.read(class_files.MOST_BYTES + 1)
        try:
            rows.append(row_of(file, data))
        except class_files.NoClassFile as fault:
            say(f"{shown(path)}: left out, no class file: {fault}")
        PROGRESS.tick(f"{title}: {len(rows):,} classes read")
    return rows


class Cache:
    """A folder with a folder for each jar and module that was laid out, whole or not there at all."""

    def __init__(self, folder):
        self.folder = folder
        os.makedirs(folder, exist_ok=True)
        for name in os.listdir(folder):
            if name.startswith(".part-") and not os.path.exists(f"/proc/{name.split('-')[1]}"):
                shutil.rmtree(os.path.join(folder, name), ignore_errors=True)

    @contextlib.contextmanager
    def fresh(self, key):
        """A new folder, which gets its name `key` at the end, and is taken away where that isn't reached."""
        part = os.path.join(self.folder, f".part-{os.getpid()}-{key}")
        os.mkdir(part)
        try:
            yield part
            with contextlib.suppress(FileExistsError, OSError):  # another run laid it out meanwhile
                os.rename(part, os.path.join(self.folder, key))
        finally:
            shutil.rmtree(part, ignore_errors=True)

    def place(self, key, title, lay_out):
        """The place of `key`; where it isn't there, `lay_out` fills its folder classes/ and may answer exports."""
        folder = os.path.join(self.folder, key)
        if not os.path.isdir(folder):
            with self.fresh(key) as part:
                os.mkdir(os.path.join(part, "classes"))
                exports = lay_out(os.path.join(part, "classes"))
                rows = rows_below(os.path.join(part, "classes"), title)
                with open(os.path.join(part, "rows.json"), "w", encoding="utf-8", errors="surrogateescape") as sink:
                    json.dump({"exports": exports, "rows": rows}, sink)
        with open(os.path.join(folder, "rows.json"), encoding="utf-8", errors="surrogateescape") as source:
            kept = json.load(source)
        return Place(os.path.join(folder, "classes"), [Row(*row) for row in kept["rows"]], kept["exports"])


# ---- jars

def unpack(path, entries, folder):
    with zipfile.ZipFile(path) as jar:
        for number, entry in enumerate(entries):
            target = os.path.join(folder, *entry.filename.split("/"))
            os.makedirs(os.path.dirname(target), exist_ok=True)
            with jar.open(entry) as source, open(target, "wb") as sink:
                shutil.copyfileobj(source, sink)
            PROGRESS.tick(f"{shown(path)}: {number:,} of {len(entries):,} classes laid out")


def jar_entries(path):
    """The entries of the base classes of a jar. Says what is passed over."""
    with zipfile.ZipFile(path) as jar:
        infos = jar.infolist()
    names = [it.filename for it in infos]
    if any(it.startswith("META-INF/versions/") and it.endswith(".class") for it in names):
        say(f"{shown(path)}: a multi-release jar, the base classes are taken")
    inner = sum(it.endswith(".jar") for it in names)
    if inner:
        say(f"{shown(path)}: {inner} jar{'s' if inner > 1 else ''} inside, not looked into; unpack them and name them as well")
    taken = {}
    for it in infos:
        parts = it.filename.split("/")
        if parts[0] == "META-INF" or not parts[-1].endswith(".class") or parts[-1] in PASSED_OVER:
            continue
        if "" in parts or ".." in parts or "." in parts or "\0" in it.filename:
            raise Trouble(f"{shown(path)}: broken jar: it has an entry {it.filename!r}")
        if it.file_size > class_files.MOST_BYTES:
            say(f"{shown(path)}: {it.filename}: left out, longer than {class_files.MOST_BYTES:,} bytes")
            continue
        taken.setdefault(it.filename, it)
    return list(taken.values())


def jar_place(cache, path):
    try:
        entries = jar_entries(path)
        return cache.place(checksum(path), shown(path), lambda folder: unpack(path, entries, folder))
    except (zipfile.BadZipFile, zlib.error, EOFError, NotImplementedError, RuntimeError, ValueError) as fault:
        raise Trouble(f"{shown(path)}: broken jar: {fault}") from fault


# ---- JDKs

class Jdk:
    """A JDK's home with its modules, which its own tool lays out."""

    def __init__(self, home, cache):
        self.home, self.cache, self.places = home, cache, {}
        self.image = os.path.join(home, "lib", "modules")
        self.by_image = os.path.isfile(self.image)
        self.tool = os.path.join(home, "bin", "jimage" if self.by_image else "jmod")
        if not os.access(self.tool, os.X_OK):
            raise Trouble(f"{shown(self.tool)}: missing tool; a JDK has it, a mere runtime (JRE) may lack it")
        self.key = checksum(self.image if self.by_image else self.archive("java.base"))

    def archive(self, module):
        return os.path.join(self.home, "jmods", f"{module}.jmod")

    def run(self, title, *words):
        """The tool's standard output."""
        child = subprocess.Popen([self.tool, *words], stdin=subprocess.DEVNULL, stdout=subprocess.PIPE, stderr=subprocess.STDOUT)
        try:
            while True:
                try:
                    text = child.communicate(timeout=0.5)[0].decode("utf-8", "surrogateescape")
                    break
                except subprocess.TimeoutExpired:
                    PROGRESS.tick(title)
        finally:
            child.kill()
            child.wait()
        if child.returncode:
            raise Trouble(f"{shown(self.tool)}: ended with {child.returncode}: {shown(' '.join(text.split())[:300])}")
        return text

    def listed(self):
        """Yields each module with the text of what the tool lists of it."""
        if self.by_image:
            for part in self.run(f"{shown(self.home)}: listing its modules", "list", self.image).split("\nModule: ")[1:]:
                yield part.split("\n", 1)
        else:
            for name in sorted(os.listdir(os.path.join(self.home, "jmods"))):
                if name.endswith(".jmod"):
                    yield name[:-5], self.run(f"{shown(self.home)}: listing {name}", "list", self.archive(name[:-5]))

    def packages(self):
        """The module of each package."""
        def lay_out(part):
            owners = {}
            for module, text in self.listed():
                for line in text.split("\n"):
                    entry = line.strip().removeprefix("classes/")
                    if entry.endswith(".class") and "/" in entry:
                        owners[entry.rpartition("/")[0]] = module
            with open(os.path.join(part, "packages.json"), "w", encoding="utf-8") as sink:
                json.dump(owners, sink)
        key = f"{self.key}-packages"
        if not os.path.isdir(os.path.join(self.cache.folder, key)):
            with self.cache.fresh(key) as part:
                lay_out(part)
        with open(os.path.join(self.cache.folder, key, "packages.json"), encoding="utf-8") as source:
            return json.load(source)

    def extract(self, module, folder):
        """Lays the module's class files into the folder, and answers its exports."""
        title, aside = f"{shown(self.home)}: laying out {module}", f"{folder}-whole"
        if self.by_image:
            self.run(title, "extract", "--dir", aside, "--include", f"regex:/{module}/.*\\.class", self.image)
            whole = os.path.join(aside, module)
        else:
            self.run(title, "extract", "--dir", aside, self.archive(module))
            whole = os.path.join(aside, "classes")
        os.rmdir(folder)
        os.rename(whole, folder)
        shutil.rmtree(aside)
        with open(os.path.join(folder, "module-info.class"), "rb") as source:
            return class_files.read_class(source.read()).exports

    def module(self, name):
        if name not in self.places:
            PROGRESS.begin()
            self.places[name] = self.cache.place(f"{self.key}-{name}", f"{shown(self.home)}: {name}", lambda folder: self.extract(name, folder))
        return self.places[name]
