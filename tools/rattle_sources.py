"""Reads the Rattle sources of a crate as far as the checks of tools/ need it: its functions, each with its owner, its
signature, its clauses by label and its body. Comments and literals are blanked first, so that words in them aren't met."""
import re
from dataclasses import dataclass, field
from pathlib import Path

LITERAL = re.compile(
    r'//[^\n]*|/\*.*?\*/|b?r(#*)".*?"\1|b?"(?:\\.|[^"\\])*"|b?\'(?:\\[^\']*|[^\'\\\n])\'', re.S)
WORD = re.compile(r"\w+")
OPEN, CLOSE = "([{", ")]}"


@dataclass
class Function:
    crate: str
    module: str
    name: str
    owner: str  # the type or trait it stands at, or ""
    trait: str  # the trait that an implementation is of, or ""
    in_trait: bool  # declared in a trait
    public: bool
    attributes: str
    signature: str  # from the name to the first clause
    bounds: str  # of the impl or trait around it
    clauses: dict = field(default_factory=dict)  # label -> text, for labelled `ensures`
    unlabelled: list = field(default_factory=list)
    requires: dict = field(default_factory=dict)
    body: str = ""
    path: str = ""
    line: int = 0

    @property
    def answer(self):
        """The type that is answered, or ""."""
        found = re.search(r"->\s*(.*?)(?:\bwhere\b.*)?$", self.after_params(), re.S)
        return " ".join(found.group(1).split()) if found else ""

    def params(self):
        begin = params_begin(self.signature)
        return self.signature[begin + 1 : match(self.signature, begin)]

    def after_params(self):
        return self.signature[match(self.signature, params_begin(self.signature)) + 1 :]

    @property
    def call(self):
        return f"{self.owner}::{self.name}" if self.owner else self.name


def blanked(text):
    def blank(found):
        return re.sub(r"[^\n]", " ", found.group(0))

    return LITERAL.sub(blank, text)


def match(text, begin):
    """The place of the bracket that closes the one at `begin`."""
    depth = 0
    for place in range(begin, len(text)):
        if text[place] in OPEN:
            depth += 1
        elif text[place] in CLOSE:
            depth -= 1
            if depth == 0:
                return place
    return len(text) - 1


def params_begin(signature):
    """The place of the parenthesis that opens the parameters, behind the generics."""
    angle = 0
    for place, letter in enumerate(signature):
        if letter == "<":
            angle += 1
        elif letter == ">" and signature[place - 1] != "-":
            angle -= 1
        elif letter == "(" and angle == 0:
            return place
    return 0


def stop(text, begin, end):
    """The first `{` or `;` outside brackets at or after `begin`."""
    place = begin
    while place < end:
        if text[place] in "{;":
            return place
        if text[place] in "([":
            place = match(text, place)
        place += 1
    return end


class Reader:
    def __init__(self, crate, module, path):
        self.crate, self.module, self.path = crate, module, str(path)
        self.raw = path.read_text()
        self.text = blanked(self.raw)
        self.functions = []
        self.items(0, len(self.text), "", "", False, "")

    def items(self, begin, end, owner, trait, in_trait, bounds):
        """Reads the items of a file or of the block of an impl, a trait or a module."""
        text, place, public, attributes = self.text, begin, False, ""
        while place < end:
            if text[place] == "#" and place + 1 < end and text[place + 1] in "[!":
                shut = match(text, text.index("[", place))
                attributes += text[place : shut + 1]
                place = shut + 1
                continue
            found = WORD.match(text, place)
            if not found:
                place += 1
                continue
            word, place = found.group(0), found.end()
            if word == "pub":
                public = True
                rest = re.compile(r"\s*\((crate|super|in [\w:]+)\)").match(text, place)
                if rest:
                    public, place = False, rest.end()
                continue
            if word in ("const", "unsafe", "extern", "async") and re.compile(r"\s*(const|unsafe|fn|impl|trait)\b").match(text, place):
                continue
            if word == "fn":
                place = self.function(place, end, owner, trait, in_trait, public, attributes, bounds)
            elif word in ("impl", "trait", "mod"):
                shut = stop(text, place, end)
                head = " ".join(text[place:shut].split())
                if shut < end and text[shut] == "{":
                    last = match(text, shut)
                    if word == "impl":
                        inner_owner, inner_trait = owner_of(head)
                        self.items(shut + 1, last, inner_owner, inner_trait, False, head)
                    elif word == "trait":
                        name = WORD.search(head).group(0)
                        self.items(shut + 1, last, name, "", True, head)
                    elif "cfg(test)" not in attributes:
                        self.items(shut + 1, last, owner, trait, in_trait, bounds)
                    shut = last
                place = shut + 1
            elif word in ("struct", "enum"):
                shut = stop(text, place, end)
                place = match(text, shut) + 1 if shut < end and text[shut] == "{" else shut + 1
            else:  # use, ghost, const, static, type, a macro
                while place < end and text[place] != ";":
                    place = match(text, place) if text[place] in OPEN else place
                    place += 1
                place += 1
            public, attributes = False, ""

    def function(self, place, end, owner, trait, in_trait, public, attributes, bounds):
        text = self.text
        name = WORD.search(text, place)
        head = place = name.start()
        clause = re.compile(r"\b(?:ensures|requires)\b")
        while place < end and text[place] not in "{;" and not clause.match(text, place):
            place = match(text, place) if text[place] in "([" else place
            place += 1
        made = Function(self.crate, self.module, name.group(0), owner, trait, in_trait, public or in_trait, attributes,
                        text[head:place].strip(), bounds, path=self.path, line=text.count("\n", 0, head) + 1)
        labelled = re.compile(r"\s*(ensures|requires)\s*(\w*)\s*\{")
        while found := labelled.match(text, place):
            shut = match(text, found.end() - 1)
            said = text[found.end() : shut]
            if found.group(1) == "requires":
                made.requires[found.group(2) or f"_{len(made.requires)}"] = said
            elif found.group(2):
                made.clauses[found.group(2)] = said
            else:
                made.unlabelled.append(said)
            place = shut + 1
        space = re.compile(r"\s*").match(text, place).end()
        if space < end and text[space] == "{":
            shut = match(text, space)
            made.body = text[space : shut + 1]
            place = shut + 1
        else:
            place = space + 1
        self.functions.append(made)
        return place


def owner_of(head):
    """The type and the trait of an impl's head."""
    if head.startswith("<"):
        depth = 0
        for place, letter in enumerate(head):
            depth += {"<": 1, ">": -1}.get(letter, 0) if not (letter == ">" and head[place - 1] == "-") else 0
            if depth == 0:
                head = head[place + 1 :].strip()
                break
    head = re.split(r"\bwhere\b", head)[0].strip()
    parts = re.split(r"\bfor\b", head)

    def bare(it):
        it = it.strip().lstrip("&").strip()
        it = re.sub(r"^'\w+\s*|^mut\s+", "", it)
        found = re.match(r"[\w:]+", it)
        return found.group(0).split("::")[-1] if found else it

    return (bare(parts[1]), bare(parts[0])) if len(parts) == 2 else (bare(parts[0]), "")


def crates(top=Path(".")):
    for line in Path(top, "crates.txt").read_text().splitlines():
        line = line.split("#")[0].strip()
        if ":" in line:
            name, rest = line.split(":", 1)
            yield name.split()[0], rest.split()


def functions(crate, top=Path(".")):
    """The functions of a crate, without those of its tests."""
    made = []
    for path in sorted(Path(top, "crates", crate, "src").rglob("*.rt")):
        if path.stem.endswith("tests"):
            continue
        module = "::".join(path.relative_to(Path(top, "crates", crate, "src")).with_suffix("").parts)
        made += [it for it in Reader(crate, module, path).functions if "#[test]" not in it.attributes]
    return made


def exported(crate, top=Path(".")):
    """The names that lib.rt hands out, and the modules that are public as a whole."""
    root = Path(top, "crates", crate, "src", "lib.rt")
    if not root.is_file():
        return set(), set()
    text = blanked(root.read_text())
    names = set()
    for path in re.findall(r"\bpub use ([^;]*);", text):
        names |= set(WORD.findall(path))
    return names, set(re.findall(r"\bpub mod (\w+);", text))


def public_calls(crate, top=Path(".")):
    """The functions that other crates can call: those at exported names, and those of exported types and traits."""
    names, modules = exported(crate, top)
    for it in functions(crate, top):
        whole = it.module.split("::")[0] in modules
        seen = whole or (it.owner or it.name) in names
        if seen and (it.public or it.trait):
            yield it
