"""Reads of class files what the scripts here need (JVMS 4.1, 4.4, 4.5 to 4.7): names, flags, supers, members, exports."""
import struct
from typing import NamedTuple

PUBLIC, PRIVATE, STATIC, INTERFACE, ABSTRACT, SYNTHETIC, MODULE = 0x1, 0x2, 0x8, 0x200, 0x400, 0x1000, 0x8000
BRIDGE = 0x40  # of methods alone: of a field this bit means volatile
WIDTHS = {3: 4, 4: 4, 5: 8, 6: 8, 7: 2, 8: 2, 9: 4, 10: 4, 11: 4, 12: 4, 15: 3, 16: 2, 17: 4, 18: 4, 19: 2, 20: 2}
MOST_BYTES = 16_777_216  # what the server takes of one class file


class NoClassFile(Exception):
    """The bytes are no class file; the text says where reading stopped."""


class Member(NamedTuple):
    name: str
    descriptor: str
    flags: int


class ClassFile(NamedTuple):
    """A class: internal names, its members, and what its attributes say of nesting and of exported packages."""
    name: str
    flags: int
    supers: list
    fields: list
    methods: list
    nesting: dict  # inner class -> (outer class or "", simple name or "", flags), the first row of each
    exports: list  # of a module: the packages that it exports to all

    def kept_members(self):
        """Fields and methods without the private and synthetic ones and the bridges, as the server keeps them."""
        fields = [it for it in self.fields if not it.flags & (PRIVATE | SYNTHETIC)]
        return fields, [it for it in self.methods if not it.flags & (PRIVATE | SYNTHETIC | BRIDGE)]

    def parts(self):
        """What the class counts for in the server's index: 1, its supers, and for each member 1 and its parameters."""
        if self.flags & (SYNTHETIC | MODULE):
            return 1 + len(self.supers)
        fields, methods = self.kept_members()
        return 1 + len(self.supers) + len(fields) + sum(1 + len(parameters(it.descriptor)) for it in methods)


def parameters(descriptor):
    """The parameter types of a method's descriptor, each as a descriptor."""
    types, place, start = [], 1, 1
    while place < len(descriptor) and descriptor[place] != ")":
        if descriptor[place] == "[":
            place += 1
            continue
        place = descriptor.index(";", place) + 1 if descriptor[place] == "L" else place + 1
        types.append(descriptor[start:place])
        start = place
    return types


class _Reader:
    def __init__(self, data):
        self.data, self.place = data, 0
        self.texts, self.links = {}, {}

    def u2(self):
        self.place += 2
        return int.from_bytes(self.data[self.place - 2:self.place], "big")

    def u4(self):
        self.place += 4
        return int.from_bytes(self.data[self.place - 4:self.place], "big")

    def pool(self):
        count, number, data = self.u2(), 1, self.data
        while number < count:
            tag = data[self.place]
            self.place += 1
            if tag == 1:
                length = self.u2()
                self.texts[number] = data[self.place:self.place + length]
                self.place += length
            elif tag in WIDTHS:
                if tag in (7, 19, 20):
                    self.links[number] = int.from_bytes(data[self.place:self.place + 2], "big")
                self.place += WIDTHS[tag]
            else:
                raise NoClassFile(f"unknown tag {tag} at byte {self.place - 1}")
            number += 2 if tag in (5, 6) else 1

    def text(self, number):
        return self.texts[number].decode("utf-8", "surrogateescape") if number else ""

    def link(self, number):
        return self.text(self.links[number]) if number else ""

    def attributes(self):
        for _ in range(self.u2()):
            name, length = self.text(self.u2()), self.u4()
            begin = self.place
            yield name
            self.place = begin + length

    def members(self):
        found = []
        for _ in range(self.u2()):
            flags, name, descriptor = self.u2(), self.text(self.u2()), self.text(self.u2())
            found.append(Member(name, descriptor, flags))
            for _ in self.attributes():
                pass
        return found

    def rows(self):
        nesting = {}
        for _ in range(self.u2()):
            inner, outer, simple, flags = self.link(self.u2()), self.link(self.u2()), self.text(self.u2()), self.u2()
            nesting.setdefault(inner, (outer, simple, flags))
        return nesting

    def exported(self):
        self.place += 6
        for _ in range(self.u2()):
            self.place += 6
        found = []
        for _ in range(self.u2()):
            package, _, friends = self.link(self.u2()), self.u2(), self.u2()
            self.place += 2 * friends
            if not friends:
                found.append(package)
        return found


def read_class(data):
    """The class of a class file's bytes; NoClassFile where they are none."""
    if len(data) > MOST_BYTES:
        raise NoClassFile(f"longer than {MOST_BYTES:,} bytes")
    if data[:4] != b"\xca\xfe\xba\xbe":
        raise NoClassFile("it doesn't begin with CAFEBABE")
    reader = _Reader(data)
    reader.place = 8
    try:
        reader.pool()
        flags, name, above = reader.u2(), reader.link(reader.u2()), reader.link(reader.u2())
        supers = ([above] if above else []) + [reader.link(reader.u2()) for _ in range(reader.u2())]
        fields, methods = reader.members(), reader.members()
        nesting, exports = {}, []
        for attribute in reader.attributes():
            if attribute == "InnerClasses":
                for inner, row in reader.rows().items():
                    nesting.setdefault(inner, row)
            elif attribute == "Module":
                exports = reader.exported()
    except (IndexError, KeyError, ValueError) as fault:
        raise NoClassFile(f"it breaks off or names no entry near byte {reader.place}") from fault
    if reader.place != len(data):
        raise NoClassFile(f"it ends at byte {len(data)}, and is to end at byte {reader.place}")
    return ClassFile(name, flags, supers, fields, methods, nesting, exports)
