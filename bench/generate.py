#!/usr/bin/env python3
"""Writes a sheet to standard output: generate.py CASE [SIZE]. The same words write the same sheet on every run.

classes  SIZE declarations over hundreds to thousands of types with single inheritance, transitively closed
dead     SIZE declarations, half of which make an argument that is wanted beside one that no term has
lambdas  SIZE declarations, 200 of them functional interfaces that the others take
deep     calls nested SIZE deep
"""
import random
import sys

SIZES = {"classes": 10000, "dead": 10000, "lambdas": 2000, "deep": 300}

# The weight limits at which the sheets of these sizes have about 20,000 terms.
LIMITS = {("classes", 1000): 797, ("classes", 10000): 685, ("classes", 50000): 936, ("lambdas", 2000): 953}

DEPTH_OF_INHERITANCE = 6


def usage_weight(rng):
    """The weight of a member by how often it is used: few members are used often."""
    uses = int(rng.paretovariate(0.6)) - 1
    return 215 + 785 // (1 + min(uses, 1000))


def member_weight(rng):
    """The weight of a member: its own class's, its package's, or by its use."""
    roll = rng.random()
    if roll < 0.002:
        return 20
    if roll < 0.005:
        return 25
    return usage_weight(rng)


def hierarchy(rng, count):
    """The types above each type, nearest first; type 0 is above all."""
    above = [[]]
    for number in range(1, count):
        parent = rng.randrange(number)
        while len(above[parent]) >= DEPTH_OF_INHERITANCE:
            parent = above[parent][0]
        above.append([parent] + above[parent])
    return above


def popular(rng, count):
    """A type number: low numbers come more often."""
    return int(count * rng.random() ** 2)


def types_and_pairs(above):
    lines = ["type T%d" % number for number in range(len(above))]
    for number, types in enumerate(above):
        lines.extend("sub T%d T%d" % (number, upper) for upper in types)
    return lines


def locals_of(rng, count, types):
    return ["decl 5 T%d name local%d" % (popular(rng, types), number) for number in range(count)]


def member(rng, types, number, wanted):
    """A method, constructor, field or static method; `wanted` gives an argument's type."""
    weight = member_weight(rng)
    result = popular(rng, types)
    arguments = " ".join(wanted() for _ in range(rng.choice([0, 1, 1, 1, 2, 2, 3])))
    roll = rng.random()
    if roll < 0.6:
        form = "method method%d %s %s" % (number, wanted(), arguments)
    elif roll < 0.8:
        form = "new T%d.Made%d %s" % (result, number, arguments)
    elif roll < 0.9:
        form = "field field%d %s" % (number, wanted())
    else:
        form = "call T%d.made%d %s" % (popular(rng, types), number, arguments)
    return ("decl %d T%d %s" % (weight, result, form)).rstrip()


def classes(size):
    rng = random.Random(size)
    types = int(size**0.75)
    lines = types_and_pairs(hierarchy(rng, types)) + locals_of(rng, 12, types)
    wanted = lambda: "T%d" % popular(rng, types)
    lines.extend(member(rng, types, number, wanted) for number in range(size - 12))
    return lines + ["goal T%d" % (types // 20), "limit %d" % LIMITS.get(("classes", size), 2000)]


def dead(size):
    lines = ["type Goal", "type Made", "type Dead", "decl 5 Goal name x", "decl 5 Made name a"]
    half = size // 2
    lines.extend("decl 5 Made call p%d Made Made" % number for number in range(half))
    lines.extend("decl 5 Goal call f%d Goal Made Dead" % number for number in range(half))
    return lines + ["goal Goal", "limit 1000"]


def lambdas(size):
    rng = random.Random(size)
    types, interfaces = 300, 200
    lines = types_and_pairs(hierarchy(rng, types)) + ["type I%d" % number for number in range(interfaces)]
    lines += locals_of(rng, 12, types)
    wanted = lambda: "I%d" % rng.randrange(interfaces) if rng.random() < 0.3 else "T%d" % popular(rng, types)
    lines.extend(member(rng, types, number, wanted) for number in range(size - interfaces - 12))
    for number in range(interfaces):
        bound = " ".join("T%d" % popular(rng, types) for _ in range(rng.choice([0, 1, 1, 2])))
        line = "decl 10 I%d lambda I%d %s -> T%d" % (number, number, bound, popular(rng, types))
        lines.append(line.replace("  ", " "))
    return lines + ["goal T%d" % (types // 20), "limit %d" % LIMITS.get(("lambdas", size), 2000), "depth 1"]


def deep(size):
    lines = ["type int"] + ["decl 5 int name x%d" % number for number in range(10)]
    return lines + ["decl 5 int call f int", "goal int", "limit %d" % (5 + 5 * size)]


CASES = {"classes": classes, "dead": dead, "lambdas": lambdas, "deep": deep}


def sheet(case, size):
    return "\n".join(["insynth sheet 1"] + CASES[case](size)) + "\n"


if __name__ == "__main__":
    if len(sys.argv) not in (2, 3) or sys.argv[1] not in CASES:
        sys.exit(__doc__)
    chosen = int(sys.argv[2]) if len(sys.argv) == 3 else SIZES[sys.argv[1]]
    sys.stdout.write(sheet(sys.argv[1], chosen))
