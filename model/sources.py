#!/usr/bin/env python3
"""Generates sources, and compares the output of `ga144 asm`, `list` and `dis` for them with that of the reference model, byte by byte.

sources.py PROGRAM FIRST COUNT: COUNT generated sources, from number FIRST on, and as many variants of a small source that is cut, changed or
has a word more. `asm` and `list` get the sources, `dis` their images.
"""

import random
import subprocess
import sys

from files import load_of
from listing import disassembled, listed
from source import NODE_NAMES, asm
from words import MARK

SMALL = "node 000\n: x for dup unext ( c ) x ;\n/a left 'x 5 ,\nnode 001 +cy\nbegin @ while if else then\nrepeat !b ..\n"
PLAIN = "dup drop over + - and or @ ! @b !b a b! a! push pop . 2* 2/ +* @+ !+ ; ex".split()
RARE = "@p !p inv invert xor nop .. .. +cy -cy right io r--- rdlu --l- 'x 'y x y z foo 'z".split()
SHAPES = ["begin {} again", "begin {} until", "begin {} -until", "begin {} while {} repeat", "begin {} -while {} repeat", "for {} next", "begin dup unext", "for over . dup unext"]
SHAPES += ["if {} then", "-if {} else {} then", "ahead {} then", "begin {} begin {} *next {} again", "for {} for {} *next {} next", "@p {} 5", "!p {} x"]
STRANGE = "again then else repeat next unext *next if begin for , : : org /p /a /b node ( ) \\ jump call 262144 -131073 -131072 0x3ffff ' end".split()
STRANGE += "$1f $1g >r swap dup; x: :x 5, DROP A! drpo nexxt (x) \x1b".split() + ["org 0x60", "if\nbegin", "begin unext", "begin 5 unext", "for unext", ".. dup ahead +cy then -cy"]
STORES = ["b! !b", "a! !", "a! !+ !+", "b! dup !b", "a! 5 !+ !", "a! ; !", "b! ex !b", "a! @+ !"]


class Generator:
    """Sources by a seed: most are valid, some have a fault."""

    def __init__(self, seed):
        self.random = random.Random(seed)
        self.is_wild = self.random.random() < 0.2
        self.extra = random.Random(f"constants and groups {seed}")

    def one(self, depth):
        draw = self.random.random()
        if draw < 0.62:
            return self.random.choice(PLAIN)
        if draw < 0.72:
            return str(self.random.choice([0, 1, 5, -1, self.random.randrange(-131072, 262144)]))
        if draw < 0.80:
            return self.random.choice(RARE)
        if draw < 0.83 and self.is_wild:
            return self.random.choice(STRANGE)
        if draw < 0.86:
            return f"{self.random.choice(['7', 'io', chr(39) + 'x', '0x3ffff'])} ,"
        if draw < 0.875:
            return f"org {self.random.choice(['0x80', '0xa0', '0x30', '0x3d', str(self.random.randrange(0, 64))])}"
        if draw < 0.91:
            return f"{self.address()} {self.random.choice(STORES)}"
        if depth == 0:
            return self.random.choice(PLAIN)
        shape = self.random.choice(SHAPES)
        return shape.format(*(self.some(self.random.choice([0, 1, 2, 3, 6]), depth - 1) for _ in range(shape.count("{}"))))

    def address(self):
        return self.random.randrange(0, 70) + self.random.choice([0, 0, 0, 0x80, 0x100])

    def some(self, count, depth):
        return " ".join(self.one(depth) for _ in range(count))

    def source(self):
        names = self.random.sample(sorted(NODE_NAMES), self.random.choice([1, 1, 2, 3])) + (["018"] if self.random.random() < 0.02 else [])
        lines = []
        for node in names:
            lines.append(f"node {node}")
            lines += [f"/{it} {self.random.choice(['x', '3', 'left', '0x155', '0x1ff'])}" for it in "pab" if self.random.random() < 0.15]
            for label in self.random.sample(["x", "y", "z", "foo", "main"], self.random.choice([4, 5, 5, 5, 5])):
                if self.random.random() < 0.2:
                    lines += [f"{self.address()} b!", f": {label} !b"]
                    continue
                lines += [f": {label} {self.some(self.random.randrange(0, 5), 2)}", self.some(self.random.randrange(0, 7), 2) + self.random.choice(["", " ;", f" {label} ;"])]
        lines = [self.random.choice(["", "", "\\ why ", "( so ) "]) + it if it.startswith("/") else it for it in lines]
        return "\n".join(self.with_expectations(self.with_groups(self.with_constants(lines)))) + "\n"

    def with_constants(self, lines):
        """The lines with constants, some of them at fault, and uses of them."""
        if self.extra.random() < 0.6:
            return lines
        value = self.extra.choice(["5", "-1", "0x3f", "100", "right", "262144", "dup", "k"])
        defined = f"{value if self.extra.random() < 0.3 else 7} constant {self.extra.choice(['k', 'k', 'k', 'x', 'dup', '12'])}"
        lines = [*lines]
        lines.insert(self.extra.choice([0, 0, self.extra.randrange(len(lines))]), defined)
        for use in self.extra.choices(["k", "k ,", "k constant j j", "'k", ": k", "org k", "/a k", "k ;", "9 constant k", "constant"], [9, 5, 5, 1, 1, 3, 2, 1, 1, 0.5], k=3):
            lines[self.extra.randrange(len(lines))] += f" {use}"
        return lines

    def with_expectations(self, lines):
        """The lines with expectations among them, and sometimes one within a line, or with a comment that is left open."""
        if self.extra.random() < 0.6:
            return lines
        lines = [*lines]
        for said in self.extra.choices(["expect one end", "  expect 001 t = 3", "( so ) expect 017 [20] < 5 ( or ) \\ more", "expect never stop", "expect every order ends", "expect ( so", "dup expect", ": expect dup"], [9, 9, 9, 5, 5, 1, 1, 1], k=2):
            lines.insert(self.extra.randrange(len(lines) + 1), said)
        return lines

    def with_groups(self, lines):
        """The lines with more names after some `node`."""
        names = self.extra.sample(sorted(NODE_NAMES), 3) + ["999", "12", "x"]
        return [f"{it} {' '.join(self.extra.choices(names, [5, 5, 5, 0.3, 0.3, 0.3], k=self.extra.choice([1, 1, 2])))}" if it.startswith("node ") and self.extra.random() < 0.3 else it for it in lines]


def changed(seed):
    """A variant of the small source: cut, with another byte somewhere, with a word more, with many, or with two faults, one after the other."""
    draw = random.Random(seed)
    place = draw.randrange(len(SMALL))
    how = draw.random()
    if seed % 50 == 7:
        return SMALL + "node 002 drpo repeat ;\n"
    if how < 0.15:
        return SMALL[:place]
    if how < 0.2:
        return SMALL + " ".join(draw.choice(STRANGE) for _ in range(draw.randrange(60)))
    if how < 0.55:
        words = SMALL.split(" ")
        words.insert(draw.randrange(len(words)), draw.choice(STRANGE))
        return " ".join(words)
    return SMALL[:place] + draw.choice([chr(draw.randrange(256)), draw.choice(" \n\t;,:'()"), ""]) + SMALL[place + 1 :]


def run(program, mode, text):
    ran = subprocess.run([program, mode], input=text.encode("latin-1"), capture_output=True, timeout=20)
    return ran.stdout.decode("latin-1"), ran.stderr.decode("latin-1"), ran.returncode


def compare(program, seed, source):
    """Compares all three commands on a source and its image. Returns the model's result of `asm`."""
    assembled = asm(source)
    windows = MARK + source.replace("\n", "\r\n")
    wanted = {("asm", source): assembled, ("list", source): listed(source), ("asm", windows): asm(windows), ("list", windows): listed(windows)}
    if assembled[2] == 0:
        back, warnings = disassembled(load_of(assembled[0].splitlines()))
        wanted |= {("dis", assembled[0]): (back, warnings, 0), ("asm", back): (assembled[0], "", 0)}
    for (mode, text), expected in wanted.items():
        got = run(program, mode, text)
        if got != expected:
            sys.exit(f"{source}\nthe program: {got}\nthe model: {expected}\nsource {seed}: {mode} differs")
    return assembled


def main():
    program, first, count = sys.argv[1], int(sys.argv[2]), int(sys.argv[3])
    images = warned = 0
    for seed in range(first, first + count):
        for source in (Generator(seed).source(), changed(seed)):
            _, messages, status = compare(program, seed, source)
            images += status == 0
            warned += status == 0 and messages != ""
    print(f"{2 * count} sources: all agree, {images} images, {warned} of them with warnings")


if __name__ == "__main__":
    main()
