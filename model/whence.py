"""Provenance: part of the reference model, for `whence` in docs/REFERENCE.md. Each word has a tag, which moves with it.

A tag is a node, its step that made the word (0 if the word was loaded), and the name of the part in which it left it. `made` has
the tags from which each was made.
"""

import re
from collections import deque

from conditions import value_of
from node import pop, push, target_of

MOST = 100
# the register by which each of the first opcodes decides where its node continues; a jump and a call only by a word that came over a port
TESTED = ("r", "r", "i", "i", "r", "r", "t", "t")
LOADED = ("a", "b", "p", "i", "io", "carry", "slot", "wait", "stop")
# the registers by which those opcodes decide, queried as they were before, and those in which others leave a word that they moved
ASKED_BEFORE = {"jump": "i", "call": "i", "unext": "r", "next": "r", "if": "t", "-if": "t"}
MOVED_TO = {"!p": "io", "!+": "io", "!b": "io", "!": "io", "push": "r", "a!": "a"}
WAITS, SIDE_BITS = {"fetch": 16, "read": 32, "write": 48}, {"r": 8, "d": 4, "l": 2, "u": 1}


class Tags:
    """The tags of the words of a node."""

    def __init__(self, number, made):
        self.number, self.made, self.step = number, made, 0
        self.d = [self.tag(it) for it in ["t", "s"] + [f"d{at}" for at in range(2, 10)]]
        self.r = [self.tag(it) for it in ["r"] + [f"r{at}" for at in range(1, 9)]]
        self.one = {it: self.tag(it) for it in LOADED}
        self.cells = {("ram", at): self.tag(f"{at:02x}") for at in range(64)}
        self.cells.update({("rom", at): self.tag(f"{128 + at:02x}") for at in range(64)})

    def tag(self, part, *sources):
        made = (self.number, self.step, part)
        self.made[made] = sources
        return made

    def put(self, part, *sources):
        self.one[part] = self.tag(part, *sources)
        return self.one[part]

    def held(self, value):
        """The tag of the word that has this name."""
        names = dict(zip(["t", "s"] + [f"d{at}" for at in range(2, 10)], self.d)) | dict(zip(["r"] + [f"r{at}" for at in range(1, 9)], self.r))
        return self.cells[target_of(int(value[1:3], 16))] if value[0] == "[" else (names | self.one)[value]

    # Each of these answers the tag for which `whence` asks.

    def own(self, before, what):
        self.step += 1
        if what == "fetch":
            self.one["i"] = self.read(before.p, "i")
            self.put("p", self.one["p"])
            self.put("slot")
            return self.one["i"]
        if what.startswith("run"):
            return self.run(int(what[4:], 16), before)
        self.put(what.split(" ")[0])
        return self.one["p" if before.slot == 4 else "paba"[before.opcode() % 4]]

    def run(self, code, before):
        if code < 8:
            return self.run_control(code, before)
        asked = self.run_memory(code, before) if code < 16 else self.run_data(code, before)
        self.put("slot", self.one["slot"])
        return asked

    def run_control(self, code, before):
        d, r, one = self.d, self.r, self.one
        asked = (None, None, one["i"], one["i"], r[0], r[0], d[0], d[0])[code]
        jump = (one["p"], one["i"], one["slot"])
        counts, slot = code in (4, 5) and before.r[0], one["slot"]
        if code == 0:
            asked = self.put("p", pop(r))
        elif code == 1:
            r[0], asked = one["p"], self.put("p", r[0])
        elif code == 3:
            push(r, one["p"])
        elif counts:
            r[0] = self.tag("r", r[0])
        elif code in (4, 5):
            pop(r)
        if code in (2, 3) or counts and code == 5 or code == 6 and not before.d[0] or code == 7 and not before.d[0] >> 17:
            self.put("p", *jump)
        self.put("slot", *([slot] if code == 4 and not counts else []))
        return asked

    def read(self, address, part):
        cell = target_of(address)
        return self.tag(part, self.cells[cell]) if cell in self.cells else self.tag(part)

    def run_memory(self, code, before):
        register = "paba"[code % 4]
        address = getattr(before, register)
        if code < 12:
            asked = self.read(address, "t")
            push(self.d, asked)
        else:
            asked = self.write(target_of(address), pop(self.d))
        if code % 4 < 2:
            self.put(register, self.one[register])
        return asked

    def write(self, cell, word):
        if cell[0] == "ram":
            self.cells[cell] = self.tag(f"{cell[1]:02x}", word)
            return self.cells[cell]
        if cell[0] == "io":
            self.one["io"] = word
            return word
        return None

    def run_data(self, code, before):
        d, r, one = self.d, self.r, self.one
        if code == 0x10:
            d[0] = one["a"] = self.tag("t", d[0], d[1], one["a"])
        elif code in (0x11, 0x12, 0x13):
            d[0] = self.tag("t", d[0])
        elif code in (0x14, 0x15, 0x16):
            top = pop(d)
            carries = code == 0x14 and before.p & 0x200
            d[0] = self.tag("t", top, d[0], *([one["carry"]] if carries else []))
            if carries:
                one["carry"] = d[0]
        elif code in (0x18, 0x1A, 0x1B):
            push(d, (d[0], None, d[1], one["a"])[code - 0x18])
        elif code == 0x19:
            push(d, pop(r))
        elif code == 0x1D:
            push(r, pop(d))
            return r[0]
        elif code == 0x1E:
            return self.put("b", pop(d))
        elif code == 0x1F:
            one["a"] = pop(d)
            return one["a"]
        elif code == 0x17:
            pop(d)
        return None if code in (0x17, 0x1C) else d[0]

    def send(self):
        self.step += 1
        self.put("wait")
        self.put("slot", self.one["slot"])
        return pop(self.d)

    def take(self, wait, word):
        self.step += 1
        self.put("wait")
        if wait[0] == "fetch":
            self.put("slot")
            return self.put("i", word)
        self.put("slot", self.one["slot"])
        push(self.d, self.tag("t", word))
        return self.d[0]


def asked_of(passed, nodes):
    """The tag that each step of a node selects, and from which tags each tag was made. `passed` has the events, each with its
    text and its nodes before it."""
    asked, made = {}, {}
    for _ in followed(passed, nodes, asked, made):
        pass
    return asked, made


def held_after(passed, nodes, node, step, value):
    """The tag of the word of a node that has this name, after a step."""
    return next(tags[node].held(value) for tags in followed(passed, nodes, {}, {}) if tags[node].step == step)


def word_in(it, part):
    """The word in a part of a node, by the name that a tag has for it."""
    if part == "wait":
        return WAITS[it.wait[0]] + sum(SIDE_BITS[side] for side in it.wait[1]) if it.wait else 0
    return it.stop if part == "stop" else value_of(it, None, f"[{part}]" if re.fullmatch("[0-389ab][0-9a-f]", part) else part)


def queried_word(deed, before, behind):
    """The part for which a step asks that only moved or tested a word, with the word; none where the step sent it."""
    word = deed.split(" ")[0]
    if word == "sends":
        return None, None
    if word in ("wait", "stop"):
        part = "p" if before.slot == 4 else "paba"[before.opcode() % 4]
        return part, word_in(before, part)
    if word in ASKED_BEFORE:
        return ASKED_BEFORE[word], word_in(before, ASKED_BEFORE[word])
    return MOVED_TO.get(word, "t"), word_in(behind, MOVED_TO.get(word, "t"))


def followed(passed, nodes, asked, made):
    """The tags of all nodes after each event."""
    tags = [Tags(number, made) for number in range(nodes)]
    for event, told, before in passed:
        it = tags[event[0]]
        if len(event) == 1:
            asked[event[0], it.step] = it.own(before[0], told.split(" ", 2)[2])
        else:
            other = tags[event[1]]
            word = asked[event[0], it.step] = it.send()
            asked[event[1], other.step] = other.take(before[1].wait, word)
        yield tags


def tested_by(told, before, asked, made, came):
    """The tag by which a step of a node was decided, and the register and the word that it tested; of an instruction word that came over
    a port the tag alone. None where no value decided it. `asked` is the tag for which the step asks, and `came` has the node's steps by
    which an instruction word came over a port."""
    words = told.split(" ")
    if words[0] == "pass":
        return (made[asked][0], "", None) if asked[1] in came else None
    code = int(words[3], 16) if words[2] == "run" else 32
    if code > 7 or code in (2, 3) and asked[1] not in came:
        return None
    held = {"r": before.r[0], "i": before.i, "t": before.d[0]}
    return made[asked][0] if code < 2 else asked, TESTED[code], held[TESTED[code]]


def next_in_run(tag, made, deeds):
    """The tag that comes next after one in a run: of those from which it was made the first that the same opcode left in the same part of
    the node, and that was made from all the others too. None where there is none."""
    sources = dict.fromkeys(made[tag])
    for it in sources:
        if it[1] and (it[0], it[2]) == (tag[0], tag[2]) and deeds[it[:2]] == deeds[tag[:2]] and {*sources} - {it} <= {*made[it]}:
            return it
    return None


def run_of(tag, made, deeds, told):
    """A tag and those after it in a run, up to one that is listed already, whose steps are all as far apart as the first two."""
    run, after = [tag], next_in_run(tag, made, deeds)
    while after and after not in told and (len(run) == 1 or run[-1][1] - after[1] == run[0][1] - run[1][1]):
        run.append(after)
        after = next_in_run(after, made, deeds)
    return run


def lines_of(first, made, deeds, count):
    """The first lines of the tags from which one was made, the nearest first: of each line its run, and the number of the line that used
    it, or 0; and whether these are all."""
    lines, told, todo = [], set(), deque([(0, first)])
    while todo:
        user, tag = todo.popleft()
        if tag in told:
            continue
        if len(lines) == count:
            return lines, False
        run = run_of(tag, made, deeds, told)
        told.update(run)
        lines.append((user, run))
        todo += [(len(lines), source) for source in made[run[-1]]]
    return lines, True
