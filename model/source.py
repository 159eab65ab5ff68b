"""Part of the reference model, for "Source" in docs/REFERENCE.md: what `ga144 asm` writes for a source, also on standard error."""

import re

from machine import NODES, block_of, name
from node import Node, advanced
from words import BOUNDS, CODE, GAP, OPCODES, Fault, Words, demand, demand_range, out_of_range, words_of

MOST_TOLD = 20
LEADING = (":", "org", "/p", "/a", "/b")

FIELDS = {0: 10, 1: 8, 2: 3}
NODE_NAMES = {name(it): it for it in range(NODES)}


class Cell:
    """An instruction word with its literals, or a cell of data."""

    def __init__(self, address):
        self.address, self.slots, self.literals, self.data, self.loop = address, [], [], None, None
        self.is_moved = self.is_ended = False

    def p(self):
        """P after the word and its literals."""
        p = advanced(self.address)
        for _ in self.literals:
            p = advanced(p)
        return p

    def reaches(self, slot, address):
        return slot in FIELDS and self.p() >> FIELDS[slot] == address >> FIELDS[slot]

    def has_room(self, kind, what, labels):
        slot = len(self.slots)
        if slot == 0:
            return True
        if self.is_ended or slot > 3 or kind == "cell":
            return False
        if kind in ("op", "unext"):
            return slot < 3 or what[0] % 4 == 0
        if self.is_moved:
            return False
        return kind == "literal" or (slot < 2 if kind == "ahead" else self.reaches(slot, labels[what[1]]))


class Layout:
    """The cells of a node, and the addresses of its labels."""

    def __init__(self, asked):
        self.cells, self.labels, self.cell, self.order = [], {}, Cell(0), []
        for line, kind, *what in asked:
            if kind in ("mark", "fill", "org", "bit"):
                self.end()
                here = self.cell.address
                if kind == "mark":
                    self.labels[what[0]] = here
                    self.order.append((line, what[0]))
                elif kind == "org":
                    self.cell = Cell(what[0])
                elif kind == "bit":
                    self.cell = Cell(here % 0x200 + what[0])
            else:
                self.put(line, kind, what)
        self.end()

    def end(self):
        if self.cell.slots:
            self.cells.append(self.cell)
            self.order.append((self.cell.slots[0][0], self.cell))
            self.cell = Cell(self.cell.p())

    def put(self, line, kind, what):
        if kind == "unext":
            cell = self.cell
            is_short = cell.slots and not cell.literals and cell.address == self.labels[what[0]]
            if not is_short and cell.loop is None:
                cell.loop = line
            what = [CODE["unext"]]
            if not cell.has_room(kind, what, self.labels):
                self.end()
        elif not self.cell.has_room(kind, what, self.labels):
            self.end()
        cell = self.cell
        if kind == "literal":
            cell.slots.append((line, CODE["@p"], None))
            cell.literals.append((line, what[0]))
        elif kind == "cell":
            cell.slots.append((line, CODE["."], None))
            cell.data = what
        else:
            cell.slots.append((line, what[0], what[1] if kind in ("back", "ahead") else None))
            cell.is_moved = cell.is_moved or what[0] in (CODE["@p"], CODE["!p"])
        cell.is_ended = kind in ("back", "ahead", "cell") or kind == "op" and what[0] in (CODE[";"], CODE["ex"])
        if cell.is_ended or len(cell.slots) == 4:
            self.end()

    def value(self, value):
        return self.labels[value] if isinstance(value, str) else value

    def word(self, cell):
        if cell.data:
            return self.value(cell.data[0])
        codes = [code for _, code, _ in cell.slots]
        label = cell.slots[-1][2]
        if label is None:
            codes += [CODE["."]] * (4 - len(codes))
            return (codes[0] << 13 | codes[1] << 8 | codes[2] << 3 | codes[3] >> 2) ^ 0x15555
        shift = (13, 8, 3)[len(codes) - 1]
        word = sum(code << at for code, at in zip(codes, (13, 8, 3))) ^ 0x15555
        return word >> shift << shift | self.labels[label] % (1 << FIELDS[len(codes) - 1])

    def load(self, node, given):
        """Writes the cells; `given` gets the line of each."""
        for cell in self.cells:
            self.load_cell(node, given, cell)

    def load_cell(self, node, given, cell):
        demand(cell.loop is None, cell.loop, f"the loop of unext in {cell.address:03x} is longer than its cell")
        address = cell.address
        for line, word in [(cell.slots[0][0], self.word(cell))] + [(line, self.value(it)) for line, it in cell.literals]:
            low = address % 0x200
            demand(low < 0x40 or 0x80 <= low < 0xC0, line, f"{low:03x} is past the end of RAM or ROM")
            demand(low not in given, line, f"cell {low:03x} given before on line {given.get(low)} (org {low} is {low:03x})")
            given[low] = line
            (node.rom if low >= 0x80 else node.ram)[low % 0x40] = word
            address = advanced(address)
        line, _, label = cell.slots[-1]
        if label is not None:
            target = self.labels[label]
            demand(cell.reaches(len(cell.slots) - 1, target), line, f"{target:03x} is out of reach of a jump in {cell.address:03x}")


def warnings(words, layout):
    """The stores to a constant address that holds code."""
    lines = {}
    for cell in layout.cells:
        if not cell.data:
            lines[cell.address % 0x100] = cell.slots[0][0]
            address = cell.address
            for line, _ in cell.literals:
                address = advanced(address)
                lines[address % 0x100] = line
    a = b = before = None
    for line, kind, *what in words.asked:
        literal, before = before, None
        op = OPCODES[what[0]] if kind in ("op", "ahead", "back") else "unext" if kind == "unext" else None
        stored = {"!b": b, "!": a, "!+": a}.get(op)
        if kind == "op" and stored is not None and stored % 0x200 < 0x80:
            cell = stored % 0x40
            if cell in lines:
                yield f"line {line}: warning: this writes {cell:03x}, which holds code of line {lines[cell]}"
        if kind == "literal":
            before = layout.value(what[0])
        elif kind in ("fill", "org", "bit", "cell") or kind == "mark" and isinstance(what[0], int):
            before = literal
        elif kind == "mark" or op in (";", "ex", "jump", "call"):
            a = b = None
        elif op == "a!":
            a = literal
        elif op == "b!":
            b = literal
        elif op in ("!+", "@+") and a is not None:
            a = advanced(a)
        elif op == "+*" or kind in ("back", "unext"):
            a = None


def name_behind(words, begun):
    """The name of the node that begins with these words; or a Fault."""
    line, first = words[0]
    if isinstance(first, Fault):
        raise first
    demand(first == "node", line, "no node has begun")
    demand(len(words) > 1, line, "a name or a value is missing")
    line, second = words[1]
    if isinstance(second, Fault):
        raise second
    demand(second in NODE_NAMES, line, "no such node")
    demand(second not in begun, line, "the node has a program already")
    return second


def programs_of(words):
    """The nodes that words name, with their words and layouts, in order; or a Fault."""
    nodes, words = {}, list(words)
    while words:
        named = name_behind(words, nodes)
        line, words = words[1][0], words[2:]
        count = next((at for at, (_, it) in enumerate(words) if it == "node"), len(words))
        body, words = words[:count], words[count:]
        nodes[named] = node_of(Node(NODE_NAMES[named]), line, body)
    return nodes


def numbered(source, is_whole=True):
    """All words of a source with their numbers, from 1 on, in place of their lines; and the line of each number."""
    said = words_of(source, is_whole)
    return [(at, Fault(at, it.text) if isinstance(it, Fault) else it) for at, (_, it) in enumerate(said, 1)], [0] + [line for line, _ in said]


def with_gap(words, number):
    """The words with gaps in place of the one of a number, of a directive right before it and of each `,` right after it."""
    at = next(place for place, (it, _) in enumerate(words) if it == number)
    assert words[at][1] != GAP, "a gap has a fault"
    first = at - 1 if at and words[at - 1][1] in LEADING else at
    last = next((place for place in range(at + 1, len(words)) if words[place][1] != ","), len(words))
    return words[:first] + [(it, GAP) for it, _ in words[first:last]] + words[last:]


def words_left(line, words):
    """What the words of a node ask for, with a gap for each that is at fault, and the faults."""
    faults = []
    while True:
        try:
            read = Words(line, words)
        except Fault as error:
            faults.append(error)
            words = with_gap(words, error.line)
        else:
            return read, faults + read.unfinished()


def label_in(kind, what):
    """The label of which a request needs the place, None where it needs none."""
    if kind in ("ahead", "back", "unext"):
        return what[-1]
    return what[0] if kind in ("literal", "cell") and isinstance(what[0], str) else None


def stands(read, label):
    return label is None or label in read.marked


def node_left(node, line, body):
    """A node with the cells that are not at fault, and the faults. Cells that continue after one past the end are left out."""
    read, faults = words_left(line, body)
    read.asked = [(at, kind, *what) for at, kind, *what in read.asked if stands(read, label_in(kind, what))]
    layout, given, left, past = Layout(read.asked), {}, [], None
    for register, (at, value) in read.registers.items():
        if stands(read, label_in("literal", [value])) and layout.value(value) >= BOUNDS[register]:
            faults.append(out_of_range(at, str(value), register))
    for cell in layout.cells:
        if past and cell.address % 0x200 == past.p() % 0x200:
            past = cell
            continue
        past = None
        try:
            layout.load_cell(node, given, cell)
            left.append(cell)
        except Fault as error:
            faults.append(error)
            past = cell if "past the end" in error.text else None
    layout.order = [(at, it) for at, it in layout.order if not isinstance(it, Cell) or it in left]
    return (node, read, layout), faults


def programs_left(words):
    """The nodes that words name, as far as they are not at fault, and all faults in the order of their words."""
    nodes, faults, begun = {}, [], {}
    while words:
        try:
            named = name_behind(words, begun)
        except Fault as error:
            faults.append(error)
            if isinstance(words[0][1], Fault):
                words = words[1:]
                continue
            words = words[2 if words[0][1] == "node" else 1 :]
            words = words[next((at for at, (_, it) in enumerate(words) if it == "node"), len(words)) :]
            continue
        begun[named] = True
        count = next((at for at, (_, it) in enumerate(words[2:], 2) if it == "node"), len(words))
        nodes[named], more = node_left(Node(NODE_NAMES[named]), words[1][0], words[2:count])
        faults, words = faults + more, words[count:]
    return nodes, sorted(faults, key=lambda it: it.line)


def faults_of(source):
    """All faults of a source in the order of lines."""
    words, lines = numbered(source, is_whole=False)
    return [on_line(it, lines) for it in programs_left(words)[1]]


def on_line(error, lines):
    """A fault of a word, given by its number, as a fault of its line."""
    return Fault(lines[error.line], re.sub("(?<=before on line )[0-9]+", lambda found: str(lines[int(found[0])]), error.text))


def told_of(faults):
    """The lines of faults on standard error: the first ones, and the number of the others; no text twice in succession."""
    faults = [it for at, it in enumerate(faults) if not at or str(faults[at - 1]) != str(it)]
    more = [f"and {len(faults) - MOST_TOLD} more"] if len(faults) > MOST_TOLD else []
    return "".join(f"ga144: {it}\n" for it in [*faults[:MOST_TOLD], *more])


def asm(source):
    """Standard output, standard error and the status."""
    try:
        nodes = programs_of(words_of(source))
    except Fault:
        return "", told_of(faults_of(source)), 1
    told = [it for _, words, layout in nodes.values() for it in warnings(words, layout)]
    blocks = [block_of(nodes[it][0]) for it in sorted(nodes)]
    image = ["ga144 2"] + [line for block in blocks if len(block) > 1 for line in block] + ["end"]
    return "".join(f"{it}\n" for it in image), "".join(f"ga144: {it}\n" for it in told), 0


def node_of(node, line, body):
    """The node with its program, its words and their layout."""
    words = Words(line, body)
    for error in words.unfinished():
        raise error
    layout = Layout(words.asked)
    given = dict(words.registers)
    if "/p" not in given and layout.cells:
        given["/p"] = (0, "main" if "main" in layout.labels else 0)
    for register in ("/p", "/a", "/b"):
        if register in given:
            at, label = given[register]
            value = layout.value(label)
            demand_range(value < BOUNDS[register], at, str(label), register)
            setattr(node, register[1], value)
    layout.load(node, {})
    return node, words, layout
