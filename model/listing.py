"""Part of the reference model, for "Source" in docs/REFERENCE.md: what `ga144 list` and `ga144 dis` write."""

from machine import name as name_of
from node import Node, advanced, target_of
from source import FIELDS, numbered, on_line, programs_left, programs_of, told_of
from words import OPCODES, PORTS, Fault, lines_of

NAMES = ["invert" if it == "-" else it for it in OPCODES]


def target_text(label, layout):
    return label if isinstance(label, str) else f"{layout.labels[label]:03x}"


def value_text(value):
    return f"'{value}" if isinstance(value, str) else f"0x{value:05x}"


def cell_lines(cell, layout, line):
    """A cell with its literals."""
    if cell.data:
        held = value_text(cell.data[0])
    else:
        held = " ".join(NAMES[code] if label is None else f"{NAMES[code]} {target_text(label, layout)}" for _, code, label in cell.slots)
    yield f"{cell.address:03x} {layout.word(cell):06x} {held} \\ {line}"
    address = cell.address
    for _, value in cell.literals:
        address = advanced(address)
        yield f"{address:03x} {layout.value(value):06x} {value_text(value)}"


def listed(source):
    """Standard output and standard error of `list`, and its status."""
    lines = [it.strip(" \t\r\f") for it in lines_of(source)]
    words, line_of = numbered(source)
    try:
        programs, faults = programs_of(words), []
    except Fault:
        words, line_of = numbered(source, is_whole=False)
        programs, faults = programs_left(words)
    parts = []
    for node, (_, read, layout) in programs.items():
        parts.append((read.begun, [f"node {node}"]))
        for at, it in layout.order:
            if isinstance(it, str):
                parts.append((at, [f"{it}:"]))
            elif not isinstance(it, int):
                parts.append((at, cell_lines(it, layout, lines[line_of[at] - 1])))
    before = None
    for error in faults:
        it = on_line(error, line_of)
        if str(it) != before:
            parts.append((error.line, [f"{it} \\ {lines[it.line - 1]}"]))
        before = str(it)
    text = [line for _, part in sorted(parts, key=lambda it: it[0]) for line in part]
    return "".join(f"{it}\n" for it in text), told_of([on_line(it, line_of) for it in faults]), 1 if faults else 0


def slots_of(word, address):
    """The opcodes of a word, up to the last that is run; P after it and the literals so far; and where a jump leads."""
    held, p = word ^ 0x15555, advanced(address)
    for slot, code in enumerate((held >> 13, held >> 8 & 31, held >> 3 & 31, (held & 7) << 2)):
        text = NAMES[code]
        if text in ("jump", "call", "next", "if", "-if"):
            bits = FIELDS[slot]
            yield text, p, p >> bits << bits | word % (1 << bits)
            return
        yield text, p, None
        if text in ("@p", "!p"):
            p = advanced(p)
        if text in (";", "ex"):
            return


def reached(node):
    """The cells to which P leads, those of them to which a jump leads, and the cells of literals."""
    code, labels, literals, left = set(), set(), set(), [node.p]
    while left:
        memory, cell = here = target_of(left.pop())
        if memory not in ("ram", "rom") or here in code:
            continue
        code.add(here)
        address = cell + (0x80 if memory == "rom" else 0)
        text = None
        for text, p, to in slots_of(getattr(node, memory)[cell], address):
            if text == "@p":
                literals.add(target_of(p))
            if to is not None:
                labels.add(target_of(to))
                left.append(to)
        if text not in (";", "jump"):
            left.append(advanced(p) if text in ("@p", "!p") else p)
    return code, labels, literals


def cell_at(node, address):
    """The word of a cell; None where the address is that of no memory."""
    memory, cell = target_of(address)
    return getattr(node, memory)[cell] if memory in ("ram", "rom") else None


def port_text(address):
    """The name of a port, of `io` or of a set of ports, None where it is no such address."""
    kind, sides = target_of(address)
    names = {at: it for it, at in PORTS.items()}
    if address in names:
        return names[address]
    return "".join(it if it in sides else "-" for it in "rdlu") if kind == "ports" and address < 0x200 else None


def remark(node, roles, word, address):
    """The remark about a cell."""
    code, labels, literals = roles
    here = target_of(address)
    if here not in code and here in literals:
        return f"{address:03x}  {port_text(word) or (word if word < 0x20000 else word - 0x40000)}"
    mark = ":" if here in labels else " " if here in code else "?"
    held = [text if to is None else f"{text} {port_text(to % 0x200) or f'{to:03x}'}" for text, _, to in slots_of(word, address)]
    read = [at for text, at, _ in slots_of(word, address) if text == "@p" and here in code]
    zeros = [f", {at:03x} is 0" for at in read if target_of(at) not in code and cell_at(node, at) == 0]
    return f"{address:03x}{mark} {' '.join(held)}{''.join(zeros)}"


def unsaid(node):
    """The fields that have no source."""
    load = Node(node.number)
    fields = [name for name in ("i", "io", "carry", "slot", "d", "r", "wait", "stop") if getattr(node, name) != getattr(load, name)]
    return f"ga144: node {name_of(node.number)}: not in source: {' '.join(fields)}\n" if fields else ""


def disassembled(nodes):
    """What `dis` writes for these nodes on standard output and on standard error."""
    text = []
    for node in nodes:
        load, lines, following = Node(node.number), [], 0
        cells = [(at, word) for at, word in [*enumerate(node.ram), *enumerate(node.rom, 0x80)] if word]
        for register, usual in (("p", 0 if cells else load.p), ("a", load.a), ("b", load.b)):
            if getattr(node, register) != usual:
                lines.append(f"/{register} 0x{getattr(node, register):05x}")
        roles = reached(node)
        for address, word in cells:
            if address != following:
                lines.append(f"org 0x{address:02x}")
            lines.append(f"0x{word:06x} , \\ {remark(node, roles, word, address)}")
            following = address + 1
        if lines:
            text += [f"node {name_of(node.number)}", *lines]
    return "".join(f"{it}\n" for it in text), "".join(unsaid(it) for it in nodes)
