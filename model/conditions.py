"""The language of conditions. Part of the reference model, for docs/REFERENCE.md, "Conditions" and "In an editor"."""

import re

VALUE, SIGN, SIZE = r"(t|s|r|p|a|b|i|io|slot|carry|step|d[2-9]|r[1-8]|\[[0-9a-fA-F]{2}\])", "(==?|!=|<=?|>=?)", "(-?)(0x[0-9a-fA-F]+|0|[1-9][0-9]*)"
NO_CONDITION = "condition: a register or [HH], then = != < <= > or >=, then a number, port or label"
NO_WORD = "condition: the number is past 0x3ffff, the last word"
NO_HITS, MANY_HITS = "hitCondition: N, >= N or % N, from 1 on", "hitCondition: hits are counted of 64 breakpoints at most"
SIGNS = {"=": int.__eq__, "==": int.__eq__, "!=": int.__ne__, "<": int.__lt__, "<=": int.__le__, ">": int.__gt__, ">=": int.__ge__}
STACKS = {"t": ("d", 0), "s": ("d", 1), "r": ("r", 0)}
ADDRESSES = {"right": 0x1D5, "down": 0x115, "left": 0x175, "up": 0x145, "io": 0x15D}


def number_in(text, label):
    """The number of a text: a number, a word as answers have it, a port or a set of ports, or what it is as a label; or None."""
    plain = re.fullmatch(SIZE, text)
    size = plain and int(plain[2], 0)
    if plain and size < 1 << 32 and not (plain[1] and size > 1 << 17):
        return -size % (1 << 18) if plain[1] else size
    if re.fullmatch("0[0-3][0-9a-fA-F]{4}", text):
        return int(text, 16)
    if text in ADDRESSES:
        return ADDRESSES[text]
    if re.fullmatch("[r-][d-][l-][u-]", text) and text != "----":
        return 0x155 ^ sum(bit for bit, letter in zip((0x80, 0x40, 0x20, 0x10), text) if letter != "-")
    return label(text)


def value_of(it, step, name):
    """A value of a node that made `step` steps."""
    if name == "step":
        return step
    if name[0] == "[":
        return (it.ram if int(name[1:3], 16) < 128 else it.rom)[int(name[1:3], 16) % 64]
    stack, place = STACKS.get(name, (name[0], int(name[1:]) if name[1:].isdigit() else None))
    return int(getattr(it, name)) if place is None else getattr(it, stack)[place]


def test_in(text, label=lambda name: None):
    """The test of a condition, a function of a node and its number of steps, or None and the message about a text that is no condition."""
    said = isinstance(text, str) and re.fullmatch(f"{VALUE} {SIGN} (.+)", text, re.DOTALL)
    number = number_in(said[3], label) if said else None
    if number is None:
        return None, NO_CONDITION
    if number >= 1 << 18 and said[1] != "step":
        return None, NO_WORD
    return (lambda it, step: SIGNS[said[2]](value_of(it, step, said[1]), number)), None


def count_in(text):
    """Which hits a hit condition asks for, by a number that is counted only then; or None where the text says none."""
    said = isinstance(text, str) and re.fullmatch("(>= |% |)([1-9][0-9]*)", text)
    if not said or int(said[2]) >= 1 << 32:
        return None
    asks = {"": int.__eq__, ">= ": int.__ge__, "% ": lambda number, step: number % step == 0}[said[1]]
    return lambda number: asks(number(), int(said[2]))


def asked_with(asked, before, label):
    """What a breakpoint has beside its place, with this number of breakpoints before it; and what can't be read of it."""
    text, hits = asked.get("condition"), asked.get("hitCondition")
    test, fault = ((lambda it, step: True), None) if text is None else test_in(text, label)
    count = (lambda number: True) if hits is None else count_in(hits)
    fault = fault or (NO_HITS if count is None else MANY_HITS if hits is not None and before >= 64 else None)
    return {"test": test, "count": count}, fault


VALUES = ("t", "t", "s", "r", "a", "p", "b", "i", "io", "slot", "step", "carry", "d3", "r2", "[05]", "[22]", "[83]")
OPERANDS = ("0", "1", "5", "0x6", "7", "12", "40", "-1", "-0x20000", "0x15555", "000020", "015555", "right", "--l-", "main", "x")


def generated_test(draw, value=None, held=None):
    """A test of a value, drawn; one that it may well pass if it is given."""
    operand = draw.choice((f"{held}", f"0x{held:x}", f"{held:06x}", f"{max(held - 1, 0)}")) if held is not None and draw.random() < 0.8 else draw.choice(OPERANDS)
    return f"{value or draw.choice(VALUES)} {draw.choice(list(SIGNS))} {operand}"
