"""One node of the GA144. Part of the reference model of docs/REFERENCE.md, which is independent of the crates' definitions.

A stack is a list with its top first. A wait is a pair of a kind and a set of sides, as a string of letters of 'rdlu'.
"""

import functools

WORD = 0x3FFFF
EMPTY = 0x15555
SIDES = "rdlu"
FETCH_DUE = 4


@functools.cache
def neighbour(node, side):
    """The node on a side, or None at the edge of the grid."""
    row, column = divmod(node, 18)
    if side in "rl":
        column += 1 if (column % 2 == 0) == (side == "r") else -1
    else:
        row += 1 if (row % 2 == 0) == (side == "d") else -1
    return row * 18 + column if 0 <= row < 8 and 0 <= column < 18 else None


def port(sides):
    """The address of the ports of these sides."""
    return sum(0x80 >> SIDES.index(side) for side in sides) ^ 0x155


def target_of(address):
    """The target of an address, in its low nine bits: a memory with a cell, 'io', the ports of some sides, or nothing."""
    address &= 0x1FF
    if address < 0x100:
        return ("ram" if address < 0x80 else "rom", address & 0x3F)
    named = address ^ 0x155
    if named == 8:
        return ("io", None)
    if named and not named & 0xF:
        return ("ports", "".join(side for side in SIDES if named & (0x80 >> SIDES.index(side))))
    return ("nothing", None)


def advanced(address):
    """P or A after an increment: it wraps at the end of its memory, and an address with bit 8 (ports, `io`) stays the same."""
    return address if address & 0x100 else address & ~0x7F | (address + 1) & 0x7F


def signed(word):
    return word - (1 << 18) if word >> 17 else word


def push(stack, word):
    stack.insert(0, word)
    stack.pop()


def pop(stack):
    """Removes and returns the top. The new bottom word is that of a ring of eight cells."""
    stack.append(stack[len(stack) - 8])
    return stack.pop(0)


class Halt(Exception):
    """Raised by an access that makes the node wait or stop."""


class Node:
    def __init__(self, number):
        self.number = number
        self.d, self.r = [EMPTY] * 10, [EMPTY] * 9
        self.ram, self.rom = [0] * 64, [0] * 64
        self.a, self.b, self.i, self.io, self.carry = 0, 0x15D, 0, EMPTY, 0
        self.p = port([side for side in SIDES if neighbour(number, side) is not None])
        self.slot, self.wait, self.stop = FETCH_DUE, None, 0

    def copy(self):
        other = Node.__new__(Node)
        other.__dict__.update(self.__dict__)
        other.d, other.r, other.ram, other.rom = self.d[:], self.r[:], self.ram[:], self.rom[:]
        return other

    def waits(self, kinds, side):
        return self.wait is not None and self.wait[0] in kinds and side in self.wait[1]

    # Accesses. `seen` is a function that returns the word of `io`.

    def read(self, address, kind, seen):
        what, where = target_of(address)
        if what == "io":
            return seen()
        if what == "ports":
            self.wait = (kind, where)
            raise Halt("wait")
        if what == "nothing":
            self.stop = 2
            raise Halt("stop 2")
        return (self.ram if what == "ram" else self.rom)[where]

    def write(self, address):
        what, where = target_of(address)
        if what == "ports" and len(where) == 1:
            self.wait = ("write", where)
            raise Halt("wait")
        if what in ("ports", "nothing"):
            self.stop = 1 if what == "ports" else 2
            raise Halt(f"stop {self.stop}")
        word = pop(self.d)
        if what == "ram":
            self.ram[where] = word
        elif what == "io":
            self.io = word

    # Events.

    def own(self, seen):
        """Makes the node's own event, and returns its text."""
        try:
            if self.slot == FETCH_DUE:
                self.i = self.read(self.p, "fetch", seen)
                self.p, self.slot = advanced(self.p), 0
                return "fetch"
            code = self.opcode()
            self.run(code, seen)
            return f"run {code:02x}"
        except Halt as halt:
            return str(halt)

    def opcode(self):
        bits = self.i ^ EMPTY
        return (bits & 7) << 2 if self.slot == 3 else bits >> (13 - 5 * self.slot) & 0x1F

    def goes_on(self):
        self.slot = min(self.slot + 1, FETCH_DUE)

    def jump(self):
        field = (0x3FF, 0xFF, 7)[self.slot]
        self.p = self.p & ~field | self.i & field

    def run(self, code, seen):
        if code < 8:
            self.run_control(code)
        else:
            (self.run_memory if code < 16 else self.run_data)(code, seen)
            self.goes_on()

    def run_control(self, code):
        if code == 4:  # unext
            if self.r[0]:
                self.r[0] -= 1
                self.slot = 0
            else:
                pop(self.r)
                self.goes_on()
            return
        if code == 0:  # ;
            self.p = pop(self.r) & 0x3FF
        elif code == 1:  # ex
            self.p, self.r[0] = self.r[0] & 0x3FF, self.p
        elif code == 2:  # jump
            self.jump()
        elif code == 3:  # call
            push(self.r, self.p)
            self.jump()
        elif code == 5:  # next
            if self.r[0]:
                self.r[0] -= 1
                self.jump()
            else:
                pop(self.r)
        elif code == 6 and not self.d[0] or code == 7 and not self.d[0] >> 17:  # if, -if
            self.jump()
        self.slot = FETCH_DUE

    def run_memory(self, code, seen):
        register = ("p", "a", "b", "a")[code % 4]
        address = getattr(self, register)
        if code < 12:
            push(self.d, self.read(address, "read", seen))
        else:
            self.write(address)
        if code % 4 < 2:
            setattr(self, register, advanced(address))

    def run_data(self, code, _seen):
        d, r = self.d, self.r
        if code == 0x10:  # +*
            total = signed(d[0]) + (signed(d[1]) if self.a & 1 else 0)
            d[0], self.a = total // 2 & WORD, self.a >> 1 | total % 2 << 17
        elif code == 0x11:  # 2*
            d[0] = 2 * d[0] & WORD
        elif code == 0x12:  # 2/
            d[0] = d[0] >> 1 | d[0] & 0x20000
        elif code == 0x13:  # invert
            d[0] = WORD - d[0]
        elif code in (0x14, 0x15, 0x16):  # +, and, or
            top = pop(d)
            d[0] = self.sum(top, d[0]) if code == 0x14 else top & d[0] if code == 0x15 else top ^ d[0]
        elif code == 0x17:  # drop
            pop(d)
        elif code in (0x18, 0x1A, 0x1B):  # dup, over, a
            push(d, (d[0], None, d[1], self.a)[code - 0x18])
        elif code == 0x19:  # pop
            push(d, pop(r))
        elif code == 0x1D:  # push
            push(r, pop(d))
        elif code == 0x1E:  # b!
            self.b = pop(d) & 0x1FF
        elif code == 0x1F:  # a!
            self.a = pop(d)

    def sum(self, top, second):
        if not self.p & 0x200:
            return top + second & WORD
        total = top + second + self.carry
        self.carry = total >> 18
        return total & WORD

    # The two halves of a transfer.

    def send(self):
        self.wait = None
        self.goes_on()
        return pop(self.d)

    def take(self, word):
        if self.wait[0] == "fetch":
            self.i, self.slot = word, 0
        else:
            push(self.d, word)
            self.goes_on()
        self.wait = None
