"""What a client of `ga144 dap` is shown. Part of the reference model, for the Debug Adapter Protocol over the replay machine.

A node is a thread, and the numbers that a client gives back mean something by themselves. Each function here gives the body of a
response; editing.py has the session around them.
"""

import re

from explore import Explorer
from listing import NAMES
from machine import NODES, name
from node import FETCH_DUE, SIDES, WORD, Node, advanced, neighbour, target_of
from notes import Notes
from source import NODE_NAMES, programs_of
from words import CODE, words_of

SIDE_NAMES = dict(zip(SIDES, ("right", "down", "left", "up")))
SCOPES = {"Registers": 0, "Data stack": 1, "Return stack": 2, "Links": 3, "RAM": 4, "ROM": 5}
STOPS = ("runs", "stopped: a write to several ports", "stopped: an address that names nothing", "stopped")
WAITS = {"fetch": "waits for code from", "read": "waits to read from", "write": "waits to write to"}
JUMPS = {CODE[it] for it in ("jump", "call", "next", "if", "-if")}
ENDS = JUMPS | {CODE[";"], CODE["ex"]}
# the opcodes after which a line may begin anew: those that leave their cell
JUMP_OPS = ENDS
FIELDS = (0x3FF, 0xFF, 7)
REGISTERS = ("state", "step", "p", "t", "s", "r", "a", "b", "i", "slot", "carry", "io")


def thread_of(node):
    return 1000 + int(name(node))


def node_of_thread(thread):
    return next((it for it in range(NODES) if thread == thread_of(it)), None)


def node_of_frame(frame):
    """The node of a frame, of which each has 16."""
    known = isinstance(frame, int) and 1 <= frame <= 16 * NODES
    return (frame - 1) // 16 if known else None


def address_of(node, cell):
    """An address of the chip: three digits of the node, and three hexadecimal digits in it."""
    return f"0x{name(node)}{cell:03x}"


def valued(word):
    """A word by its six digits, as a number, and as a negative one where it has that sign."""
    return f"{word:06x} = {word}" + (f" = {word - WORD - 1}" if word > WORD // 2 else "")


def cell_of(address):
    """The cell that an address names, 128 more in ROM, or None."""
    what, where = target_of(address)
    return where + 128 * (what == "rom") if what in ("ram", "rom") else None


def op_of(told):
    """The opcode that a step carried out, or None."""
    return int(told[-2:], 16) if " run " in told else None


class Places(Notes):
    """What a source gives for cells, by their numbers; an image gives nothing."""

    def __init__(self, source=None):
        super().__init__(source)
        self.given, self.words, self.names, self.is_data, self.slots = {}, {}, {}, set(), []
        for of, (_, words, layout) in (programs_of(words_of(source)) if source is not None else {}).items():
            node = NODE_NAMES[of]
            self.names[node] = [(it, cell_of(layout.labels[it])) for it in dict.fromkeys(label for _, label in words.named)]
            for group in layout.cells:
                self.give(node, group)

    def give(self, node, group):
        """Stores the words of the slots of a cell and of its literals: the last word also has the later slots."""
        address, words = group.address, [it for it, *_ in group.slots]
        for place, word in enumerate([words[0]] + [it for it, _ in group.literals]):
            cell, is_code = cell_of(address), not place and not group.data
            self.given[node, cell] = word
            for slot in range(4):
                self.words[node, (cell, slot)] = words[min(slot, len(words) - 1)] if is_code else word
            if is_code:
                self.slots += [(it, node, (cell, slot)) for slot, it in enumerate(words)]
            else:
                self.is_data.add((node, cell))
            address = advanced(address)

    def stands(self, line):
        """The place of a breakpoint on a line: the line, node and spot of this or the next line that has code; or None."""
        return min((it for it in self.slots if it[0] >= line), key=lambda it: it[0], default=None)

    def word(self, node, spot):
        """The word from which the slot of a spot comes: a line with a column."""
        return self.words.get((node, spot))

    def named(self, node, cell):
        """The first label at a cell."""
        return next((it for it, other in self.names.get(node, []) if other == cell), None)

    def near(self, node, cell):
        """A cell by the nearest label up to it in its memory."""
        for behind in range(cell % 64 + 1):
            label = self.named(node, cell - behind)
            if label is not None:
                return label + (f"+{behind}" if behind else "")
        return f"{cell:02x}"

    def begins_at(self, node, line, spot):
        """Whether a spot is the first slot of a line of a node."""
        return next((it for word, of, it in self.slots if (word, of) == (line, node)), None) == spot


class Watched(Explorer):
    """The machine with what each step of a node did: its text, the node after it, the cell from which its word was
    fetched, and for each entry of the return stack the call that pushed it."""

    def replay(self):
        self.kept = [[("", it.copy(), None, [None] * 9)] for it in self.load]
        super().replay()

    def apply(self, event):
        before = [self.chip[it].copy() for it in event]
        super().apply(event)
        for node, held in zip(event, before):
            self.kept[node].append(self.passed(node, held))

    def passed(self, node, before):
        told, _, cell, calls = self.kept[node][-1]
        told, behind, op = self.told[-1], self.chip[node].copy(), op_of(self.told[-1])
        if told.endswith(" fetch") or before.wait and before.wait[0] == "fetch" and not behind.wait:
            cell = cell_of(before.p)
        calls = list(calls)
        if op == CODE["call"] or op == CODE["push"]:
            calls = [self.steps[node] if op == CODE["call"] else None, *calls[:-1]]
        elif op in (CODE[";"], CODE["pop"]) or op in (CODE["next"], CODE["unext"]) and not before.r[0]:
            calls = [*calls[1:], None]
        elif op in (CODE["ex"], CODE["next"], CODE["unext"]):
            calls[0] = None
        return told, behind, cell, calls

    def spot(self, node, step):
        """The spot of a node after a step: the cell and slot that it executes next, or None outside of its memory."""
        _, it, cell, _ = self.kept[node][step]
        if it.slot == FETCH_DUE:
            cell = cell_of(it.p)
        return None if cell is None else (cell, it.slot % FETCH_DUE)

    def leaves_call(self, node, step):
        """Whether a step is one by which a node leaves a call otherwise than by `;`."""
        (*_, before), (told, *_, behind) = self.kept[node][step - 1 : step + 1]
        return bool({*before} - {*behind, None}) and op_of(told) != CODE[";"]

    def calls(self, node):
        """The steps by which a node called and from which it did not come back, the newest first."""
        return [it for it in self.kept[node][-1][3] if it]


class Shown:
    """The bodies of the responses that read."""

    def __init__(self, machine, notes, programs, path):
        self.machine, self.notes, self.programs, self.path = machine, notes, programs, path
        self.source = {"name": path.rsplit("/", 1)[-1], "path": path}

    def does(self, node):
        it = self.machine.chip[node]
        if it.wait:
            return f"{WAITS[it.wait[0]]} {' or '.join(SIDE_NAMES[side] for side in SIDES if side in it.wait[1])}"
        return STOPS[it.stop]

    def has_thread(self, node):
        """The node has a program in the source, made more than one event, or its P names memory."""
        return node in self.programs or self.machine.steps[node] > 1 or cell_of(self.machine.chip[node].p) is not None

    def nodes(self):
        return [it for it in range(NODES) if self.has_thread(it)]

    def threads(self):
        return {"threads": [{"id": thread_of(it), "name": f"{name(it)} {self.does(it)}"} for it in self.nodes()]}

    def frame(self, node, level, spot):
        frame = {"column": 0, "id": 1 + 16 * node + level, "line": 0}
        if spot is None:
            return frame | {"name": f"{name(node)} outside its memory", "presentationHint": "subtle"}
        frame |= {"instructionPointerReference": address_of(node, spot[0]), "name": f"{name(node)} {self.notes.near(node, spot[0])}"}
        word = self.notes.word(node, spot)
        return frame if word is None else frame | {"column": word.column, "line": int(word), "source": self.source}

    def stack(self, node, start=0, count=0):
        spots = [self.machine.spot(node, self.machine.steps[node])] + [self.machine.spot(node, it - 1) for it in self.machine.calls(node)]
        frames = [self.frame(node, level, spot) for level, spot in enumerate(spots)]
        return {"stackFrames": frames[start : start + count if count else None], "totalFrames": len(frames)}

    @staticmethod
    def scopes(node):
        found = []
        for scope, number in SCOPES.items():
            memory = {"expensive": True, "indexedVariables": 64} if number > 3 else {"expensive": False}
            found.append({"name": scope, "variablesReference": 1 + 8 * node + number} | memory)
        return {"scopes": found}

    def registers(self, node):
        it = self.machine.chip[node]
        words = {"p": it.p, "t": it.d[0], "s": it.d[1], "r": it.r[0], "a": it.a, "b": it.b, "i": it.i, "io": it.io}
        found = {each: valued(word) for each, word in words.items()} | {"state": self.does(node), "step": f"{self.machine.steps[node]}"}
        found |= {"slot": "4, a fetch is due" if it.slot == FETCH_DUE else f"{it.slot}", "carry": f"{it.carry}"}
        return {each: found[each] for each in REGISTERS}

    def links(self, node):
        found = {}
        for side, label in SIDE_NAMES.items():
            other = neighbour(node, side)
            found[label] = "none" if other is None else f"{name(other)} {self.does(other)}"
        return found | {"stuck": "can never go on" if node in self.machine.stuck() else "no"}

    def held(self, node, scope):
        """The names and the values of a scope."""
        it = self.machine.chip[node]
        if scope == 0:
            return self.registers(node)
        if scope == 1:
            return {f"d{at}" if at > 1 else "ts"[at]: valued(word) for at, word in enumerate(it.d)}
        if scope == 2:
            return {f"r{at}" if at else "r": valued(word) for at, word in enumerate(it.r)}
        if scope == 3:
            return self.links(node)
        return {f"[{at + 128 * (scope == 5):02x}]": valued(word) for at, word in enumerate(it.rom if scope == 5 else it.ram)}

    def variables(self, node, scope, start=0, count=0):
        found = []
        for label, value in self.held(node, scope).items():
            cell = {"memoryReference": address_of(node, int(label[1:3], 16))} if scope > 3 else {}
            found.append({"name": label, "value": value, "variablesReference": 0} | cell)
        return {"variables": found[start : start + count if count else None]}

    def value(self, node, text):
        """The value of a register or of a cell in brackets, or None."""
        found = {each: value for scope in range(4) for each, value in self.held(node, scope).items()}
        if re.fullmatch(r"\[[0-9a-fA-F]{2}\]", text):
            cell, it = int(text[1:3], 16), self.machine.chip[node]
            return valued((it.ram if cell < 0x80 else it.rom)[cell % 64])
        return found.get(text) if text in REGISTERS else None

    def exception(self, node):
        stuck = "stuck" if node in self.machine.stuck() else "none"
        return {"breakMode": "always", "description": f"node {name(node)} {self.does(node)}", "exceptionId": "stop" if self.machine.chip[node].stop else stuck}

    def operand(self, node, address):
        """Where a jump leads."""
        cell = cell_of(address)
        label = None if cell is None else self.notes.named(node, cell)
        return f"{address % 512:03x}" if label is None else label

    def instruction(self, node, address):
        """The opcodes of a cell, up to the last that is executed."""
        cell = cell_of(address)
        it = self.machine.chip[node]
        word = (it.ram if cell < 128 else it.rom)[cell % 64]
        line = self.notes.given.get((node, cell))
        found = {"address": address_of(node, address), "instructionBytes": f"{word:06x}"}
        found |= {} if line is None else {"line": int(line), "location": self.source}
        label = self.notes.named(node, cell)
        found |= {} if label is None else {"symbol": label}
        if (node, cell) in self.notes.is_data:
            return found | {"instruction": f"word {word}"}
        reader, p, told = Node(node), advanced(cell), []
        reader.i = word
        for slot in range(4):
            reader.slot = slot
            code = reader.opcode()
            told.append(NAMES[code])
            if code in JUMPS and slot < 3:
                told.append(self.operand(node, p & ~FIELDS[slot] | word & FIELDS[slot]))
            if code in ENDS:
                break
        return found | {"instruction": " ".join(told)}

    def disassembled(self, node, first, count):
        found = []
        for address in (it % 4096 for it in range(first, first + count)):
            known = address < 256
            found.append(self.instruction(node, address) if known else {"address": address_of(node, address), "instruction": "no memory", "presentationHint": "invalid"})
        return {"instructions": found}

    # ---- lines

    def place_back(self, node, step, began=0):
        """The step before one; if that one returned from a call that was made after step `began`, the step before the call."""
        call = self.machine.kept[node][step - 1][3][0] or 0
        return call - 1 if op_of(self.machine.kept[node][step][0]) == CODE[";"] and call > began else step - 1

    def begins(self, node, step, began=0):
        """Whether a line begins after a step: the node came to it from another, over calls that it made after step `began`, or by a jump
        to its first slot."""
        spot = self.machine.spot(node, step)
        line = self.notes.word(node, spot)
        if line is None:
            return False
        before = self.machine.spot(node, self.place_back(node, step, began))
        return self.notes.word(node, before) != line or op_of(self.machine.kept[node][step][0]) in JUMP_OPS and self.notes.begins_at(node, line, spot)

    def line_back(self, node):
        """How many steps of a node stay where its line began, or the line before."""
        step = self.machine.steps[node]
        step = step and self.place_back(node, step)
        while step and not self.begins(node, step):
            step = self.place_back(node, step)
        return step
