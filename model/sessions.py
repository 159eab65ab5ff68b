#!/usr/bin/env python3
"""Gives generated sessions to a program and to the replay machine, and compares the answers byte by byte.

sessions.py PROGRAM FIRST COUNT: COUNT sessions, each generated from its number, from number FIRST on.
sessions.py --write FOLDER FIRST COUNT: writes those with the default limit as files, with their answers.
"""

import random
import subprocess
import sys
from itertools import zip_longest

from machine import Machine, NODES, block_of, name
from node import Node, SIDES, neighbour, port

READS_AND_WRITES = (0x0A, 0x0A, 0x0A, 0x0B, 0x0E, 0x0E, 0x0E, 0x0F, 0x18, 0x1C)
LAST_SLOT = (0x00, 0x04, 0x08, 0x0C, 0x10, 0x14, 0x18, 0x1C, 0x1C, 0x1C)
JUMP_TO_0 = 0x10000
IO = 0x15D
# Words and addresses at the boundaries of rules: 0, the ends of a memory, bit 9 of P, the highest bits.
TURNS = (0, 0, 1, 0x7F, 0xFF, 0x200, 0x1FFFF, 0x20000, 0x3FFFF)
PLACES = (0, 5, 0x3F, 0x7F, 0x80, 0xFF, 0x200, 0x23F, 0x27F, 0x2FF, IO)
# The time limit of a session, in seconds.
SECONDS = 60
DEFAULT_LIMIT = 1000000
# The default limit of `ga144 explore` and `ga144 draw`.
EXPLORED_LIMIT = 20000000
# The number of characters from which answers are not written as a file.
LONG = 900000
# The frequencies of the commands, of 1000.
COMMANDS = {"step": 800, "back": 40, "rewind": 50, "why": 40, "node": 20, "mem": 10, "trace": 10, "count": 10, "dump": 20}


def encoded(codes):
    """A word with these opcodes in its four slots."""
    bits = sum(code << 13 - 5 * slot for slot, code in enumerate(codes[:3])) | codes[3] >> 2
    return bits ^ 0x15555


class Generator:
    def __init__(self, number):
        self.random = random.Random(number)
        self.load = [Node(node) for node in range(NODES)]
        # one session in four begins with all nodes in arbitrary states
        self.nodes = self.some_nodes() if number % 4 else list(range(NODES))
        for node in self.nodes:
            (self.fill if number % 4 else self.fill_with_state)(self.load[node])
        for middle in () if number % 4 else self.random.sample(self.nodes, 12):
            self.surround(middle)

    def some_nodes(self):
        """Two or more nodes of a square of nine nodes."""
        row, column = divmod(self.random.randrange(NODES), 18)
        rows = range(max(row - 1, 0), min(row + 2, 8))
        columns = range(max(column - 1, 0), min(column + 2, 18))
        square = [18 * at + other for at in rows for other in columns]
        return self.random.sample(square, self.random.randint(2, len(square)))

    def word(self):
        anything, small = self.random.randrange(1 << 18), self.random.randrange(4)
        return self.random.choice((anything, small, port(self.random.choice(SIDES))))

    def fill(self, node):
        kind = self.random.random()
        if kind < 0.6:
            self.fill_with_loop(node)
        elif kind < 0.9:
            self.fill_with_anything(node)

    def fill_with_loop(self, node):
        """A loop of reads and writes with A and B, which are addresses of ports inside of the square, or `io`."""
        inside = "".join(side for side in SIDES if neighbour(node.number, side) in self.nodes) or SIDES
        ports = [port(side) for side in inside]
        node.p = 0
        node.a = self.random.choice(ports + [self.random.choice(ports), port(inside), IO])
        node.b = self.random.choice(ports + [self.random.choice(ports), IO])
        node.d = [self.word() for _ in node.d]
        length = self.random.randint(1, 4)
        for at in range(length):
            codes = [self.random.choice(READS_AND_WRITES) for _ in range(3)] + [self.random.choice(LAST_SLOT)]
            node.ram[at] = encoded(codes)
        node.ram[length] = JUMP_TO_0

    def fill_with_anything(self, node):
        pick = self.random.choice
        node.p, node.a, node.b = pick((0, 5, 0x80, IO, 0x200)), pick((self.word(), IO)), self.word() & 0x1FF
        node.io, node.carry = self.word(), pick((0, 1))
        node.d, node.r = [self.word() for _ in node.d], [self.word() for _ in node.r]
        for memory in (node.ram, node.rom):
            for at in range(pick((0, 4, 8, 64))):
                codes = [self.random.randrange(32) for _ in range(3)] + [pick(LAST_SLOT)]
                memory[at] = pick((self.word(), encoded(codes)))
        sides = "".join(side for side in SIDES if pick((True, False))) or "r"
        state = pick(("run", "run", "stop", "fetch", "read", "write"))
        if state == "stop":
            node.stop = pick((1, 2, 3))
        elif state != "run":
            node.wait = (state, sides[0] if state == "write" else sides)
        if state in ("read", "write"):
            node.slot, node.i = self.random.randrange(4), self.word()

    def fill_with_state(self, node):
        """A node before any opcode, or before a fetch, with words and addresses of all kinds."""
        pick, number = self.random.choice, self.random.randrange
        node.i, node.slot = encoded([number(32) for _ in range(3)] + [pick(LAST_SLOT)]), number(5)
        node.p = pick((pick(PLACES), pick(PLACES), number(0x400)))
        node.a = pick(PLACES) & 0x1FF | number(0x200) << 9
        node.b = pick((pick(PLACES) & 0x1FF, number(0x200)))
        node.io, node.carry = self.word(), number(2)
        node.d, node.r = [pick((self.word(), pick(TURNS))) for _ in node.d], [pick((self.word(), pick(TURNS))) for _ in node.r]
        for memory in (node.ram, node.rom):
            for at in (0, 1, 5, 6, 62, 63):
                memory[at] = pick((self.word(), encoded([number(32) for _ in range(3)] + [pick(LAST_SLOT)])))

    def surround(self, middle):
        """A node that reads, fetches or looks, and neighbours that wait for it or for another node."""
        node, pick = self.load[middle], self.random.choice
        state = pick(("read", "fetch", "look"))
        sides = "".join(side for side in SIDES if self.random.random() < 0.8) or "r"
        node.slot = 4 if state == "fetch" else pick((0, 1, 2, 3))
        node.wait = (state, sides) if state != "look" else None
        node.i, node.b = (encoded((0x0A, 0x0A, 0x0A, 0x00)), IO) if state == "look" else (node.i, node.b)
        node.slot = 0 if state == "look" else node.slot
        for side in SIDES:
            other = neighbour(middle, side)
            if other is not None and self.load[other].wait is None:
                kind = pick(("write", "write", "write", "read", "fetch", "none"))
                if kind != "none":
                    self.load[other].wait = (kind, pick((side, side, pick(SIDES))))
                    self.load[other].slot = 4 if kind == "fetch" else pick((0, 1, 2, 3))

    def image(self):
        """An image of the load, with the lines of each block in any order."""
        lines = ["ga144 2"]
        for node in self.nodes:
            first, *others = block_of(self.load[node])
            self.random.shuffle(others)
            lines += [first] + others
        return lines + ["end"]

    def command(self, machine):
        """A command, and the machine's answer."""
        node, other = self.random.choice(self.nodes), self.random.choice(self.nodes)
        step, other_step = (self.random.randint(0, machine.steps[at] + 1) for at in (node, other))
        address = self.random.randrange(256)
        chosen = self.random.choices(list(COMMANDS), list(COMMANDS.values()))[0]
        if chosen == "step" and self.random.random() < 0.9:
            node = self.random.choice([at for at in self.nodes if machine.next(at)] or self.nodes)
        if chosen == "rewind" and self.random.random() < 0.8:
            node = self.random.choice([at for at in self.nodes if machine.steps[at]] or self.nodes)
            step = max(1, machine.steps[node] - self.random.randrange(12))
        if chosen == "why" and self.random.random() < 0.8 and machine.events:
            # two events of the history, the second near its end
            count = len(machine.events)
            later = self.random.randrange(max(count - 20, 0), count)
            (node, step), (other, other_step) = (machine.step_at(at) for at in (self.random.randrange(later + 1), later))
        arguments = {
            "step": (node,),
            "rewind": (node, step),
            "why": (node, step, other, other_step),
            "node": (node,),
            "mem": (node, address),
            "trace": (node,),
        }.get(chosen, ())
        return spelled(chosen, arguments), getattr(machine, chosen)(*arguments)


def spelled(command, arguments):
    if command == "mem":
        return f"mem {name(arguments[0])} {arguments[1]:02x}"
    # nodes and step numbers in turn
    return " ".join([command] + [str(it) if at % 2 else name(it) for at, it in enumerate(arguments)])


def session(number):
    """A session's text, its limit, and the lines of the machine's answers."""
    generator = Generator(number)
    limit = generator.random.choice((DEFAULT_LIMIT, DEFAULT_LIMIT, 40, 120))
    machine = Machine(generator.load, limit)
    lines, answers = generator.image(), ["ready"]
    for _ in range(generator.random.randint(50, 900)):
        command, answer = generator.command(machine)
        lines.append(command)
        answers.append(answer)
    lines.append("dump")
    answers.append(machine.dump())
    return "".join(line + "\n" for line in lines), limit, "\n".join(answers).split("\n")


def difference(program, number):
    """The number of commands of a session, and the first line that differs in the program's and the machine's answers, or None."""
    text, limit, wanted = session(number)
    count = text.count("\n", text.index("\nend\n") + 5)
    words = [program, "debug", "--limit", str(limit)]
    try:
        ran = subprocess.run(words, input=text, capture_output=True, text=True, timeout=SECONDS)
    except subprocess.TimeoutExpired:
        return count, f"the program did not end within {SECONDS} seconds"
    if ran.returncode:
        return count, f"the program ended with status {ran.returncode}"
    got = ran.stdout.split("\n")[:-1]
    for line, (ours, its) in enumerate(zip_longest(wanted, got), 1):
        if ours != its:
            return count, f"line {line}: the machine answers '{ours}', the program '{its}'"
    return count, None


def write(folder, number):
    """Writes a session and its answers as files, if it has the default limit and its answers aren't long."""
    text, limit, wanted = session(number)
    if limit == DEFAULT_LIMIT and sum(map(len, wanted)) < LONG:
        with open(f"{folder}/session-{number}", "w", encoding="utf-8") as file:
            file.write(text)
        with open(f"{folder}/session-{number}.stdout", "w", encoding="utf-8") as file:
            file.write("".join(line + "\n" for line in wanted))


def main():
    if sys.argv[1:2] == ["--write"] and len(sys.argv) == 5:
        for number in range(int(sys.argv[3]), int(sys.argv[3]) + int(sys.argv[4])):
            write(sys.argv[2], number)
        return
    if len(sys.argv) != 4 or not all(it.isdecimal() for it in sys.argv[2:]) or int(sys.argv[3]) == 0:
        sys.exit("usage: sessions.py PROGRAM FIRST COUNT, with COUNT at least 1")
    program, first, count = sys.argv[1], int(sys.argv[2]), int(sys.argv[3])
    commands = 0
    for number in range(first, first + count):
        count_of_session, what = difference(program, number)
        commands += count_of_session
        if what:
            sys.exit(f"session {number}: {what}")
    print(f"{count} sessions with {commands} commands: all answers agree")


if __name__ == "__main__":
    main()
