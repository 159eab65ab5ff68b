#!/usr/bin/env python3
"""Generates sessions of `ga144 explore` and compares the program's answers with those of the reference model.

exploring.py PROGRAM FIRST COUNT: COUNT sessions, each generated from its number, from FIRST on. Every other one begins with source.
exploring.py --write FOLDER FIRST COUNT: writes those of them as files that have no limit of their own, with their answers.
"""

import pickle
import random
import re
import subprocess
import sys
from itertools import zip_longest

from conditions import generated_test, value_of
from expectations import expectations_of
from expecting import SessionExpectations
from explore import FORMS, NODE, OFTEN, ROWS, STORES, VALUE, Explorer, parts_of, number_of
from files import FIELDS, answer, given_of, load_of
from machine import name
from notes import Notes
from sessions import EXPLORED_LIMIT, SECONDS, Generator
from source import asm

# How often each command comes: one of exploring by its row, one of the debugger, or a line that is none.
COMMANDS = OFTEN | {"debug": 76, "wrong": 28}
WORDS = "dup drop over + and or @ ! @b !b a! pop push 2* 2/ - +* @+ !+ a . 1 5 0x20 0x15555 0x3ffff right left down up".split()
CALLS = ["x", "'y a!", "'y b!", "0x22 a! !", "0x84 a! @", "io b!", "for x next", "1 for x next", "for +* unext", "2 for . unext", "if dup then", "0 if dup then", "'y push ex", "-if a else over then", "begin dup -until", "+cy + -cy"]
PARTS = ["\\ a remark", "( and ) ", "  ", "\t", ".."]


def source_of(draw):
    """A source of some neighbours that write to and read from one another."""
    nodes = draw.sample([0, 1, 2, 18, 19, 20], draw.randint(2, 5))
    lines = ["\\ " + "x" * draw.randrange(5)]
    for node in nodes:
        lines.append(f"node {name(node)}" + draw.choice(["", " /b right", " /a left /b down", " /b up \\ registers"]))
        lines += [" ".join(some(draw, 2))] if draw.random() < 0.2 else []
        lines += [": main " + " ".join(some(draw, draw.randint(1, 6))), " ".join(some(draw, draw.randint(1, 6)) + [draw.choice(["main ;", "", "x main ;"])])]
        lines += [": x " + " ".join(some(draw, 2, WORDS)) + " ;", draw.choice(PARTS), f": y {draw.randrange(99)} , 7 ,"]
        lines += ["org 0x80 : rom dup + ;"] if draw.random() < 0.3 else []
    return "".join(f"{line}\n" for line in lines)


def rivals_of(draw):
    """A source of a node that takes words from either of two sides, and of the neighbours there, which write some to it."""
    lines = ["node 001 0x1f5 b! " + "@b " * draw.randint(2, 4)]
    for node, side in (("000", "right"), ("002", "left")):
        words = [f"0x{draw.randrange(1 << 18):x} !b" for _ in range(draw.randint(1, 3))]
        lines.append(" ".join([f"node {node} {side} b!", *["dup drop"] * draw.randrange(6), *words]))
    return "".join(f"{line}\n" for line in lines)


def code_of(draw):
    """An instruction word: a jump or a call in its first slot, or any two opcodes, of which the second may go somewhere."""
    if draw.random() < 0.5:
        return (draw.choice((2, 3)) << 13 ^ 0x15555) & ~0x3FF | draw.choice((0, 1, 2, 0x1D5))
    return ((draw.randrange(32) << 13 | draw.choice((2, 3, 6, draw.randrange(32))) << 8) ^ 0x15555) & ~0xFF | draw.randrange(3)


def coders_of(draw):
    """A source of a node that carries out the instruction words which a neighbour writes to it, and has words to which these go."""
    codes = " ".join(f"0x{code_of(draw):x} !b" for _ in range(draw.randint(2, 5)))
    own = " ".join(some(draw, draw.randint(1, 3), WORDS))
    codes = draw.choice(("", "'z push ex ")) + codes
    return f"node 000 /b right : main {codes} {draw.choice(('main ;', ''))} : z ;\nnode 001 /p right : x {own} ; : y push {draw.choice((';', 'ex', 'x ;'))}\n"


def some(draw, count, words=None):
    return [draw.choice(words or (WORDS + CALLS if draw.random() < 0.7 else ["right b! @b", "left b! !b", "@b", "!b", "dup !b", "0x1a5 b! @b", "0x1b5 b! @b drop @b"])) for _ in range(count)]


def expected_lines(draw, load):
    """Lines that say what is expected of a program with this load, about its first events: some are broken by them. None half of the time."""
    if draw.random() < 0.5:
        return []
    machine = Explorer(load, EXPLORED_LIMIT)
    machine.run(None, None, 150, [])
    touched = sorted({it for event in machine.events for it in event if machine.steps[it] > 1}) or [0]
    lines = []
    for _ in range(draw.randint(1, 5)):
        it = machine.chip[draw.choice(touched)]
        node, held = name(it.number), draw.choice((it.d[0], it.ram[0x22], it.a, draw.randrange(4)))
        lines.append(draw.choice((
            f"{node} t = {it.d[0]}", f"{node} [22] < {held}", f"{node} awaits code", f"{node} reads right left", f"{node} writes right", f"{node} stops 1",
            f"never {node} {generated_test(draw, 'a', it.a)} or stop", f"never {node} t = {held}", f"never change {node} 22 or wait {node}", f"never stuck {node}",
            f"never reach {node} {it.p:06x} or stuck {node}", "every order ends", "one end",
        )))  # fmt: skip
    links = sorted({event for event in machine.events if len(event) == 2})
    for writer, reader in draw.sample(links, min(len(links), 2)):
        words = [int(told.split(" ")[5], 16) for told in machine.sent(writer, reader)][: draw.choice((1, 2, 3, 64))]
        words[-1] ^= draw.choice((0, 0, 1))
        lines.append(f"pass {name(writer)} {name(reader)} = {' '.join(map(str, words))}" + draw.choice(("", " ..", " 7")))
    draw.shuffle(lines)
    return [f"expect {it}" for it in lines if len(it) < 190]


class Session:
    def __init__(self, number):
        self.base = Generator(number)
        draw = self.random = self.base.random
        self.limit = draw.choice([EXPLORED_LIMIT] * 7 + [200])
        self.front = "".join(f"{line}\n" for line in self.base.image())
        self.machine = Explorer(self.base.load, self.limit)
        self.source = None
        if number % 8 == 4:
            self.begin_with_format_1()
        if number % 2:
            self.begin_with_source({7: coders_of, 9: rivals_of}.get(number % 10, source_of)(draw), random.Random(f"expected {number}"))

    def begin_with_format_1(self):
        """Leaves out what an image of format 1 can't give."""
        lines = [it for it in self.front.splitlines()[1:] if re.fullmatch(f"node .*|end|{FIELDS['ga144 1']}", it)]
        self.front = "".join(f"{it}\n" for it in ["ga144 1"] + lines)
        self.machine = Explorer(load_of(["ga144 1"] + lines), self.limit)
        self.machine.notes = Notes()
        self.machine.notes.set = given_of(["ga144 1"] + lines)

    def begin_with_source(self, source, extra):
        image, told, status = asm(source)
        if status == 0 and not told:
            load = load_of(image.splitlines())
            lines = expected_lines(extra, load)
            self.source, self.front = source, "".join(f"{it}\n" for it in [source.removesuffix("\n"), *lines, "end"])
            self.machine = Explorer(load, self.limit)
            self.machine.notes = Notes(source)
            self.machine.expected = SessionExpectations(expectations_of(self.front)[0] if lines else [])
            self.base.nodes = [it.number for it in load if any(it.ram)]

    def node(self):
        """A node; mostly one that made many steps."""
        steps = self.machine.steps
        made = [at for at in self.base.nodes if steps[at] > 1]
        return self.random.choice(made if made and self.random.random() < 0.9 else self.base.nodes)

    def step(self, node):
        return "last" if self.random.random() < 0.1 else self.numbered_step(node)

    def numbered_step(self, node):
        return self.random.randint(0 if self.random.random() < 0.1 else 1, max(self.machine.steps[node] + (self.random.random() < 0.1), 1))

    def word(self):
        held = self.machine.chip[self.node()]
        return self.random.choice(held.d[:2] + held.ram[:4] + [0, self.random.randrange(1 << 18)])

    def address(self):
        draw = self.random
        return draw.choice((draw.randrange(8), draw.randrange(0x20, 0x24), draw.randrange(256))) ^ draw.choice((0, 0, 0, 0x40, 0x80))

    def cell(self, node):
        """An address, half of the time that of a cell of the node that was written, if there is one."""
        written = [at for at, (now, loaded) in enumerate(zip(self.machine.chip[node].ram, self.machine.load[node].ram)) if now != loaded]
        return self.random.choice(written) if written and self.random.random() < 0.5 else self.address()

    def link(self):
        """Two nodes between which words went, one way or the other, or any two."""
        passed = [event for event in self.machine.events if len(event) == 2]
        if passed and self.random.random() < 0.9:
            pair = self.random.choice(passed)
            return pair if self.random.random() < 0.8 else pair[::-1]
        return self.random.choice(self.base.nodes), self.random.choice(self.base.nodes)

    def places(self, node):
        """The names of addresses of a node, with the addresses: its labels, and the lines that begin its instruction words."""
        notes = self.machine.notes
        return notes.labels.get(node, []) + [(f"line {line}", address) for (its, line), address in notes.begins.items() if its == node]

    def ahead(self, order):
        """Conditions that hold after some event that such a run would make."""
        machine, pick = pickle.loads(pickle.dumps(self.machine)), self.random.choice
        machine.run(order and order.split(" ")[1], int(order.split(" ")[-1]) if "random" in order else None, pick((1, 20, 200)), [])
        made = machine.told[len(self.machine.told) :] or ["000 1 fetch"]
        passes = [told for told in made if told.startswith("pass")]
        words = pick(passes or made if self.random.random() < 0.6 else made).split(" ")
        if words[0] == "pass":
            _, writer, _, reader, its, word = words
            number = len(machine.sent(number_of(writer), number_of(reader)))
            compared = f"pass {writer} {reader} {pick(('<=', '>', '!=', '=='))} {pick((word, str(int(word, 16)), 'right'))}"
            return [f"pass {writer} {reader} = {word.upper()}", compared, f"pass {writer} {reader} {number}", f"step {reader} {its}"]
        held = machine.chip[number_of(words[0])]
        ended = ["stop", f"{words[2]} {words[0]}"] if words[2] in ("wait", "stop") else []
        ended += [f"{kind} {words[0]} {label}" for kind in ("p", "reach") for label, address in self.places(held.number) if address == held.p]
        ended += [f"reach {words[0]} {held.p:06x}"]
        written = [told for told in made if " run " in told and told.split(" ")[-1] in STORES]
        if written:
            node = written[-1].split(" ")[0]
            store = machine.chip[number_of(node)]
            cell = pick([at for at in range(64) if store.ram[at] != self.machine.chip[number_of(node)].ram[at]] or [0x22])
            ended += [f"change {node} {cell:02x}", f"change {node} {cell + 0x40:02x} = {store.ram[cell]:06X}"]
        value = pick(("t", "s", "r", "a", "p", "slot", "carry", "d4", "r1", "[22]", "step"))
        ended += [f"{words[0]} {generated_test(self.random, value, value_of(held, int(words[1]), value))}"] * 3
        return [f"step {words[0]} {words[1]}", f"p {words[0]} {held.p:06x}", f"mem {words[0]} 22 = {held.ram[0x22]:06x}"] + ended

    def conditions(self, order):
        """Mostly one condition; or some, of which now and then there are too many."""
        several = self.random.random() < 0.25
        return " or ".join(self.condition(order) for _ in range(self.random.choice((2, 2, 3, 8, 9)) if several else 1))

    def condition(self, order):
        node, pick = self.node(), self.random.choice
        if self.random.random() < (0.15 if self.machine.expected.lines else 0.01):
            return "broken"
        if self.random.random() < 0.7:
            return pick(self.ahead(order))
        writer, reader = self.link()
        passing = f"pass {name(writer)} {name(reader)}"
        return pick((
            f"{passing} = {self.word():06X}", f"{passing} {len(self.machine.sent(writer, reader)) + pick((0, 1, 2))}", "stop", f"stop {name(node)}",
            f"wait {name(node)}", f"mem {name(node)} {self.address():02x} = {self.word():06X}",
            f"{pick(('p', 'reach'))} {name(node)} {pick([f'{self.random.randrange(12):06x}', *(place for place, _ in self.places(node)), f'line {self.random.randrange(20)}'])}",
            f"change {name(node)} {self.address():02x}" + pick(("", f" = {self.word():06X}", f" = {self.word()}")), f"{name(node)} {generated_test(self.random)}",
            f"{passing} {generated_test(self.random, 't')[2:]}",
        ))  # fmt: skip

    def run(self):
        order = self.random.choice(("", "", " greedy", f" random {self.random.randrange(1 << 32)}"))
        return f"run{order} {self.random.choice((1, 5, 30, 200, 400))}" + (f" until {self.conditions(order)}" if self.random.random() < 0.6 else "")

    def back(self):
        """`back until` conditions that held after some event of the history, or any."""
        machine, draw = self.machine, self.random
        if draw.random() < 0.7:
            self.machine = pickle.loads(pickle.dumps(machine))
            self.machine.events = machine.events[: draw.choice((draw.randrange(len(machine.events)), -9))]
            self.machine.replay()
        until = self.conditions("")
        self.machine = machine
        named = re.search(NODE, until)
        return f"back {draw.choice(('', f'{name(self.node())} ', f'{named[0]} ' if named else ''))}until {until}"

    def command(self):
        chosen = self.random.choices(list(COMMANDS), list(COMMANDS.values()))[0]
        if chosen in ("run", "back"):
            return self.run() if chosen == "run" else self.back()
        return self.line_of(FORMS[chosen]) if chosen in FORMS else chosen

    def line_of(self, form):
        """A line of a form. What may be left out of it is, one time of three."""
        command, *parts = parts_of(form)
        draw, line = self.random, [command]
        first, second = self.link() if "MMM" in form else (self.node(), None)
        for part in parts:
            if part.startswith("[") and draw.randrange(3) == 0:
                continue
            *before, word = part.strip("[]").split(" ")
            line += before
            line.append({
                "NNN": lambda: name(first), "MMM": lambda: name(second), "K": lambda: f"{self.step(first)}", "HH": lambda: f"{self.cell(first):02x}",
                "N": lambda: f"{draw.randrange(draw.choice((4, 100)))}", "L": lambda: f"{draw.randrange(1, draw.choice((4, 300)))}", "COMMAND": lambda: draw.choice([*ROWS, "cond"]),
                VALUE: lambda: draw.choice((*"tsrpabi", f"d{draw.randrange(2, 10)}", f"r{draw.randrange(1, 9)}", "io", "carry", "slot", f"[{self.address():02x}]")),
            }[word]())  # fmt: skip
        return " ".join(line)

    def wrong(self):
        """A line that is a command but for one thing, mostly in its first word."""
        draw, node = self.random, name(self.node())
        line = draw.choice((self.run(), f"whence {node} 1", f"because {node} 1", f"at {node} 1", f"words {node} 001", f"writes {node} 0a", "who", "chip", "count", f"trace {node}", f"why {node} 1 {node} 2"))
        at = draw.randrange(len(line.split(" ")[0] if draw.random() < 0.7 else line))
        letter = draw.choice("abcdehimnoprstuw 0")
        return draw.choice((
            line[:at] + line[at + 1 :], line[:at] + letter + line[at:], line[:at] + letter + line[at + 1 :], line[:at] + line[at : at + 2][::-1] + line[at + 2 :],
            line[:at] + line[at:].capitalize(), line[:at], f"{line} ", f" {line}", f"{line}\t", f"{line}\r", f"\xef\xbb\xbf{line}",
        ))  # fmt: skip

    def turn(self):
        """A command and its answer."""
        command = self.command() if self.machine.events else self.run()
        if command == "wrong":
            line = self.wrong()
            return line, answer(self.machine, line)
        if command == "debug":
            return self.base.command(self.machine)
        return command, answer(self.machine, command)


def session(number):
    """A session's text, its limit, and the lines that are answered."""
    made = Session(number)
    lines, answers = [], ["ready"]
    for _ in range(made.random.randint(10, 60)):
        command, answer = made.turn()
        lines.append(command)
        answers += [answer] if answer else []
    return made.front + "".join(f"{line}\n" for line in lines), made.limit, "\n".join(answers).split("\n")


def difference(program, number):
    """How many lines a session has, and the first that the program answers otherwise, or None."""
    text, limit, wanted = session(number)
    count = text.count("\n", text.index("\nend\n") + 5)
    try:
        ran = subprocess.run([program, "explore", "--limit", str(limit)], input=text, capture_output=True, encoding="latin-1", timeout=SECONDS)
    except subprocess.TimeoutExpired:
        return count, f"the program had not ended after {SECONDS} seconds"
    if ran.returncode or ran.stderr:
        return count, f"the program ended with status {ran.returncode} and told '{ran.stderr.strip()}'"
    for line, (ours, its) in enumerate(zip_longest(wanted, ran.stdout.split("\n")[:-1]), 1):
        if ours != its:
            return count, f"line {line}: the machine answers '{ours}', the program '{its}'"
    return count, None


def write(folder, number):
    text, limit, wanted = session(number)
    if limit == EXPLORED_LIMIT:
        with open(f"{folder}/exploring-{number}", "w", encoding="latin-1") as file:
            file.write(text)
        with open(f"{folder}/exploring-{number}.stdout", "w", encoding="latin-1") as file:
            file.write("".join(line + "\n" for line in wanted))


def main():
    if sys.argv[1:2] == ["--write"] and len(sys.argv) == 5:
        for number in range(int(sys.argv[3]), int(sys.argv[3]) + int(sys.argv[4])):
            write(sys.argv[2], number)
        return
    if len(sys.argv) != 4 or not all(it.isdecimal() for it in sys.argv[2:]) or int(sys.argv[3]) == 0:
        sys.exit("usage: exploring.py PROGRAM FIRST COUNT, with COUNT at least 1")
    program, first, count = sys.argv[1], int(sys.argv[2]), int(sys.argv[3])
    commands = 0
    for number in range(first, first + count):
        made, what = difference(program, number)
        commands += made
        if what:
            sys.exit(f"session {number}: {what}")
    print(f"{count} sessions of exploring with {commands} commands: all answers agree")


if __name__ == "__main__":
    main()
