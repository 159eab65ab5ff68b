#!/usr/bin/env python3
"""Answers sessions in files with the replay machine.

files.py FILE..: prints the machine's answers to each.
files.py --compare FILE..: compares the answers with FILE.stdout. A file is skipped if FILE.stdout refuses its image or, in a session of
`ga144 debug`, a line that is no command. Exactly these files must be refused here too.

The limit is N for a file in a folder limit-N. A session in a folder explore is one of `ga144 explore`, which may begin with source. In a
folder chip, FILE.image has the chip. In a folder strict the session ends at the first refused command.
"""

import os
import re
import sys
from itertools import zip_longest

from expecting import SessionExpectations
from explore import LONGEST, Explorer, cure
from machine import Machine, NODES, name
from node import FETCH_DUE, Node, SIDES, WORD, target_of
from notes import Notes, part_of
from sessions import DEFAULT_LIMIT, EXPLORED_LIMIT
from source import asm

NODE, W, HH = "[0-7](?:0[0-9]|1[0-7])", "[0-9a-fA-F]{6}", "[0-9a-fA-F]{2}"
STEP = "(?:0|[1-9][0-9]{0,9})"
FIELDS = {"ga144 1": rf"[abp] {W}|(?:ram|rom) {HH}(?: {W}){{1,16}}"}
FIELDS["ga144 2"] = FIELDS["ga144 1"] + (
    rf"|(?:i|io) {W}|carry [01]|slot [0-4]|d(?: {W}){{10}}|r(?: {W}){{9}}|wait (?:fetch|read|write) [r-][d-][l-][u-]|stop [1-3]"
)
GREATEST = {"b": 0x1FF, "p": 0x3FF}
COMMAND = rf"back|count|dump|quit|(?:step|node|trace) {NODE}|mem {NODE} {HH}|rewind {NODE} {STEP}|why {NODE} {STEP} {NODE} {STEP}"
NO_COMMANDS = ("no 31 syntax", "no 32 long")
NUMBERS = {name(node): node for node in range(NODES)}


class Unread(Exception):
    """An image that is refused, or a line that is no command."""


def demand(holds, line):
    if not holds:
        raise Unread(line)


def put(node, given, line):
    """Writes the values of a field line into a node. `given` has the fields and cells of its earlier lines."""
    field, *words = line.split(" ")
    values = [int(word, 16) for word in words] if field != "wait" else []
    demand(all(value <= GREATEST.get(field, WORD) for value in values), line)
    places = [field]
    if field in ("ram", "rom"):
        first, *values = values
        places = [(field, first + at) for at in range(len(values))]
        demand(first + len(values) <= 64, line)
        getattr(node, field)[first : first + len(values)] = values
    elif field == "wait":
        sides = words[1].replace("-", "")
        demand(sides and (words[0] != "write" or len(sides) == 1), line)
        node.wait = (words[0], sides)
    else:
        setattr(node, field, values if field in ("d", "r") else values[0])
    demand(not given & {*places}, line)
    given.update(places)


def blocks_of(lines):
    """The nodes of an image; and the fields and cells that it gives to each node with a block."""
    load, blocks, node = [Node(number) for number in range(NODES)], {}, None
    demand(len(lines) > 1 and lines[0] in FIELDS and lines[-1] == "end", "header or end")
    for line in lines[1:-1]:
        if re.fullmatch(f"node {NODE}", line):
            node = NUMBERS[line[5:]]
            demand(node not in blocks, line)
            blocks[node] = set()
        else:
            demand(node is not None and re.fullmatch(FIELDS[lines[0]], line), line)
            put(load[node], blocks[node], line)
    for it in load:
        demand(not (it.wait and it.stop), "wait and stop")
        demand(not it.wait or (it.wait[0] == "fetch") == (it.slot == 4), "wait and slot")
    return load, blocks


def load_of(lines):
    """The nodes of an image."""
    return blocks_of(lines)[0]


def given_of(lines):
    """The parts that an image gives, each with its node and named as `whence` does; or None if it gives all, as format 2 does."""
    if lines[0] != "ga144 1":
        return None
    return {(node, it if isinstance(it, str) else part_of(it)) for node, given in blocks_of(lines)[1].items() for it in given}


def is_command(line):
    """Whether a line is a command of the debugger."""
    return re.fullmatch(COMMAND, line) and all(int(it) < 1 << 32 for it in line.split(" ")[2::2] if not line.startswith("mem "))


def answer(machine, line):
    explored = machine.explored(line) if isinstance(machine, Explorer) else None
    if explored is not None:
        return explored
    if isinstance(machine, Explorer) and not is_command(line):
        return "no 32 long: a command has at most 200 bytes" if len(line) > LONGEST else f"no 31 syntax: {cure(line)}"
    demand(re.fullmatch(COMMAND, line), line)
    command, *words = line.split(" ")
    if command == "mem":
        return machine.mem(NUMBERS[words[0]], int(words[1], 16))
    # nodes and step numbers in turn
    arguments = [int(it) if at % 2 else NUMBERS[it] for at, it in enumerate(words)]
    demand(all(it < 1 << 32 for it in arguments), line)
    return getattr(machine, command)(*arguments)


def settle(machine):
    """Makes the first event of each node that then waits for code."""
    for number, it in enumerate(machine.chip):
        if not it.stop and not it.wait and it.slot == FETCH_DUE and target_of(it.p)[0] == "ports":
            machine.step(number)


def expectations_in(source):
    """The expectations of a source, and the source without their lines."""
    if not re.search(r"(?m)^[ \t]*expect\b", source):
        return [], source
    from expectations import expectations_of

    return expectations_of(source)


def opened(path):
    """The machine of a session at its load, after `settle` in a folder `settled`; and the commands up to `quit`. Raises Unread."""
    folder = os.path.basename(os.path.dirname(path))
    with open(path, encoding="latin-1", newline="") as file:
        lines = file.read().removesuffix("\n").split("\n")
    past = lines.index("end") + 1 if "end" in lines else len(lines)
    kind = Explorer if {"explore", "check"} & {*path.split(os.sep)} else Machine
    limit = int(folder[6:]) if folder.startswith("limit-") else EXPLORED_LIMIT if kind is Explorer else DEFAULT_LIMIT
    load, source, rest, expected = lines[:past], None, None, []
    if kind is Explorer and not load[0].startswith("ga144"):
        source = "".join(f"{line}\n" for line in load)
        expected, rest = expectations_in(source)
        load = asm(rest)[0].splitlines()
    if folder == "chip":
        with open(f"{path}.image", encoding="latin-1", newline="") as file:
            load = file.read().splitlines()
    machine = kind(load_of(load), limit)
    machine.notes = Notes(rest)
    if kind is Explorer:
        machine.expected = SessionExpectations(expected)
    if source is None or folder == "chip":
        machine.notes.set = given_of(load)
    if folder == "settled":
        settle(machine)
    commands = lines[past:]
    return machine, commands[: commands.index("quit")] if "quit" in commands else commands


def answers_of(path):
    """The answers to a session. Raises Unread."""
    machine, commands = opened(path)
    answers = ["ready"]
    for it in commands:
        answers.append(answer(machine, it))
        if "strict" in path.split(os.sep) and answers[-1].startswith("no "):
            break
    # with an empty history, `save` prints nothing
    return "".join(line + "\n" for line in answers if line)


def difference(path):
    """Whether a file is skipped, and the difference of the machine's answers from its output, or None."""
    with open(f"{path}.stdout", encoding="latin-1", newline="") as file:
        wanted = file.read()
    skipped = not wanted.startswith("ready\n") or any(it in wanted.split("\n") for it in NO_COMMANDS)
    try:
        got = answers_of(path)
    except Unread as error:
        return skipped, None if skipped else f"refused: {error}"
    if skipped:
        return skipped, "accepted, but its output refuses it"
    for line, (ours, its) in enumerate(zip_longest(got.split("\n"), wanted.split("\n")), 1):
        if ours != its:
            return skipped, f"line {line}: the machine answers '{ours}', the file has '{its}'"
    return skipped, None


def main():
    if len(sys.argv) == 1 or sys.argv[1:] == ["--compare"]:
        sys.exit("usage: files.py FILE.. or files.py --compare FILE..")
    if sys.argv[1] != "--compare":
        for path in sys.argv[1:]:
            try:
                sys.stdout.write(answers_of(path))
            except Unread as error:
                sys.exit(f"{path}: refused: {error}")
        return
    results = {path: difference(path) for path in sys.argv[2:]}
    wrong = [f"{path}: {what}" for path, (_, what) in results.items() if what]
    if wrong:
        sys.exit("\n".join(wrong))
    count = sum(skipped for skipped, _ in results.values())
    print(f"{len(results) - count} files: all answers agree; {count} skipped, with refused images or lines that are no commands")


if __name__ == "__main__":
    main()
