#!/usr/bin/env python3
"""Lines of sessions that are changed by a byte, or cut, each answered by the program as by the reference model.

changed.py PROGRAM: after an empty chip, of `debug` and of `explore`: each of COMMANDS with each byte of STRANGE more in each place, and
cut at each; each byte in each place of the two lines of PAIRS; and the longest line, and one a byte longer.
"""

import subprocess
import sys
from itertools import zip_longest

from explore import FORMS, KINDS, LONGEST, Explorer, parts_of
from files import answer, is_command, load_of
from machine import Machine
from sessions import DEFAULT_LIMIT, SECONDS

IMAGE = ["ga144 1", "end"]
STRANGE = "\r\0\xff "
COMMANDS = {
    "debug": ["step 000", "back", "rewind 000 1", "node 000", "mem 000 41", "trace 000", "why 000 1 001 5", "count", "dump", "quit"],
    "explore": [
        "run", "run 5", "run greedy 5", "run random 5 until stop", "run until pass 000 001 5", "run until pass 000 001 = 00002a",
        "run until step 000 5", "run until stop 000", "run until wait 000", "run until mem 000 00 = 00002a", "run until p 000 000001",
        "run until reach 000 000001", "run until change 000 00", "run until change 000 00 = 00002a", "run until stop or wait 000",
        "run 5 until stop or step 000 5 or change 000 00", "back until stop", "back 000 until wait 000 or stop", "step 000", "why 000 1 001 5",
    ],
}  # fmt: skip
# an example of each word of a form
WORDS = {kind: example for kind, (_, example) in KINDS.items()}
OWN = [form for name, form in FORMS.items() if hasattr(Explorer, f"answer_{name}")]
COMMANDS["explore"] += [" ".join(WORDS.get(word, word) for word in parts_of(form) if not word.startswith("[")) for form in OWN]
COMMANDS["explore"] += [" ".join(WORDS.get(word, word) for part in parts_of(form) for word in part.strip("[]").split(" ")) for form in OWN if "[" in form]
PAIRS = {"debug": "step 000\nback\n", "explore": "run 1\nback\n"}


def chunks(mode):
    """Texts of a line or more."""
    for line in COMMANDS[mode]:
        for place in range(len(line) + 1):
            yield from (line[:place] + byte + line[place:] for byte in STRANGE)
            # (nothing is read after `quit`)
            yield from [line[:place]] * (line[:place] != "quit")
    pair = PAIRS[mode]
    for place in range(len(pair)):
        yield from (pair[:place] + chr(byte) + pair[place + 1 :] for byte in range(256))
    yield from ("run until ".ljust(length, "x") for length in (LONGEST, LONGEST + 1))


def said(machine, line):
    if isinstance(machine, Explorer) or is_command(line):
        return answer(machine, line)
    return "no 32 long" if len(line) > LONGEST else "no 31 syntax"


def session(mode):
    """The lines, and the answer to each. Between the texts all events are undone."""
    machine = (Explorer if mode == "explore" else Machine)(load_of(IMAGE), DEFAULT_LIMIT)
    for chunk in chunks(mode):
        for line in chunk.removesuffix("\n").split("\n"):
            yield line, said(machine, line)
        while machine.events:
            yield "back", said(machine, "back")


def difference(program, mode):
    """How many lines there are, and the first that the program answers otherwise, or None."""
    turns = [*session(mode)]
    text = "".join(f"{line}\n" for line in [*IMAGE, *(line for line, _ in turns)])
    ran = subprocess.run([program, mode, "--limit", str(DEFAULT_LIMIT)], input=text.encode("latin-1"), capture_output=True, timeout=SECONDS)
    wanted = "\n".join(["ready", *(told for _, told in turns if told)]).split("\n")
    got = ran.stdout.decode("latin-1").split("\n")[:-1]
    if ran.returncode or ran.stderr:
        return len(turns), f"the program ended with status {ran.returncode}"
    for line, (ours, its) in enumerate(zip_longest(wanted, got), 1):
        if ours != its:
            return len(turns), f"line {line}: the machine answers '{ours}', the program '{its}'"
    return len(turns), None


def main():
    if len(sys.argv) != 2:
        sys.exit("usage: changed.py PROGRAM")
    count = 0
    for mode in COMMANDS:
        made, what = difference(sys.argv[1], mode)
        count += made
        if what:
            sys.exit(f"changed lines of {mode}: {what}")
    print(f"{count} changed lines: all answers agree")


if __name__ == "__main__":
    main()
