#!/usr/bin/env python3
"""Plants faults into the reference model and checks that generated sessions, or sources, detect each mutant.

wrong.py PROGRAM COUNT: one of COUNT sessions must detect each mutant, by an answer that differs or by a replay that fails; a mutant of
source one of COUNT sources and as many that are cut or changed, one of pictures one of COUNT pictures, one of ends or expectations one of
COUNT programs. A mutant has a file, a text that occurs there once, and its replacement.

The file `told` in this folder has for each mutant, by a digest, the number of the session that detected it when
`wrong.py --write PROGRAM COUNT` wrote the file. That session is tried first; if it doesn't detect the mutant, or the mutant has no line
there, all are.
"""

import hashlib
import os
import re
import shutil
import subprocess
import sys
import tempfile
from concurrent.futures import ThreadPoolExecutor

NODE, MACHINE, WORDS, SOURCE, LISTING = "node.py", "machine.py", "words.py", "source.py", "listing.py"
EXPLORE, WHENCE, NOTES, PICTURES, ENDS = "explore.py", "whence.py", "notes.py", "pictures.py", "ends.py"
EXPECTATIONS = "expectations.py"
# Which generator detects a mutant of a file; the others `sessions`.
GENERATORS = {WORDS: "sources", SOURCE: "sources", LISTING: "sources", EXPLORE: "exploring", WHENCE: "exploring", NOTES: "exploring"}
GENERATORS |= {PICTURES: "pictures", ENDS: "ends", EXPECTATIONS: "expectations"}
WRONG = (
    # the grid
    (NODE, '(column % 2 == 0) == (side == "r")', '(column % 2 == 0) == (side == "l")'),
    (NODE, '(row % 2 == 0) == (side == "d")', '(row % 2 == 0) == (side == "u")'),
    (NODE, "0 <= row < 8 and", "0 <= row < 7 and"),
    (NODE, "0 <= column < 18 else", "0 <= column < 17 else"),
    (NODE, "self.p = port([side for side in SIDES if neighbour(number, side) is not None])", "self.p = port(SIDES)"),
    (NODE, "self.a, self.b, self.i, self.io, self.carry = 0, 0x15D, 0, EMPTY, 0", "self.a, self.b, self.i, self.io, self.carry = 0, 0x15D, 0, 0, 0"),
    (NODE, "self.a, self.b, self.i, self.io, self.carry = 0, 0x15D, 0, EMPTY, 0", "self.a, self.b, self.i, self.io, self.carry = 0, 0x1D5, 0, EMPTY, 0"),
    (NODE, "self.d, self.r = [EMPTY] * 10, [EMPTY] * 9", "self.d, self.r = [0] * 10, [EMPTY] * 9"),
    (NODE, "self.d, self.r = [EMPTY] * 10, [EMPTY] * 9", "self.d, self.r = [EMPTY] * 10, [0] * 9"),
    # addresses
    (NODE, "address &= 0x1FF", "address &= 0x3FF"),
    (NODE, '"ram" if address < 0x80 else "rom"', '"ram" if address < 0x40 else "rom"'),
    (NODE, "address & 0x3F)", "address & 0x1F)"),
    (NODE, "if named == 8:", "if named == 8 or named == 0:"),
    (NODE, "if named == 8:", "if named == 4:"),
    (NODE, "if named and not named & 0xF:", "if named and not named & 7:"),
    (NODE, "if named and not named & 0xF:", "if named & 0xF0:"),
    (NODE, "if named & (0x80 >> SIDES.index(side))", "if named & (0x10 << SIDES.index(side))"),
    (NODE, "return address if address & 0x100 else address & ~0x7F | (address + 1) & 0x7F", "return address & ~0x7F | (address + 1) & 0x7F"),
    (NODE, "return address if address & 0x100 else address & ~0x7F | (address + 1) & 0x7F", "return address if address & 0x100 else address & ~0xFF | (address + 1) & 0xFF"),
    (NODE, "return address if address & 0x100 else address & ~0x7F | (address + 1) & 0x7F", "return address if address & 0x100 else address & ~0x3F | (address + 1) & 0x3F"),
    (NODE, "return address if address & 0x100 else address & ~0x7F | (address + 1) & 0x7F", "return address if address & 0x100 or address & 0x7F == 0x7F else address + 1"),
    (NODE, "return address if address & 0x100 else address & ~0x7F | (address + 1) & 0x7F", "return address if address & 0x100 else address + 1"),
    # the stacks
    (NODE, "stack.append(stack[len(stack) - 8])", "stack.append(0)"),
    (NODE, "stack.append(stack[len(stack) - 8])", "stack.append(stack[-1])"),
    (NODE, "stack.append(stack[len(stack) - 8])", "stack.append(stack[len(stack) - 7])"),
    (NODE, "    stack.insert(0, word)\n    stack.pop()", "    stack.insert(0, word)\n    stack.pop(-2)"),
    # accesses
    (NODE, '        if what == "io":\n            return seen()', '        if what == "io":\n            return self.io'),
    (NODE, "            self.wait = (kind, where)", '            self.wait = ("read", where)'),
    (NODE, "            self.wait = (kind, where)", "            self.wait = (kind, where[0])"),
    (NODE, '            self.stop = 2\n            raise Halt("stop 2")', '            self.stop = 1\n            raise Halt("stop 1")'),
    (NODE, 'if what == "ports" and len(where) == 1:', 'if what == "ports":'),
    (NODE, 'self.stop = 1 if what == "ports" else 2', "self.stop = 1"),
    (NODE, 'self.stop = 1 if what == "ports" else 2', "self.stop = 2"),
    (NODE, 'self.stop = 1 if what == "ports" else 2', "self.stop = 3"),
    (NODE, "        word = pop(self.d)\n        if what", "        word = self.d[0]\n        if what"),
    (NODE, '        elif what == "io":\n            self.io = word', '        elif what == "io":\n            self.io = word & 0x3FFFE'),
    (NODE, '        elif what == "io":\n            self.io = word', '        elif what in ("io", "rom"):\n            self.io = word'),
    (NODE, '        if what == "ram":\n            self.ram[where] = word', '        if what in ("ram", "rom"):\n            self.ram[where] = word'),
    # a fetch, and which opcode is due
    (NODE, 'self.p, self.slot = advanced(self.p), 0\n                return "fetch"', 'self.p, self.slot = self.p, 0\n                return "fetch"'),
    (NODE, "bits = self.i ^ EMPTY", "bits = self.i"),
    (NODE, "(bits & 7) << 2", "(bits & 7) << 2 ^ 4"),
    (NODE, "bits >> (13 - 5 * self.slot) & 0x1F", "bits >> (12 - 5 * self.slot) & 0x1F"),
    (NODE, "self.slot = min(self.slot + 1, FETCH_DUE)", "self.slot = (self.slot + 1) % FETCH_DUE"),
    (NODE, "field = (0x3FF, 0xFF, 7)[self.slot]", "field = (0x1FF, 0xFF, 7)[self.slot]"),
    (NODE, "field = (0x3FF, 0xFF, 7)[self.slot]", "field = (0x3FF, 0x7F, 7)[self.slot]"),
    (NODE, "field = (0x3FF, 0xFF, 7)[self.slot]", "field = (0x3FF, 0xFF, 3)[self.slot]"),
    (NODE, "field = (0x3FF, 0xFF, 7)[self.slot]", "field = (0x3FF, 0x1FF, 7)[self.slot]"),
    (NODE, "self.p = self.p & ~field | self.i & field", "self.p = self.i & field"),
    (NODE, "self.p = self.p & ~field | self.i & field", "self.p = self.p & ~field | (self.i ^ EMPTY) & field"),
    # control
    (NODE, "self.r[0] -= 1\n                self.slot = 0", "self.slot = 0"),
    (NODE, "self.r[0] -= 1\n                self.slot = 0", "self.r[0] -= 1\n                self.slot = FETCH_DUE"),
    (NODE, "                self.slot = 0\n            else:\n                pop(self.r)", "                self.slot = 0\n            else:\n                pass"),
    (NODE, "                pop(self.r)\n                self.goes_on()", "                pop(self.r)\n                self.slot = FETCH_DUE"),
    (NODE, "self.p = pop(self.r) & 0x3FF", "self.p = self.r[0] & 0x3FF"),
    (NODE, "self.p = pop(self.r) & 0x3FF", "self.p = pop(self.r) & 0x1FF"),
    (NODE, "self.p = pop(self.r) & 0x3FF", "self.p = advanced(pop(self.r) & 0x3FF)"),
    (NODE, "self.p, self.r[0] = self.r[0] & 0x3FF, self.p", "self.p, self.r[0] = self.r[0] & 0x1FF, self.p"),
    (NODE, "self.p, self.r[0] = self.r[0] & 0x3FF, self.p", "self.p, self.r[0] = self.r[0] & 0x3FF, self.p & 0x1FF"),
    (NODE, "self.p, self.r[0] = self.r[0] & 0x3FF, self.p", "self.p = self.r[0] & 0x3FF"),
    (NODE, "            push(self.r, self.p)\n", "            push(self.r, self.p & 0x1FF)\n"),
    (NODE, "            push(self.r, self.p)\n", "            push(self.r, advanced(self.p))\n"),
    (NODE, "            push(self.r, self.p)\n", "            self.r[0] = self.p\n"),
    (NODE, "                self.r[0] -= 1\n                self.jump()", "                self.jump()"),
    (NODE, "                self.r[0] -= 1\n                self.jump()\n            else:\n                pop(self.r)", "                self.r[0] -= 1\n                self.jump()\n            else:\n                pass"),
    (NODE, "            if self.r[0]:\n                self.r[0] -= 1\n                self.jump()", "            if self.r[0] > 1:\n                self.r[0] -= 1\n                self.jump()"),
    (NODE, "            if self.r[0]:\n                self.r[0] -= 1\n                self.slot = 0", "            if self.r[0] > 1:\n                self.r[0] -= 1\n                self.slot = 0"),
    (NODE, "code == 6 and not self.d[0] or", "code == 6 and self.d[0] or"),
    (NODE, "code == 6 and not self.d[0] or", "code == 6 and not self.d[0] & 0x1FFFF or"),
    (NODE, "code == 6 and not self.d[0] or", ""),
    (NODE, "code == 7 and not self.d[0] >> 17:", "code == 7 and self.d[0] >> 17:"),
    (NODE, "code == 7 and not self.d[0] >> 17:", "code == 7 and not self.d[0] >> 16:"),
    (NODE, "            self.jump()\n        self.slot = FETCH_DUE", "            pop(self.d)\n            self.jump()\n        self.slot = FETCH_DUE"),
    # memory
    (NODE, 'register = ("p", "a", "b", "a")[code % 4]', 'register = ("p", "b", "a", "a")[code % 4]'),
    (NODE, 'register = ("p", "a", "b", "a")[code % 4]', 'register = ("a", "a", "b", "a")[code % 4]'),
    (NODE, 'register = ("p", "a", "b", "a")[code % 4]', 'register = ("p", "a", "b", "b")[code % 4]'),
    (NODE, "        if code % 4 < 2:\n", "        if code % 4 < 1:\n"),
    (NODE, "        if code % 4 < 2:\n", "        if code % 4 < 2 and code < 12:\n"),
    (NODE, "        if code % 4 < 2:\n", "        if code % 4 != 2:\n"),
    (NODE, "setattr(self, register, advanced(address))", "setattr(self, register, advanced(address) & 0x1FF)"),
    # arithmetic and logic
    (NODE, "total = signed(d[0]) + (signed(d[1]) if self.a & 1 else 0)", "total = signed(d[0]) + (signed(d[1]) if not self.a & 1 else 0)"),
    (NODE, "total = signed(d[0]) + (signed(d[1]) if self.a & 1 else 0)", "total = d[0] + (d[1] if self.a & 1 else 0)"),
    (NODE, "self.a >> 1 | total % 2 << 17", "self.a >> 1"),
    (NODE, "self.a >> 1 | total % 2 << 17", "self.a >> 1 | total % 2 << 16"),
    (NODE, "d[0], self.a = total // 2 & WORD", "d[0], self.a = total & WORD"),
    (NODE, "d[0] = 2 * d[0] & WORD", "d[0] = 2 * d[0] & WORD | d[0] >> 17"),
    (NODE, "d[0] = d[0] >> 1 | d[0] & 0x20000", "d[0] = d[0] >> 1"),
    (NODE, "d[0] = WORD - d[0]", "d[0] = -d[0] & WORD"),
    (NODE, "elif code in (0x14, 0x15, 0x16):  # +, and, or\n            top = pop(d)", "elif code in (0x14, 0x15, 0x16):  # +, and, or\n            top = d[0]"),
    (NODE, "top & d[0] if code == 0x15", "top | d[0] if code == 0x15"),
    (NODE, "else top ^ d[0]", "else top | d[0]"),
    (NODE, "        elif code == 0x17:  # drop\n            pop(d)", "        elif code == 0x17:  # drop\n            pass"),
    (NODE, "push(d, (d[0], None, d[1], self.a)[code - 0x18])", "push(d, (d[1], None, d[1], self.a)[code - 0x18])"),
    (NODE, "push(d, (d[0], None, d[1], self.a)[code - 0x18])", "push(d, (d[0], None, d[2], self.a)[code - 0x18])"),
    (NODE, "push(d, (d[0], None, d[1], self.a)[code - 0x18])", "push(d, (d[0], None, d[1], self.a & 0x1FF)[code - 0x18])"),
    (NODE, "            push(d, pop(r))", "            push(d, r[0])"),
    (NODE, "            push(r, pop(d))", "            push(r, d[0])"),
    (NODE, "self.b = pop(d) & 0x1FF", "self.b = pop(d) & 0x3FF"),
    (NODE, "self.b = pop(d) & 0x1FF", "self.b = d[0] & 0x1FF"),
    (NODE, "            self.a = pop(d)\n", "            self.a = pop(d) & 0x1FF\n"),
    (NODE, "if not self.p & 0x200:", "if not self.p & 0x100:"),
    (NODE, "if not self.p & 0x200:", "if self.p & 0x200:"),
    (NODE, "total = top + second + self.carry", "total = top + second"),
    (NODE, "        self.carry = total >> 18\n", ""),
    (NODE, "            return top + second & WORD\n", "            self.carry = top + second >> 18\n            return top + second & WORD\n"),
    # the two halves of a transfer
    (NODE, "        self.goes_on()\n        return pop(self.d)", "        return pop(self.d)"),
    (NODE, "        self.goes_on()\n        return pop(self.d)", "        self.goes_on()\n        return self.d[0]"),
    (NODE, "self.i, self.slot = word, 0", "self.i, self.slot, self.p = word, 0, advanced(self.p)"),
    (NODE, "self.i, self.slot = word, 0", "self.i, self.slot = word, 1"),
    (NODE, "            push(self.d, word)\n            self.goes_on()", "            self.d[0] = word\n            self.goes_on()"),
    (NODE, "            push(self.d, word)\n            self.goes_on()", "            push(self.d, word)"),
    # what `io` shows
    (MACHINE, "word &= ~(1 << 16 - 2 * place)", "word &= ~(1 << 15 - 2 * place)"),
    (MACHINE, "word |= 1 << 15 - 2 * place", "word |= 1 << 16 - 2 * place"),
    (MACHINE, "            if self.chip[beside].waits(READS, side):\n                word", '            if self.chip[beside].waits(("read",), side):\n                word'),
    (MACHINE, "            if beside is None:\n                continue", "            if beside is None:\n                word &= ~(1 << 16 - 2 * place)\n                continue"),
    (MACHINE, "        word = 0x15555\n", "        word = 0x05555\n"),
    (MACHINE, "        word = 0x15555\n", "        word = self.chip[node].io\n"),
    (MACHINE, "            if self.chip[beside].waits((\"write\",), side):\n                word", "            if self.chip[beside].wait and self.chip[beside].wait[0] == \"write\":\n                word"),
    # the next event
    (MACHINE, "        for side in wait[1]:\n", "        for side in reversed(wait[1]):\n"),
    (MACHINE, "        for side in wait[1]:\n", '        for side in sorted(wait[1], key="rldu".index):\n'),
    (MACHINE, "        for side in wait[1]:\n", '        for side in sorted(wait[1], key="drlu".index):\n'),
    (MACHINE, "        for side in wait[1]:\n", '        for side in sorted(wait[1], key="rdul".index):\n'),
    (MACHINE, 'if wait[0] == "write" and self.chip[other].waits(READS, side):', 'if wait[0] == "write" and self.chip[other].waits(("read",), side):'),
    (MACHINE, 'if wait[0] in READS and self.chip[other].waits(("write",), side):', 'if wait[0] == "read" and self.chip[other].waits(("write",), side):'),
    (MACHINE, "        if wait is None:\n            return (node,)", "        if wait is None or wait[1] == SIDES:\n            return (node,) if wait is None else None"),
    # dependence
    (MACHINE, "        if set(after) & set(before):\n            return True\n", "        if after[0] in before:\n            return True\n"),
    (MACHINE, "        if set(after) & set(before):\n            return True\n", "        if after[-1] in before:\n            return True\n"),
    (MACHINE, "        if set(after) & set(before):\n            return True\n", "        if before[0] in after:\n            return True\n"),
    (MACHINE, "        if set(after) & set(before):\n            return True\n", "        if before[-1] in after:\n            return True\n"),
    (MACHINE, "return self.looked[later] and any(neighbour(after[0], side) in before for side in SIDES)", "return False"),
    (MACHINE, "return self.looked[later] and any(neighbour(after[0], side) in before for side in SIDES)", "return self.looked[later] and any(neighbour(after[0], side) in before[:1] for side in SIDES)"),
    (MACHINE, "return self.looked[later] and any(neighbour(after[0], side) in before for side in SIDES)", 'return self.looked[later] and any(neighbour(after[0], side) in before for side in "rdl")'),
    (MACHINE, "return self.looked[later] and any(neighbour(after[0], side) in before for side in SIDES)", "return (self.looked[later] or self.looked[earlier]) and any(neighbour(after[0], side) in before for side in SIDES)"),
    (MACHINE, "for at in range(place, later))", "for at in (place, later - 1))"),
    (MACHINE, "for at in range(place, later))", "for at in range(max(place, later - 20), later))"),
    # the commands
    (MACHINE, 'return "no 2 stopped" if self.chip[node].stop else "no 1 waiting"', 'return "no 1 waiting"'),
    (MACHINE, 'return "no 2 stopped" if self.chip[node].stop else "no 1 waiting"', 'return "no 2 stopped"'),
    (MACHINE, "        if event is None:\n            return", '        if len(self.events) == self.limit:\n            return "no 3 full"\n        if event is None:\n            return'),
    (MACHINE, "if len(self.events) == self.limit:", "if len(self.events) > self.limit:"),
    (MACHINE, "if len(self.events) == self.limit:", "if self.made >= self.limit:"),
    (MACHINE, "        self.made += 1\n", "        self.made = len(self.events)\n"),
    (MACHINE, "        if not self.events:\n", "        if len(self.events) < 2:\n"),
    (MACHINE, "        self.events.pop()\n", "        self.events.pop()\n        self.made -= 1\n"),
    (MACHINE, "        self.events.pop()\n", "        self.events.pop(0)\n"),
    (MACHINE, "        goes = self.dependents(place)\n", "        goes = [at >= place for at in range(len(self.events))]\n"),
    (MACHINE, "        goes = self.dependents(place)\n", "        goes = [at >= place and node in event for at, event in enumerate(self.events)]\n"),
    (MACHINE, "zip(self.events, goes) if not gone]", "zip(self.events, goes) if not gone][: len(self.events)]\n        self.made -= sum(goes)"),
    (MACHINE, 'return f"removed {sum(goes)} kept {len(self.events)}"', 'return f"removed {sum(goes[place:place + 8])} kept {len(self.events)}"'),
    (MACHINE, "return places[step - 1] if 1 <= step <= len(places) else None", "return places[step - 1] if 1 <= step < len(places) else None"),
    (MACHINE, "return places[step - 1] if 1 <= step <= len(places) else None", "return places[step - 1] if step <= len(places) and places else None"),
    (MACHINE, "        if first is None or last is None:\n            return", '        if last is not None and first is None:\n            return "independent"\n        if first is None or last is None:\n            return'),
    (MACHINE, "if last < first or not marked[last]:", "if last <= first or not marked[last]:"),
    (MACHINE, "if last < first or not marked[last]:", "if last < first:"),
    (MACHINE, "oldest = next(at for at in range(first, chain[0])", "oldest = next(at for at in reversed(range(first, chain[0]))"),
    (MACHINE, "for text, event in zip(self.told, self.events) if node in event]", "for text, event in zip(self.told, self.events) if node == event[0]]"),
    (MACHINE, "for text, event in zip(self.told, self.events) if node in event]", "for text, event in zip(self.told, self.events) if node == event[-1]]"),
    (MACHINE, "memory = self.chip[node].ram if address < 0x80 else self.chip[node].rom", "memory = self.chip[node].ram if address < 0x40 else self.chip[node].rom"),
    (MACHINE, "{memory[address & 0x3F]:06x}", "{memory[address & 0x3F & ~1]:06x}"),
    (MACHINE, 'f"kept {len(self.events)} made {self.made} limit {self.limit}"', 'f"kept {len(self.events)} made {self.made} limit {max(self.limit, self.made)}"'),
    (MACHINE, '("a", "b", "p", "i", "io") if it in differs]', '("a", "b", "p", "io", "i") if it in differs]'),
    (MACHINE, '("carry", "slot") if it in differs]', '("slot", "carry") if it in differs]'),
    (MACHINE, "if any(cells[at : at + 8])]", "if any(cells)]"),
    (MACHINE, "if len(block) > 1 for line", "for line"),
    # words of source
    (WORDS, "return 0x155 ^ sum(", "return 0x155 | sum("),
    (WORDS, "return (-size if found[1] else size) % 0x40000", "return size"),
    (WORDS, "size <= 262143, line", "size <= 131071, line"),
    (WORDS, '"/b": 0x200}', '"/b": 0x100}'),
    (WORDS, '"jump" if self.comes(";") else "call"', '"jump" if self.words and self.words[0][1] == ";" else "call"'),
    (WORDS, '"jump" if self.comes(";") else "call"', '"call"'),
    (WORDS, "for line, label in self.named if label", "for line, label in self.named[:1] if label"),
    (WORDS, "address < 0x40 or 0x80 <= address < 0xC0, line", "address < 0xC0, line"),
    (WORDS, 'self.ask(line, "org", address + self.bit)', 'self.ask(line, "org", address)'),
    (WORDS, 'self.bit = 0x200 if word == "+cy" else 0', "self.bit = 0x200"),
    (WORDS, '"until": "if", "-until": "-if"', '"until": "-if", "-until": "if"'),
    (WORDS, 'word.replace("while", "if")', '"if"'),
    (WORDS, 'self.ask(line, "op", CODE["push"])', "pass"),
    (WORDS, 'label = self.close(line, "ahead")\n            self.ahead(line, "jump")\n            self.mark(line, label)', 'label = self.close(line, "ahead")\n            self.mark(line, label)\n            self.ahead(line, "jump")'),
    (WORDS, 'self.jump(line, "next", self.close(line, "loop"))\n            self.open.append(innermost)', 'self.jump(line, "next", innermost[1])\n            self.open.append(innermost)'),
    (WORDS, "for _, _, line in self.open]", "for _, _, line in self.open[:1]]"),
    (WORDS, "source.removeprefix(MARK)", "source"),
    (WORDS, '[it.removesuffix("\\r") for it in', "[it for it in"),
    (WORDS, 'it if " " <= it <= "~" else', 'it if " " <= it else'),
    (WORDS, "if word in OTHERS:", 'if word == "swap":'),
    (WORDS, "len(it) > 3 and is_near(word, it)", "is_near(word, it)"),
    (WORDS, "return len(apart) < 2 or exchanged", "return len(apart) < 2"),
    (WORDS, 'return f"0x{word[1:]}"', "return word[1:]"),
    # the packing rule
    (SOURCE, "FIELDS = {0: 10, 1: 8, 2: 3}", "FIELDS = {0: 10, 1: 8, 2: 4}"),
    (SOURCE, "FIELDS = {0: 10, 1: 8, 2: 3}", "FIELDS = {0: 10, 1: 8}"),
    (SOURCE, "FIELDS = {0: 10, 1: 8, 2: 3}", "FIELDS = {0: 10, 1: 10, 2: 3}"),
    (SOURCE, "        for _ in self.literals:\n            p = advanced(p)\n", ""),
    (SOURCE, "return slot < 3 or what[0] % 4 == 0", "return slot < 3"),
    (SOURCE, "return slot < 3 or what[0] % 4 == 0", "return slot < 3 or what[0] % 2 == 0"),
    (SOURCE, "slot < 2 if kind", "slot < 3 if kind"),
    (SOURCE, "slot < 2 if kind", "slot < 1 if kind"),
    (SOURCE, "        if self.is_moved:\n            return False\n", ""),
    (SOURCE, 'what[0] in (CODE["@p"], CODE["!p"])', 'what[0] == CODE["@p"]'),
    (SOURCE, 'what[0] in (CODE["@p"], CODE["!p"])', 'what[0] == CODE["!p"]'),
    (SOURCE, 'what[0] in (CODE[";"], CODE["ex"])', 'what[0] == CODE[";"]'),
    (SOURCE, 'what[0] in (CODE[";"], CODE["ex"])', 'what[0] == CODE["ex"]'),
    (SOURCE, "if kind in (\"mark\", \"fill\", \"org\", \"bit\"):\n                self.end()", "if kind in (\"mark\", \"fill\", \"org\", \"bit\"):\n                self.end() if kind != \"fill\" else None"),
    (SOURCE, "self.cell = Cell(here % 0x200 + what[0])", "self.cell = Cell(here + what[0])"),
    (SOURCE, "is_short = cell.slots and", "is_short ="),
    (SOURCE, "not cell.literals and cell.address", "cell.address"),
    (SOURCE, "word >> shift << shift |", "word |"),
    # the cells of source
    (SOURCE, 'demand(cell.loop is None, cell.loop, f"the loop of unext in {cell.address:03x} is longer than its cell")', "pass"),
    (SOURCE, 'demand(low not in given, line, f"cell {low:03x} given before on line {given.get(low)} (org {low} is {low:03x})")', "pass"),
    (SOURCE, "low < 0x40 or 0x80 <= low < 0xC0, line", "low < 0x80 or 0x80 <= low < 0xC0, line"),
    (SOURCE, "if label is not None:\n            target", "if False:\n            target"),
    (SOURCE, '"main" if "main" in layout.labels else 0', "0"),
    (SOURCE, 'if "/p" not in given and layout.cells:', 'if "/p" not in given:'),
    # source with faults
    (SOURCE, 'LEADING = (":", "org", "/p", "/a", "/b")', 'LEADING = ("org", "/p", "/a", "/b")'),
    (SOURCE, 'LEADING = (":", "org", "/p", "/a", "/b")', 'LEADING = (":", "/p", "/a", "/b")'),
    (SOURCE, 'LEADING = (":", "org", "/p", "/a", "/b")', 'LEADING = (":", "org", "/p", "/b")'),
    (SOURCE, 'last = next((place for place in range(at + 1, len(words)) if words[place][1] != ","), len(words))', "last = at + 1"),
    (SOURCE, 'words = words[2 if words[0][1] == "node" else 1 :]', "words = words[1:]"),
    (SOURCE, "            if isinstance(words[0][1], Fault):\n                words = words[1:]\n                continue\n", ""),
    # expectations
    (WORDS, 'if not said or said[0][1] != "expect":', 'if not said or said[0][1] != "expect" or said[0][0].column > 1:'),
    (WORDS, 'if not said or said[0][1] != "expect":', 'if "expect" not in [it for _, it in said]:'),
    (WORDS, '"node", "constant", "expect", ","', '"node", "constant", ","'),
    # constants, and nodes with one program
    (WORDS, "name in numbers or name in labels or not", "name in numbers or not"),
    (WORDS, "name in labels or not is_name(name)", "name in labels"),
    (WORDS, "name in numbers or name in labels", "name in labels"),
    (WORDS, "else numbers.get(word, word)))", "else word))"),
    (WORDS, "number, (name_line, name) = numbers.get(word, word)", "number, (name_line, name) = word"),
    (WORDS, "words[last][0] == begin[0] and ", ""),
    (WORDS, '"[0-9]{3}"', '"[0-9]+"'),
    (WORDS, "(words[last:end] if is_whole else [])", "(words[last:end] if name == words[last - 1] else [])"),
    (WORDS, "all_words += [] if is_whole else words[last:end]", "all_words += []"),
    (SOURCE, "str(lines[int(found[0])])", "found[0]"),
    (SOURCE, "sorted(faults, key=lambda it: it.line)", "faults"),
    (SOURCE, "MOST_TOLD = 20", "MOST_TOLD = 21"),
    (SOURCE, "if not at or str(faults[at - 1]) != str(it)]", "]"),
    (SOURCE, 'past = cell if "past the end" in error.text else None', "past = None"),
    (SOURCE, "return words[:first] + [(it, GAP) for it, _ in words[first:last]] + words[last:]", "return words[:first] + words[last:]"),
    # stores over code
    (SOURCE, 'if kind == "op" and stored is not None and stored % 0x200 < 0x80:', 'if kind == "op" and stored is not None:'),
    (SOURCE, "        if not cell.data:\n            lines", "        if cell.slots:\n            lines"),
    (SOURCE, 'elif op in ("!+", "@+") and a is not None:', 'elif op == "@+" and a is not None:'),
    (SOURCE, '    elif kind == "mark" or op in (";", "ex", "jump", "call"):', '    elif op in (";", "ex", "jump", "call"):'),
    (SOURCE, '    elif kind == "mark" or op in (";", "ex", "jump", "call"):', '    elif kind == "mark" or op in ("ex", "jump", "call"):'),
    # listings, and source of images
    (LISTING, 'f"{layout.labels[label]:03x}"', 'f"{layout.labels[label] % 0x200:03x}"'),
    (LISTING, "lines[line_of[at] - 1]", "lines[line_of[at] - 2]"),
    (LISTING, "if str(it) != before:", "if True:"),
    (LISTING, "        address = advanced(address)\n        yield", "        yield"),
    (LISTING, "layout.value(value):06x", "layout.word(cell):06x"),
    (LISTING, "if isinstance(it, str):", "if it == 0:"),
    (LISTING, 'if text in (";", "ex"):', 'if text == ";":'),
    (LISTING, 'if text in (";", "ex"):', 'if text == "ex":'),
    (LISTING, "yield text, p, p >> bits << bits |", "yield text, p, p >> 8 << 8 |"),
    (LISTING, '            p = advanced(p)\n        if text in (";"', '            pass\n        if text in (";"'),
    (LISTING, "                left.append(to)\n", ""),
    (LISTING, 'if text not in (";", "jump"):', 'if text not in (";", "ex", "jump"):'),
    (LISTING, 'if text not in (";", "jump"):', 'if text not in ("ex", "jump"):'),
    (LISTING, 'advanced(p) if text in ("@p", "!p") else p)', "p)"),
    (LISTING, '":" if here in labels else " "', '" "'),
    (LISTING, "left = set(), set(), set(), [node.p]", "left = set(), set(), set(), [0]"),
    (LISTING, "port_text(word) or (word if", "(word if"),
    (LISTING, "word if word < 0x20000 else word - 0x40000", "word"),
    (LISTING, '("p", 0 if cells else load.p)', '("p", load.p)'),
    (LISTING, '("a", load.a), ("b", load.b)):', '("a", load.a)):'),
    (LISTING, "if address != following:", "if address > following + 1:"),
    # exploring: runs, conditions, and queries of the history
    (EXPLORE, "state = (state + 0x9E3779B97F4A7C15) % (1 << 64)", "state = (state + 0x9E3779B97F4A7C14) % (1 << 64)"),
    (EXPLORE, "turn = node if order == \"greedy\" else (node + 1) % NODES", "turn = (node + 1) % NODES"),
    (EXPLORE, "turn = node if order == \"greedy\" else (node + 1) % NODES", "turn = node"),
    (EXPLORE, "return f\"full {made}: {self.FULL}\"", "return f\"full {made + 1}: {self.FULL}\""),
    (EXPLORE, "return f\"quiet {made}\"", "return f\"quiet {most}\""),
    (EXPLORE, "return own and event[2] == kind and (not words or event[0] == words[0])", "return own and event[2] == kind"),
    (EXPLORE, "return len(self.sent(*map(number_of, words[:2]))) == int(words[2])", "return len(self.sent(*map(number_of, words[:2]))) > int(words[2])"),
    (EXPLORE, "return self.chip[node].p == self.address(*words)", "return self.chip[node].p % 8 == self.address(*words)"),
    (EXPLORE, "{name(at)} {first} {self.steps[at] - left[at]}", "{name(at)} {first - 1} {self.steps[at] - left[at]}"),
    (EXPLORE, "for node, others in awaited.items() if len(others) == 1", "for node, others in awaited.items() if others"),
    (EXPLORE, "if after.get(ring[-1]) == first and min(ring) == first", "if after.get(ring[-1]) == first"),
    (EXPLORE, "if event == (writer, reader)]", "if set(event) == {writer, reader}]"),
    (EXPLORE, "if self.wrote(before, told, address):", "if self.wrote(behind, told, address):"),
    (EXPLORE, "not it.stop and it.slot == FETCH_DUE and it.p", "not it.stop and it.p"),
    (EXPLORE, "return not it.wait and not it.stop and", "return"),
    (EXPLORE, "before = {it: self.chip[it].copy() for it in written}", "before = {it: self.chip[it] for it in written}"),
    (EXPLORE, "for number, condition in enumerate(conditions, 1) if", "for number, condition in enumerate(conditions) if"),
    # and what source says of cells
    (EXPLORE, "if again.next(other) == (other, node)]", "if (again.chip[other].wait or ' ')[0] == 'write']"),
    (EXPLORE, "self.offers(node, int(step)) if name(other) != writer]", "self.offers(node, int(step))]"),
    (EXPLORE, "again.events = [event for event, gone in zip(self.events, self.dependents(self.place(node, step))) if not gone]", "again.events = self.events[: self.place(node, step)]"),
    (EXPLORE, "again.chip[other].d[0])", "self.chip[other].d[0])"),
    (EXPLORE, "if event[1:] == (node,)]:", "if event[0] == node and len(event) == 2]:"),
    (EXPLORE, "apart |= changing[event[0]]", "apart |= 0"),
    (EXPLORE, "apart |= looking[node]", "apart |= 0"),
    (EXPLORE, "before |= past[last] | 1 << last", "before |= 1 << last"),
    (EXPLORE, "back = (node, step) if look < change else (beside, changed)", "back = (beside, changed)"),
    (EXPLORE, "back = (node, step) if look < change else (beside, changed)", "back = (node, step)"),
    (EXPLORE, "or not again.looks_next(node) or again.io_word(node, []) == word:", "or not again.looks_next(node):"),
    (EXPLORE, 'where = "behind" if look < change else "before"', 'where = "before" if look < change else "behind"'),
    (EXPLORE, "if any(self.looked) or any(map(self.looks_next, range(NODES))):", "if any(self.looked):"),
    (EXPLORE, "if any(self.looked) or any(map(self.looks_next, range(NODES))):", "if any(map(self.looks_next, range(NODES))):"),
    (EXPLORE, "elif only is None and not lines:", "elif not lines:"),
    (EXPLORE, "elif only is None and not lines:", "elif only is None:"),
    (EXPLORE, "ended = all(self.next(node) is None for node in range(NODES))", "ended = all(self.chip[node].wait for node in range(NODES))"),
    (EXPLORE, "cells[node] = target_of(held.p)", "cells[node] = target_of(held.p + 1)"),
    (EXPLORE, "{self.notes.never_set(node, part)}{self.notes.tail(node, cell_of(part))}", "{self.notes.never_set(node, part)}"),
    (EXPLORE, "{self.notes.never_set(node, part)}{self.notes.tail(node, cell_of(part))}", "{self.notes.tail(node, cell_of(part))}"),
    (NOTES, '[*asked.registers] + ["/p"] * bool(layout.cells)', "[*asked.registers]"),
    (NOTES, '[*asked.registers] + ["/p"] * bool(layout.cells)', '["/p"] * bool(layout.cells)'),
    (NOTES, '[*asked.registers] + ["/p"] * bool(layout.cells)', '["/a", "/b", "/p"]'),
    (NOTES, "self.set.add((node, part_of(target_of(address))))", "pass"),
    (NOTES, 'return "" if self.set is None or (node, part) in self.set else', 'return "" if self.set is None or part in {it for _, it in self.set} else'),
    (EXPLORE, "self.steps[node] == 1 and vars", "vars"),
    (EXPLORE, "busy = [name(node) for node in stuck if node not in ended]", "busy = [name(node) for node in stuck if node not in idle]"),
    (EXPLORE, "if node in ended and node not in idle]", "if node in ended]"),
    (EXPLORE, 'self.chip[node].wait[0] == "read"]', 'self.chip[node].wait[0] != "fetch"]'),
    (EXPLORE, "self.awaited(node) and all(", "self.awaited(node) and any("),
    (EXPLORE, 'self.steps[given[0]] if word == "last"', 'self.steps[given[0]] - 1 if word == "last"'),
    (EXPLORE, "{self.steps[at] - left[at]}{tails[at, first]}", "{self.steps[at] - left[at]}"),
    (EXPLORE, "{self.steps[at] - left[at]}{tails[at, first]}", "{self.steps[at] - left[at]}{tails[at, self.steps[at]]}"),
    # what decided
    (EXPLORE, "for number in range(1, step):", "for number in range(1, step + 1):"),
    (EXPLORE, 'taken and before.wait[0] == "fetch"}', 'taken and before.wait[0] == "read"}'),
    (EXPLORE, "reversed(lines[-most:] if most else [])", "lines[-most:] if most else []"),
    (EXPLORE, "reversed(lines[-most:] if most else [])", "reversed(lines[:most])"),
    (EXPLORE, "reversed(lines[-most:] if most else [])", "reversed(lines[-most:])"),
    (EXPLORE, 'if lines else "none"', 'if lines else ""'),
    (EXPLORE, "return idle | {", "return {"),
    (EXPLORE, 'mark = f" {register} {word:06x}" if register else ""', 'mark = f" {register} {word:06x}" if word else ""'),
    (EXPLORE, "newest = place", "newest = place if newest is None else newest"),
    (EXPLORE, "if only in (None, *event) and any", "if any"),
    (EXPLORE, "sum(only in event for event in self.events[: newest + 1])", "sum(only in event for event in self.events[:newest]) or 1"),
    (WHENCE, '("r", "r", "i", "i", "r", "r", "t", "t")', '("r", "t", "i", "i", "r", "r", "t", "t")'),
    (WHENCE, '("r", "r", "i", "i", "r", "r", "t", "t")', '("r", "r", "i", "i", "r", "r", "t", "r")'),
    (WHENCE, "self.cells[target_of(int(value[1:3], 16))]", "self.cells[target_of(int(value[1:3], 16) ^ 1)]"),
    (WHENCE, "for at in range(2, 10)], self.d))", "for at in range(2, 10)], self.d[:2] + self.d[3:] + self.d[2:3]))"),
    (WHENCE, "for at in range(1, 9)], self.r))", "for at in range(1, 9)], self.r[1:] + self.r[:1]))"),
    (WHENCE, "if code > 7 or code in (2, 3) and asked[1] not in came:", "if code > 7 or code in (2, 3):"),
    (WHENCE, "if code > 7 or code in (2, 3) and asked[1] not in came:", "if code > 7:"),
    (WHENCE, "if code > 7 or code in (2, 3) and asked[1] not in came:", "if code > 6 or code in (2, 3) and asked[1] not in came:"),
    (WHENCE, "return made[asked][0] if code < 2 else asked,", "return made[asked][0] if code < 1 else asked,"),
    (WHENCE, 'return (made[asked][0], "", None) if', 'return (asked, "", None) if'),
    (WHENCE, '"push": "r", "a!": "a"}', '"push": "r", "a!": "t"}'),
    (WHENCE, "return ASKED_BEFORE[word], word_in(before, ASKED_BEFORE[word])", "return ASKED_BEFORE[word], word_in(behind, ASKED_BEFORE[word])"),
    (WHENCE, 'if word == "sends":', 'if word == "send":'),
    (WHENCE, "and {*sources} - {it} <= {*made[it]}", ""),
    (WHENCE, "run[-1][1] - after[1] == run[0][1] - run[1][1]", "True"),
    (WHENCE, "for source in made[run[-1]]]", "for source in made[run[0]]]"),
    (EXPLORE, "{word_in(behind[node, number], part):06x}", "{word_in(behind[node, max(number - 1, 0)], part):06x}"),
    (EXPLORE, 'part == "t" and deeds[node, number] == "+*"', 'part == "t" and deeds[node, number] == "+"'),
    (EXPLORE, 'if number and part in ("t", "i") and deeds', 'if number and part in ("t",) and deeds'),
    (NOTES, "place[0] == cell[0] and place[1] <= cell[1]", "place[0] == cell[0] and place[1] < cell[1]"),
    (NOTES, "if place == max(before)[0]][-1:]", "if place == min(before)[0]][-1:]"),
    (NOTES, "[[word] for word, _ in cell.literals]", "[[cell.slots[0][0]] for _ in cell.literals]"),
    (NOTES, "                    address = advanced(address)\n", ""),
    (NOTES, "if len(line) <= LONGEST:", "if len(line) <= LONGEST + 40:"),
    (NOTES, "words[0 if slot == 4 else min(slot, len(words) - 1)]", "words[min(slot, len(words) - 1)]"),
    (NOTES, "words[0 if slot == 4 else min(slot, len(words) - 1)]", "words[0]"),
    (NOTES, "self.lines[word - 1][word.column - 1 :]", "self.lines[word - 1][word.column :]"),
    (EXPLORE, "cells.get(node), held.slot)", "cells.get(node))"),
    (NOTES, "self.begins.setdefault((node, cell.slots[0][0]), address)", "self.begins[node, cell.slots[0][0]] = address"),
    (NOTES, "return dict(self.labels.get(node, [])).get(name)", "return {it: at % 0x200 + 1 for it, at in self.labels.get(node, [])}.get(name)"),
    # what a picture shows
    (PICTURES, '"fetch": "ring"', '"fetch": "dot"'),
    (PICTURES, '"wait": "bar"', '"wait": "cross"'),
    (PICTURES, '"stop": "cross"', '"stop": "bar"'),
    (PICTURES, 'for row in rows for node in row.event})', "for row in rows for node in row.event[:1]})"),
    (PICTURES, "{writer} {step} to {reader} {its}, '{word}'", "{writer} {its} to {reader} {step}, '{word}'"),
    (PICTURES, "{writer} {step} to {reader} {its}, '{word}'", "{reader} {its} to {writer} {step}, '{word}'"),
    (PICTURES, "what = NAMES[int(more[0], 16)]", "what = NAMES[int(more[0], 16) & 0x1E]"),
    (PICTURES, 'title += f" {what}"', "pass"),
    (PICTURES, "beside = [neighbour(node, side) for side in SIDES]", "beside = [neighbour(node, side) for side in SIDES[:3]]"),
    (PICTURES, "for side in SIDES] if self.looked else []", "for side in SIDES] if self.looked and kind == \"run\" else []"),
    (PICTURES, "sorted(it for it in beside if it in lined)", "sorted(it for it in beside if it is not None)"),
    (PICTURES, 'yield "dotted", "top" if since is None else since, place', 'yield "dotted", "top", place'),
    (PICTURES, 'yield "dotted", "top" if since is None else since, place', 'yield "dotted", 0 if since is None else since, place'),
    (PICTURES, 'yield ("dotted", since, "foot") if waits', 'yield ("dotted", since, len(rows) - 1) if waits'),
    (PICTURES, 'yield "solid", place if since is None else since, place', 'yield "solid", "top" if since is None else since, place'),
    (PICTURES, '["red" if goes[at] else "black" if leads[at] else "grey"', '["grey" if not leads[at] else "red" if goes[at] else "black"'),
    (PICTURES, "for side in SIDES if machine.looked[at])}", "for side in SIDES[1:] if machine.looked[at])}"),
    (PICTURES, "if at == last or needed & {*machine.events[at]}:", "if needed & {*machine.events[at]} or at == last and not machine.looked[at]:"),
    (PICTURES, "gone |= {*machine.events[at]}", "gone |= seen_by(machine, at)"),
    (PICTURES, "[view.start - 1 : view.end]", "[view.start - 1 : view.end and view.end - 1]"),
    (PICTURES, "[view.start - 1 : view.end]", "[view.start - (view.start > 1 and 2 or 1) : view.end]"),
    (PICTURES, "for it in (view.cause, view.rewind) if it]", "for it in (view.cause,) if it]"),
    (PICTURES, "in idle and not view.all or", "in idle or"),
    (PICTURES, "row.out = silent and row.colour not in asked", "row.out = silent"),
    (PICTURES, '["black"] * bool(view.cause)', '["black"]'),
    (PICTURES, 'row.kind() in ("pass", "wait", "stop") or', 'row.kind() in ("pass", "wait") or'),
    (PICTURES, 'row.kind() in ("pass", "wait", "stop") or', 'row.kind() in ("pass", "stop") or'),
    (PICTURES, "or row.colour in asked or races", "or races"),
    (PICTURES, "or races and row.looked:", "or row.looked:"),
    (PICTURES, "or races and row.looked:", "or False:"),
    (PICTURES, "tied |= beside | {*row.event}", "tied |= {*row.event}"),
    (PICTURES, "tied |= beside | {*row.event}", "tied |= beside"),
    (PICTURES, "return nodes - tied if tied else set()", "return nodes - tied"),
    (PICTURES, "set() if view.all else lone_in(", "lone_in("),
    (PICTURES, "            steps[row.event[0]] += 1", '            steps[row.event[0]] += row.kind() == "run"'),
    (PICTURES, "(row.looked or at in named or row.out)", "(row.looked or row.out)"),
    (PICTURES, 'row.kind() in ("fetch", "run") and not', 'row.kind() in ("fetch", "run", "wait") and not'),
    (PICTURES, "last.update((node, None) for node in row.sees)", "last.update((node, None) for node in row.event)"),
    (PICTURES, "len(run) >= fold", "len(run) > fold"),
    (PICTURES, "int(step) + self.many - 1", "int(step) + self.many"),
    (PICTURES, "races.get(at, [])", "races.get(at + 1, [])"),
    (PICTURES, "if view.races else []:", "if not view.races else []:"),
    (PICTURES, 'self.text += "quit\\nrun 5\\n"', 'self.obey("quit")\n            self.obey("run 5")'),
    # ends
    (ENDS, "clean | {None}", "clean | going | {None}"),
    (ENDS, 'it.wait[0] == "fetch" or it.wait[0] == "read" and', 'it.wait[0] != "write" and'),
    (ENDS, 'it.wait[0] == "fetch" or it.wait[0] == "read" and all(', 'it.wait[0] == "fetch" or it.wait[0] == "read" and any('),
    (ENDS, "word &= ~(it.waits(READS, side) << 16 - 2 * place)", 'word &= ~(it.waits(("read",), side) << 16 - 2 * place)'),
    (ENDS, "                    leaving.add(component[at])", "                    pass"),
    (ENDS, "            if number in leaving:\n                continue\n", ""),
    (ENDS, "if reader is not None and self.at(chip, reader).waits(READS, side):", 'if reader is not None and self.at(chip, reader).waits(("read",), side):'),
    (ENDS, "return 5 if any(", "return 5 if all("),
    (ENDS, "if chip in self.kind_at and not self.kind_at[chip][1]}", "if chip in self.kind_at}"),
    (ENDS, "        return sum(self.kinds.values())", "        return len(self.kinds)"),
    (ENDS, "            last = place\n", "            last = last or place\n"),
    # expectations
    (EXPECTATIONS, "return wait[0] == kind[:-1] and {*wait[1]} == {", "return wait[0] == kind[:-1] and {*wait[1]} >= {"),
    (EXPECTATIONS, "return wait[0] == kind[:-1] and", 'return wait[0] in ("fetch", kind[:-1]) and'),
    (EXPECTATIONS, 'return wait[0] == "fetch"', 'return wait[0] in ("fetch", "read")'),
    (EXPECTATIONS, '"left": "l", "up": "u"', '"left": "u", "up": "l"'),
    (EXPECTATIONS, "if within or word == \"(\":", "if within:"),
    (EXPECTATIONS, 'elif word == "\\\\":', 'elif word == ".":'),
    (EXPECTATIONS, "constants[named] = constants.get(value, value)", "constants[named] = value"),
    (EXPECTATIONS, "words = [constants.get(it, it) for it in words[1:]]", "words = words[1:]"),
    (EXPECTATIONS, "named = nodes\n", "named = nodes[:1]\n"),
    (EXPECTATIONS, "named, words = [NUMBERS[words[0]]], words[1:]", "named, words = nodes or [NUMBERS[words[0]]], words[1:]"),
    (EXPECTATIONS, "if chip in self.ends.kind_at and not expectation", "if not expectation"),
    (EXPECTATIONS, "return not self.unmet(expectation)", "return len(self.unmet(expectation)) < len(self.ends.kind_at)"),
    (EXPECTATIONS, "return not self.can_hold(self.conditions(expectation))", "return self.can_hold(self.conditions(expectation))"),
    (EXPECTATIONS, "return not self.ends.has_cycle if", "return not self.ends.has_cycle_before if"),
    (EXPECTATIONS, "sum(self.ends.kinds.values()) == 1", "len(self.ends.kinds) == 1"),
    (EXPECTATIONS, 'return 5 if any(it.startswith("broken")', 'return 5 if all(it.startswith("broken")'),
    (EXPECTATIONS, "6 if NOT_KNOWN in verdicts", "6 if len(verdicts) > 4"),
    (EXPECTATIONS, "for line in lines[:-1]:", "for line in lines[:-2]:"),
    (EXPECTATIONS, "self.link = NUMBERS[giver], NUMBERS[taker]", "self.link = NUMBERS[taker], NUMBERS[giver]"),
    (EXPECTATIONS, "if word == self.words[place] else", "if word >= self.words[place] else"),
    (EXPECTATIONS, "return None if self.is_open else", "return None if not self.is_open else"),
    (EXPECTATIONS, "if place < len(self.words) and at not in passing:", "if at not in passing:"),
    (EXPECTATIONS, "if place < len(self.words) and at not in passing:", "if place < len(self.words) and not self.graph.edges[at]:"),
    (EXPECTATIONS, "there = to, place + (event == self.link and place < len(self.words))", "there = to, place"),
    (EXPECTATIONS, " and component[at] not in broken", ""),
    (EXPECTATIONS, "component[at] not in broken", "chip not in unmet"),
)


HERE = os.path.dirname(os.path.abspath(__file__))


def sum_of(wrong):
    return hashlib.sha256("\0".join(wrong).encode()).hexdigest()[:12]


def told_before():
    """The session that detected each mutant, by its digest, when the file was written."""
    if not os.path.isfile(f"{HERE}/told"):
        return {}
    with open(f"{HERE}/told", encoding="utf-8") as text:
        return {sum: number for sum, number in map(str.split, text)}


def run(folder, wrong, program, first, count):
    """How `count` sessions detect a mutant that is planted in a folder ('answer' or 'replay'), or what they print, and which does."""
    generator, *options = GENERATORS.get(wrong[0], "sessions").split()
    words = [sys.executable, "-B", f"{folder}/{generator}.py", *options, program, str(first), str(count)]
    ran = subprocess.run(words, capture_output=True, text=True)
    said = (ran.stdout + ran.stderr).strip().split("\n")[-1]
    if ran.returncode != 1:
        return f"not detected: {said}", None
    number = re.match(r"(?:session|source|picture|program) (\d+): ", said)
    return "answer" if number else "replay", number and number[1]


def told(room, number, program, count, before, is_written):
    """How the sessions detect a mutant, or why they don't, and which session does, if that is to be written."""
    wrong = WRONG[number]
    file, old, new = wrong
    folder = f"{room}/{number}"
    shutil.copytree(HERE, folder, ignore=shutil.ignore_patterns("__pycache__"))
    with open(f"{folder}/{file}", encoding="utf-8") as text:
        right = text.read()
    if right.count(old) != 1:
        return f"its text occurs {right.count(old)} times, not once", None
    with open(f"{folder}/{file}", "w", encoding="utf-8") as text:
        text.write(right.replace(old, new))
    first = before.get(sum_of(wrong))
    if first is not None and int(first) < count:
        how, _ = run(folder, wrong, program, first, 1)
        if how in ("answer", "replay"):
            shutil.rmtree(folder)
            return how, first
    how, which = run(folder, wrong, program, 0, count)
    if how == "replay" and is_written:
        # (it doesn't say in which session)
        which = next((str(it) for it in range(count) if run(folder, wrong, program, it, 1)[0] == "replay"), None)
    shutil.rmtree(folder)
    return how, which


def main():
    words = sys.argv[1:]
    is_written = words[:1] == ["--write"]
    words = words[is_written:]
    if len(words) != 2 or not words[1].isdecimal() or int(words[1]) == 0:
        sys.exit("usage: wrong.py [--write] PROGRAM COUNT, with COUNT at least 1")
    program, count = words[0], int(words[1])
    before = told_before()
    with tempfile.TemporaryDirectory() as room, ThreadPoolExecutor(len(os.sched_getaffinity(0))) as lanes:
        came = [*lanes.map(lambda number: told(room, number, program, count, before, is_written), range(len(WRONG)))]
    answers = [how for how, _ in came]
    if is_written:
        with open(f"{HERE}/told", "w", encoding="utf-8") as file:
            file.writelines(f"{sum_of(wrong)} {which}\n" for wrong, (_, which) in zip(WRONG, came) if which is not None)
    left = [f"{wrong}: {what}" for wrong, what in zip(WRONG, answers) if what not in ("answer", "replay")]
    if left:
        sys.exit("\n".join(left))
    print(f"{len(WRONG)} mutants of the model: each is detected, {answers.count('replay')} of them by a replay that fails")


if __name__ == "__main__":
    main()
