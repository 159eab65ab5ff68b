#!/usr/bin/env python3
"""The text of `ga144 explore`, made from the objects of `explore --json`: a second reading of docs/JSON.md, "Sessions".

How many conditions a run has is in the line that asks, and whether it names the value of `whence`.
"""

from objects import cause_text

SIDES = ("right", "down", "left", "up")
LETTERS = {"right": "r", "down": "d", "left": "l", "up": "u"}
OPCODES = "; ex jump call unext next if -if @p @+ @b @ !p !+ !b ! +* 2* 2/ ~ + and or drop dup pop over a . push b! a!".split(" ")
# The digits of numbers that are hexadecimal.
DIGITS = {"address": 2, "word": 6, "value": 6}
# The parts that `whence` names after a step.
NAMED = ("a", "b", "p", "io", "carry", "slot", "r", "wait", "stop", "d", "s")


def hex6(word):
    return f"{word:06x}"


def event_text(it):
    """An event as `step` writes it."""
    if it["what"] == "pass":
        return f"pass {it['from']} {it['from_step']} {it['to']} {it['to_step']} {hex6(it['word'])}"
    tail = {"run": lambda: f" {OPCODES.index(it['opcode']):02x}", "stop": lambda: f" {it['stop']}"}.get(it["what"], str)()
    return f"{it['node']} {it['step']} {it['what']}{tail}"


def deed_text(it, node):
    """What a step of a node did."""
    if it["what"] == "pass":
        return f"takes {hex6(it['word'])} from {it['from']} {it['from_step']}" if it["to"] == node else f"sends {hex6(it['word'])} to {it['to']} {it['to_step']}"
    return {"run": lambda: it["opcode"], "stop": lambda: f"stop {it['stop']}"}.get(it["what"], lambda: it["what"])()


def part_text(it, part="part", index="index"):
    """A register, a word of a stack or a cell, as `whence` names it."""
    if it[part] in ("ram", "rom"):
        return f"{it[index]:02x}"
    return it[part] + ("" if it[index] is None else str(it[index]))


def source_text(it):
    """What the source has for a step or a cell, at the end of a line."""
    if it["source"] is None:
        assert it["line"] is None and it["column"] is None
        return ""
    assert f" {it['line']}:{it['column']}: " in it["source"] or int(it["source"].split(": ")[0].split(" ")[-1]) <= it["line"]
    return f" \\ {it['source']}"


def values_text(it):
    """The values of an object or a row in their order, and what the source has for it, as a line."""
    named = {name: value for name, value in it.items() if name not in ("rows", "line", "column", "source")}
    values = " ".join(f"{value:0{DIGITS[name]}x}" if name in DIGITS else str(value) for name, value in named.items())
    return f"{values}{source_text(it) if 'source' in it else ''}\n"


def regular_text(it):
    """The text of an object without a function of its own: counts, each after its name, or `none`; else its values, and those of each row."""
    counts = {name: value for name, value in it.items() if name != "command"}
    if all(value is None or type(value) is int for value in counts.values()):
        return "none\n" if None in counts.values() else " ".join(f"{name} {value}" for name, value in counts.items()) + "\n"
    return values_text(it) + "".join(map(values_text, it.get("rows", [])))


class SessionText:
    """The text of an answer, from its object and the line that asked for it."""

    def __init__(self, line):
        self.line = line

    def text(self, it):
        if it == {"answer": "ready"}:
            return "ready\n"
        if it.get("answer") == "refused":
            return (f"ga144: line {it['line']}: " if it["line"] is not None else "") + f"{it['text']}\n"
        if "refused" in it:
            return f"no {it['refused']} {it['why']}{self.hint_text(it)}\n"
        return it["text"] if "text" in it else getattr(self, f"{it['command']}_text", regular_text)(it)

    @staticmethod
    def hint_text(it):
        """What a refusal has after its word."""
        return f": {it['hint']}" if "hint" in it else ""

    def step_text(self, it):
        return f"{event_text(it)}\n"

    def run_text(self, it):
        if it["end"] == "reached":
            by = f" by {it['condition']}" if " or " in self.line else ""
            return f"reached {it['events']}{by} {event_text(it)}\n"
        return f"{it['end']} {it['events']}{self.hint_text(it)}\n"

    def node_text(self, it):
        waits = {"fetches": "fetch", "reads": "read", "writes": "write"}
        sides = "".join(LETTERS[side] if it[f"at_{side}"] else "-" for side in SIDES)
        state = f"{waits[it['does']]} {sides}" if it["does"] in waits else f"stop {it['stop']}" if it["does"] == "stopped" else "run"
        words = " ".join(f"{name} {hex6(it[name])}" for name in "pabi")
        stack, returns = ([hex6(row["value"]) for row in rows] for rows in (it["rows"][:10], it["rows"][10:]))
        return f"node {it['node']} {state} {words} slot {it['slot']} carry {it['carry']} io {hex6(it['io'])} d {' '.join(stack)} r {' '.join(returns)}\n"

    def trace_text(self, it):
        return f"trace {it['node']} {len(it['rows'])}\n" + "".join(f"{event_text(row)}\n" for row in it["rows"])

    def why_text(self, it):
        return f"chain {len(it['rows'])}\n" + "".join(f"{event_text(row)}\n" for row in it["rows"]) if it["leads"] else "independent\n"

    def expectations_text(self, it):
        return "".join(f"line {row['line']}: {row['text']}: {self.status_text(row)}\n" for row in it["rows"]) or "none\n"

    @staticmethod
    def status_text(row):
        """The status of an expectation, and what breaks it."""
        if row["outcome"] != "broken":
            assert row["because"] is None
            return row["outcome"]
        because = {"event": lambda: event_text(row), "stuck": lambda: f"stuck {row['node']}"}.get(row["because"], lambda: cause_text(row))()
        return f"broken, {because}"

    def words_text(self, it):
        rows = (f"{row['number']} {it['from']} {row['from_step']} {it['to']} {row['to_step']} {hex6(row['word'])}\n" for row in it["rows"])
        assert it["count"] == len(it["rows"])
        return values_text(it) + "".join(rows)

    def writes_text(self, it):
        return "".join(f"{it['node']} {row['step']} {row['opcode']} {hex6(row['value'])}\n" for row in it["rows"])

    def effects_text(self, it):
        assert it["nodes"] == len(it["rows"])
        return f"effects {it['events']} {it['nodes']}\n" + "".join(map(values_text, it["rows"]))

    def at_text(self, it):
        rows = ((row, "".join(f" {name} {hex6(row[name])}" for name in "tsrabp")) for row in it["rows"])
        return "".join(f"{it['node']} {row['step']} {deed_text(row, it['node'])}{registers}{source_text(row)}\n" for row, registers in rows)

    def whence_text(self, it):
        is_own = bool(it["rows"]) and (it["rows"][0]["node"], it["rows"][0]["step"]) == (it["node"], it["step"])
        users = ("" if row["user"] == 0 and is_own else f">{row['user']}" for row in it["rows"])
        step = f"{it['node']} {it['step']} {deed_text(it, it['node'])}"
        if it["part"] is None:
            return f"{step}{source_text(it)}\n"
        head = f"0 {step}{self.queried_text(it)}{source_text(it)}\n" if it["first"] == 1 and not is_own else ""
        lines = "".join(f"{row['number']}{user} {self.value_line(row)}\n" for row, user in zip(it["rows"], users))
        none = "" if it["rows"] else "none\n"
        return head + lines + none + ("" if it["more_from"] is None else f"more from {it['more_from']}\n")

    def queried_text(self, it):
        """The queried value of line 0; the word that a step sent is in its text already."""
        is_named = self.line.split(" ")[3:4] not in ([], ["from"])
        return f" {part_text(it)} {hex6(it['value'])}" if is_named or it["what"] != "pass" or it["from"] != it["node"] else ""

    @staticmethod
    def value_line(row):
        """The line of a value, without its numbers."""
        end = (", never set" if row["never_set"] else "") + source_text(row)
        if row["what"] == "load":
            return f"{row['node']} load {part_text(row)} {hex6(row['value'])}{end}"
        count = f" x{row['count']}" if row.get("count", 1) > 1 else ""
        named = f" {part_text(row)}" if row["part"] in NAMED else ""
        word = "" if row["what"] == "pass" and row["part"] in ("t", "i") else f" {hex6(row['value'])}"
        both = "" if row["a"] is None else f" a {hex6(row['a'])}"
        return f"{row['node']} {row['step']} {deed_text(row, row['node'])}{named}{word}{both}{count}{end}"

    def because_text(self, it):
        tested = ("" if row["what"] == "pass" else f" {part_text(row)} {hex6(row['value'])}" for row in it["rows"])
        made = ({name.removeprefix("source_"): value for name, value in row.items() if name.startswith("source_")} for row in it["rows"])
        rows = (
            f"{it['node']} {row['step']} {deed_text(row, it['node'])}{word}{source_text(row)}\n  {self.value_line(source)}\n"
            for row, word, source in zip(it["rows"], tested, made)
        )
        return "".join(rows) or ("" if self.line.endswith(" 0") else "none\n")

    def races_text(self, it):
        assert it["count"] == len(it["rows"])
        lines = "".join(f"{self.race_line(row)}: rewind {row['rewind_node']} {row['rewind_step']}, step {row['then_node']}\n" for row in it["rows"])
        last = ""
        if it["looks"]:
            last = "looks are kept or come next: there may be other races\n"
        elif it["node"] is None and not it["rows"]:
            last = "every order ends on this chip\n" if it["quiet"] else "no other order, as long as no node makes more steps\n"
        return f"races {it['count']}\n{lines}{last}"

    @staticmethod
    def race_line(row):
        if row["what"] == "pass":
            return f"{row['node']} {row['step']} takes {hex6(row['word'])} from {row['from']}, or {hex6(row['other_word'])} from {row['other_from']}"
        where = "behind" if row["look_first"] else "before"
        return f"{row['node']} {row['step']} reads {hex6(row['word'])}, or {hex6(row['other_word'])} {where} {row['neighbour']} {row['neighbour_step']}"

    def who_text(self, it):
        lines = ""
        for row in it["rows"]:
            if row["does"] in ("fetches", "reads", "writes"):
                beside = "".join(f" {LETTERS[side]} {row[side]} {row[f'{side}_does']}" for side in SIDES if row[side] is not None)
                lines += f"{row['node']} {row['does']}{beside}\n"
        busy = [row["node"] for row in it["rows"] if row["deadlocked"] and not row["ended"]]
        still = f" and {it['deadlocked_idle']} idle" if it["deadlocked_idle"] else ""
        lines += f"stuck {' '.join(busy)}{still}\n" if busy else ""
        lines += "".join(f"ring {' '.join(ring)}\n" for ring in self.rings(it["rows"]))
        over = [row["node"] for row in it["rows"] if row["ended"]]
        lines += f"ended {' '.join(over)}\n" if over else ""
        return lines + (f"idle {it['idle']}\n" if it["idle"] else "")

    @staticmethod
    def rings(rows):
        """The wait cycles of deadlocked nodes, each of which awaits only the next: each from its least node on."""
        awaited = {row["node"]: [row[side] for side in SIDES if row[side] is not None] for row in rows if row["deadlocked"]}
        after = {node: others[0] for node, others in awaited.items() if len(others) == 1}
        for first in awaited:
            ring = [first]
            while after.get(ring[-1]) not in (None, *ring):
                ring.append(after[ring[-1]])
            if after.get(ring[-1]) == first and min(ring) == first:
                yield ring
