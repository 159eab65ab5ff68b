#!/usr/bin/env python3
"""The text of `ga144 check` and `ga144 asm`, made from the objects of `--json`: a second reading of docs/JSON.md.

A text has what the objects don't: the bounds of the search, which the caller set, and whether several conditions were looked for.
"""

STOPS = {"memory": "stopped: no memory for more states", "restarts": "stopped: begun anew too often"}
FOUND = {"runs": "runs", "awaits code": "waits for code", "reads": "waits to read", "writes": "waits to write", "endless": "some order goes on for ever"}
ENDLESS = {"none": "every order comes to an end\n", "before": "it can go on for ever before\n", "at an end": ""}


def counted(number, thing):
    return f"{number} {thing}{'' if number == 1 else 's'}"


def event_text(it):
    if it["event"] == "pass":
        return f"pass {it['node']} {it['step']} {it['reader']} {it['reader_step']} {it['word']:06x}"
    number = {"run": lambda: f" {it['opcode']:02x}", "stop": lambda: f" {it['stop']}"}.get(it["event"], str)()
    return f"{it['node']} {it['step']} {it['event']}{number}"


def decided_text(it):
    """What an object of what decides adds to the text."""
    return f"  decided by {event_text(it)}" if it["taken"] else f", not {event_text(it)}\n"


def cause_text(it):
    """What a node, or a word over a link, has that breaks an expectation."""
    because = it["because"]
    if because == "value":
        return f"is {it['value']:06x}"
    if because == "word":
        return f"word {it['place']} is {it['value']:06x}"
    if because == "further word":
        return f"a further word is {it['value']:06x}"
    if because == "no word":
        return f"word {it['place']} never comes"
    if because == "stop":
        return f"stop {it['stop']}"
    return " ".join([FOUND[because], *it.get("sides", "").split()])


class Answer:
    """The text of the objects about one file."""

    def __init__(self, objects, most=1000000, seconds=0, conditions=1):
        self.head, *rows = objects
        self.rows = [it for it in rows if it["answer"] != "same"]
        # `--same` adds the last object
        self.asked = rows[len(self.rows) :]
        assert self.asked in ([], [it for it in rows if it["answer"] == "same"])
        self.most, self.seconds, self.conditions = most, seconds, conditions
        self.at_least = "" if self.head.get("explored", True) else "at least "

    def stop_text(self):
        stopped = self.head["stopped"]
        bounds = {"states": f"stopped at --most {self.most} states", "seconds": f"stopped after --seconds {self.seconds}"}
        return "" if stopped is None else {**bounds, **STOPS}[stopped] + "\n"

    def text(self):
        return getattr(self, self.head["answer"])() + "".join(self.same(it) for it in self.asked)

    # ---- one end

    def same(self, it):
        """The line of `--same`."""
        outcomes = {"holds": "holds in every order", "broken": f"broken, {self.at_least}{it['ends']} ends", "unknown": "not known"}
        assert (it["ends"] > 1) == (it["outcome"] == "broken")
        return f"one end: {outcomes[it['outcome']]}\n"

    # ---- expectations

    def cause(self, it):
        if it["because"] == "event":
            return event_text(it)
        return f"{self.at_least}{it['ends']} ends" if it["because"] == "ends" else cause_text(it)

    def known(self, it):
        if it["outcome"] != "broken":
            return {"holds": "holds in every order", "unknown": "not known"}[it["outcome"]]
        session = "" if it["session"] is None else f": --session {it['session']}"
        return f"broken, {self.cause(it)}{session}"

    def expectations(self):
        head = f"{self.at_least}{counted(self.head['states'], 'state')}, {counted(self.head['expectations'], 'expectation')}\n"
        lines = [decided_text(it) if it["answer"] == "decision" else f"line {it['line']}: {it['text']}: {self.known(it)}\n" for it in self.rows]
        return head + "".join(lines) + self.stop_text()

    # ---- ends

    def end(self, it):
        named = {does: [row["node"] for row in it["rows"] if row["does"] == does] for does in ("goes on", "reads", "writes")}
        still = [f"{row['node']} stop {row['stop']}" for row in it["rows"] if row["does"] == "stop"]
        still += [" ".join(named[does]) + f" waiting to {does[:-1]}" for does in ("reads", "writes") if named[does]]
        if named["goes on"]:
            line = " ".join(["goes on for ever", *named["goes on"]]) + (", with " if still else "")
        else:
            line = "ends with " if still else "ends quiet"
        ways = "" if it["ways"] == 1 else f", in {it['ways']} ways"
        unclean = [row["node"] for row in it["rows"] if not row["clean"]]
        assert it["clean"] == (not unclean)
        return f"{line}{', '.join(still)}{ways}: --session {it['number']}\n" + (f"  not clean: {' '.join(unclean)}\n" if unclean else "")

    def ends(self):
        kinds = [it for it in self.rows if it["answer"] == "end"]
        assert len(kinds) == self.head["kinds"]
        text = f"{self.at_least}{counted(self.head['states'], 'state')}, {self.at_least}{counted(len(kinds), 'kind')} of end\n"
        for it in self.rows:
            text += self.end(it) if it["answer"] == "end" else decided_text(it)
        return text + (self.stop_text() if self.head["stopped"] else ENDLESS[self.head["endless"]])

    # ---- conditions

    def never(self):
        head = self.head
        if head["outcome"] == "broken":
            which = f" by {head['condition']}" if self.conditions > 1 else ""
            return f"reached {head['events']}{which} {event_text(head)}\n"
        states = counted(head["states"], "state")
        return f"never, in {states}\n" if head["outcome"] == "holds" else f"not reached in {states}, {self.stop_text()}"

    # ---- a program that isn't checked

    def refused(self):
        """The lines of standard error, or the refusal of an image."""
        lines = [self.head, *self.rows]
        return "".join((f"ga144: line {it['line']}: " if it["line"] is not None else "") + f"{it['text']}\n" for it in lines)


def assembly(objects):
    """Standard output and standard error of `asm`."""
    images = [it for it in objects if it["answer"] == "image"]
    errors = ""
    for it in objects:
        line = f"line {it['line']}: " if it.get("line") is not None else ""
        if it["answer"] in ("warning", "refused"):
            errors += f"ga144: {line}{'warning: ' * (it['answer'] == 'warning')}{it['text']}\n"
    assert len(images) <= 1 and not (images and "refused" in {it["answer"] for it in objects})
    return "".join(it["text"] for it in images), errors
