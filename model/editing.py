"""A session of `ga144 dap`: the answers to requests over the replay machine. Part of the reference model. shown.py has what is shown."""

import re

from conditions import asked_with
from expectations import expectations_of
from expecting import SessionExpectations
from explore import CHANGE, CLASSES, mixed, next_node, number_of
from files import answer, load_of
from machine import NODES, name
from shown import SCOPES, Places, Shown, Watched, address_of, cell_of, node_of_frame, node_of_thread, thread_of
from source import NODE_NAMES, asm, programs_of
from words import words_of

USUAL_LIMIT, MAX_LIMIT = 20000000, 100000000
SLICE = 4096
# how many addresses a node has
ADDRESSES = 4096
ABLE = ("ConditionalBreakpoints", "ConfigurationDoneRequest", "DataBreakpoints", "DisassembleRequest", "EvaluateForHovers", "ExceptionInfoRequest")
ABLE += ("FunctionBreakpoints", "HitConditionalBreakpoints", "InstructionBreakpoints", "StepBack", "SteppingGranularity", "TerminateRequest")
FULL = "full: as many events are kept as may be"
FILTERS = {"stop": "A node stops", "stuck": "A node can never go on", "broken": "An expectation is broken"}


def address_in(text):
    """The node and the address in it of an address of the chip, or None."""
    digits = re.fullmatch("0x([0-9a-fA-F]+)", text)
    found = digits and re.fullmatch("([0-7](?:0[0-9]|1[0-7]))0([0-9a-f]{2})", f"{int(digits[1], 16):06x}")
    return found and (NODE_NAMES[found[1]], int(found[2], 16))


class Refused(Exception):
    """A request that is not carried out."""


class Session:
    """What is answered to each request: messages without their numbers."""

    def __init__(self):
        self.shown, self.is_configured, self.is_over, self.out = None, False, False, []

    # ---- messages

    def answer(self, command, arguments):
        """The messages that come of a request; the response has None for its request's number."""
        self.out, self.command, self.arguments = [], command, arguments or {}
        try:
            asked = getattr(self, f"do_{command}", None)
            if asked is None:
                raise Refused("no such request")
            if self.shown is None and command not in ("initialize", "launch", "disconnect", "terminate"):
                raise Refused("nothing is launched")
            if command in ("continue", "next", "stepIn", "stepOut") and not self.is_configured:
                raise Refused("configurationDone comes first")
            asked()
        except Refused as why:
            self.out.append({"body": {"error": {"format": str(why), "id": 1}}, "command": command, "message": str(why), "success": False, "type": "response"})
        return self.out

    def respond(self, body=None):
        self.out.append({"command": self.command, "success": True, "type": "response"} | ({} if body is None else {"body": body}))

    def tell(self, event, body=None):
        self.out.append({"event": event, "type": "event"} | ({} if body is None else {"body": body}))

    def tell_stopped(self, node, reason, description, hits=()):
        body = {"allThreadsStopped": True, "description": description, "reason": reason, "text": description, "threadId": thread_of(node)}
        self.tell("stopped", body | ({"hitBreakpointIds": hits} if hits else {}))

    def tell_threads(self):
        for node in range(NODES):
            is_here = self.shown.has_thread(node)
            if is_here != (node in self.known):
                self.tell("thread", {"reason": "started" if is_here else "exited", "threadId": thread_of(node)})
        self.known = set(self.shown.nodes())

    def node(self):
        node = node_of_thread(self.arguments.get("threadId"))
        if node is None:
            raise Refused(f"{self.command}: no such thread")
        return node

    def first(self):
        return next(iter(self.shown.nodes()), 0)

    # ---- the beginning and the end

    def do_initialize(self):
        for what in ("lines", "columns"):
            if not self.arguments.get(f"{what}StartAt1", True):
                raise Refused(f"initialize: {what} are counted from 1 on")
        if self.arguments.get("pathFormat", "path") != "path":
            raise Refused("initialize: files are named by paths")
        able = {f"supports{it}": True for it in ABLE}
        self.respond(able | {"exceptionBreakpointFilters": [{"default": True, "filter": it, "label": label} for it, label in FILTERS.items()]})

    def do_launch(self):
        path, limit = self.arguments["program"], self.arguments.get("limit", USUAL_LIMIT)
        if self.shown is not None:
            raise Refused("launch: a program is launched already")
        if not 1 <= limit <= MAX_LIMIT:
            raise Refused("launch: the limit is 1 to 100000000")
        if self.arguments.get("order", "rounds") == "random" and not 0 <= self.arguments.get("seed", 0) < 1 << 32:
            raise Refused("launch: the order is rounds, greedy, or random with a seed of 0 to 4294967295")
        with open(path, encoding="latin-1", newline="") as file:
            text = file.read()
        image = text.startswith("ga144")
        load, told, status = (text, "", 0) if image else asm(text)
        if status:
            raise Refused(f"launch: {path}: {told.removeprefix('ga144: ').strip()}")
        self.machine = Watched(load_of(load.removesuffix("\n").split("\n")), limit)
        self.notes = self.machine.notes = Places(None if image else text)
        programs = set() if image else {NODE_NAMES[it] for it in programs_of(words_of(text))}
        self.shown = Shown(self.machine, self.notes, programs, path)
        self.machine.expected = SessionExpectations([] if image else expectations_of(text)[0])
        self.order, self.state = self.arguments.get("order", "rounds"), self.arguments.get("seed", 0)
        self.turn, self.known, self.reported, self.points, self.ids = 0, set(), set(), [], 0
        self.filters, self.by_lines, self.stops_on_entry = set(FILTERS), not image, self.arguments.get("stopOnEntry", True)
        self.respond()
        if told:
            self.tell("output", {"category": "stderr", "output": told.replace("ga144: ", "")})
        self.tell("initialized")

    def do_configurationDone(self):
        if self.is_configured:
            raise Refused("configurationDone: it is done")
        self.is_configured = True
        self.respond()
        self.tell_threads()
        if self.stops_on_entry:
            self.tell_stopped(self.first(), "entry", "at load")
        else:
            self.go(None, lambda told, touched: False)

    def do_disconnect(self):
        self.is_over = True
        self.respond()

    def do_terminate(self):
        self.respond()
        self.tell("terminated")

    def do_pause(self):
        """Nothing runs between two requests in this model."""
        self.respond()

    # ---- breakpoints

    def do_setExceptionBreakpoints(self):
        if not set(FILTERS).issuperset(self.arguments["filters"]):
            raise Refused("setExceptionBreakpoints: the filters are stop, stuck and broken")
        self.filters = set(self.arguments["filters"])
        self.respond()

    def do_setBreakpoints(self):
        if self.arguments["source"].get("path") == self.shown.path:
            return self.set_points("lines", "no code stands on this line or behind it", self.on_line)
        elsewhere = {"message": "the program is another file", "verified": False}
        return self.respond({"breakpoints": [elsewhere for _ in self.arguments.get("breakpoints", [])]})

    def do_setFunctionBreakpoints(self):
        self.set_points("functions", "no node has this label", self.at_label)

    def do_setInstructionBreakpoints(self):
        self.set_points("instructions", "no such memory", self.at_address)

    def do_setDataBreakpoints(self):
        self.set_points("data", "no such cell of RAM", self.of_cell)

    def set_points(self, kind, why, place):
        """Replaces the breakpoints of a kind by the requested ones, with a number each. `place` gives the place of one, and its response."""
        self.points, told = [it for it in self.points if it["set"] != kind], []
        for asked in self.arguments.get("breakpoints", []):
            self.ids += 1
            found, more = place(asked) or (None, {})
            label = lambda text: self.notes.address(found["node"], text)
            test, fault = asked_with(asked, len(self.points), label) if found else (None, why)
            told.append({"id": self.ids} | ({"message": fault, "verified": False} if fault else {"verified": True} | more))
            self.points += [] if fault else [found | test | {"id": self.ids, "set": kind}]
        self.respond({"breakpoints": told})

    def on_line(self, asked):
        at = self.notes.stands(asked["line"])
        return at and ({"node": at[1], "spot": at[2]}, {"line": int(at[0]), "source": self.shown.source})

    def at_label(self, asked):
        found = re.fullmatch("(?:([0-7](?:0[0-9]|1[0-7]))[: ])?(.*)", asked["name"])
        for node, names in self.notes.names.items():
            for label, cell in names:
                if label == found[2] and found[1] in (None, name(node)):
                    return cell is not None and ({"node": node, "spot": (cell, 0)}, {})
        return None

    @staticmethod
    def at_address(asked):
        at = address_in(asked["instructionReference"])
        address = at and (at[1] + asked.get("offset", 0)) % ADDRESSES
        return at and address < 256 and ({"node": at[0], "spot": (cell_of(address), 0)}, {})

    @staticmethod
    def of_cell(asked):
        at = address_in(asked["dataId"])
        return at and at[1] < 128 and ({"node": at[0], "cell": at[1] % 64}, {})

    def do_dataBreakpointInfo(self):
        at = divmod(self.arguments.get("variablesReference", 0) - 1, 8)
        cell = re.fullmatch(r"\[([0-9a-fA-F]{2})\]", self.arguments["name"])
        if not cell or int(cell[1], 16) > 127 or at[1] != SCOPES["RAM"] or not 0 <= at[0] < NODES:
            return self.respond({"dataId": None, "description": "only cells of RAM are watched"})
        where = {"dataId": address_of(at[0], int(cell[1], 16)), "description": f"node {name(at[0])}, cell {cell[1].lower()}"}
        return self.respond(where | {"accessTypes": ["write"], "canPersist": True})

    def does(self, point, node, step):
        """Whether a step of a node is one by which it comes to a breakpoint (a slot that it executed, a transferred word, or
        its first fetch: it was there at load), or writes a watched cell."""
        told, kept = self.machine.kept[node][step][0], self.machine.kept[node]
        if point["node"] != node:
            return False
        if point["set"] == "data":
            return self.machine.wrote(kept[step - 1][1], told, point["cell"])
        begins = step == 1 and told.endswith(" fetch")
        return (told.startswith("pass ") or " run " in told or begins) and self.machine.spot(node, step) == point["spot"]

    def meets(self, point, node, step):
        """Whether that step hits the breakpoint: the node meets its condition after it."""
        return self.does(point, node, step) and point["test"](self.machine.kept[node][step][1], step)

    def halts(self, point, node, step):
        """Whether the hit condition selects that hit, by the number of steps of the history that hit the breakpoint up to it."""
        return self.meets(point, node, step) and point["count"](lambda: sum(self.meets(point, node, it) for it in range(1, step + 1)))

    def hits(self, touched):
        """The breakpoints that the newest event hits, by their hit conditions."""
        return [it for it in self.points if any(self.halts(it, node, self.machine.steps[node]) for node in touched)]

    # ---- what is shown

    def do_threads(self):
        self.respond(self.shown.threads())

    def do_stackTrace(self):
        self.respond(self.shown.stack(self.node(), self.arguments.get("startFrame", 0), self.arguments.get("levels", 0)))

    def do_scopes(self):
        node = node_of_frame(self.arguments.get("frameId"))
        if node is None:
            raise Refused("scopes: no such frame")
        self.respond(self.shown.scopes(node))

    def do_variables(self):
        reference = self.arguments.get("variablesReference") - 1
        node, scope = divmod(reference, 8)
        if not (0 <= node < NODES and scope < 6):
            raise Refused("variables: no such reference")
        if self.arguments.get("filter") == ("named" if scope > 3 else "indexed"):
            return self.respond({"variables": []})
        return self.respond(self.shown.variables(node, scope, self.arguments.get("start", 0), self.arguments.get("count", 0)))

    def do_exceptionInfo(self):
        self.respond(self.shown.exception(self.node()))

    def do_disassemble(self):
        at = address_in(self.arguments["memoryReference"])
        if not at:
            raise Refused("disassemble: no such memory")
        first, count = at[1] + self.arguments.get("offset", 0) + self.arguments.get("instructionOffset", 0), self.arguments["instructionCount"]
        if count > ADDRESSES:
            raise Refused(f"disassemble: {ADDRESSES} instructions at most")
        self.respond(self.shown.disassembled(at[0], first % ADDRESSES, count))

    # ---- moves

    def event(self, first=None):
        """The next event, of one node while it has one: its text and nodes, or None and why there is none."""
        machine = self.machine
        node = first if first is not None and machine.next(first) else next_node(machine, self.order, self.turn, self.state)
        if node is None:
            return None, "quiet"
        told = machine.step(node)
        if told.startswith("no "):
            return None, "full"
        if self.order == "random":
            self.state = mixed(self.state)[1]
        else:
            self.turn = node if self.order == "greedy" else (node + 1) % NODES
        return told, machine.events[-1]

    def go(self, first, reached):
        """Makes events up to a breakpoint, a stop, the end of a move, or until there is none, and reports why it ends there. It makes none if
        a deadlock wasn't reported."""
        made, before = 0, set(self.machine.stuck())
        if self.tells_stuck(self.reported):
            return None
        self.reported = before if "stuck" in self.filters else set()
        expected = self.machine.expected if "broken" in self.filters else SessionExpectations([])
        while True:
            held = {it: self.machine.chip[it].copy() for it in expected.written(number_of)}
            told, touched = self.event(first)
            if told is None:
                break
            made += 1
            hits = self.hits(touched)
            stops = re.fullmatch("(...) [0-9]+ stop [0-9]", told)
            if hits:
                what = ("data breakpoint", "a watched cell was written") if hits[0]["set"] == "data" else ("breakpoint", "breakpoint")
                return self.stands(hits[0]["node"], *what, [it["id"] for it in hits])
            if stops and ("stop" in self.filters or NODE_NAMES[stops[1]] == first):
                node = NODE_NAMES[stops[1]]
                return self.stands(node, "exception", f"node {name(node)} {self.shown.does(node)}")
            line = expected.line_broken_by(self.machine, told, held)
            if line is not None:
                return self.stands(touched[-1], "exception", f"the expectation of line {line} is broken")
            if reached(told, touched):
                return None if self.tells_stuck(before) else self.stands(first, "step", "step")
            if made % SLICE == 0:
                if self.tells_stuck(before):
                    return None
                before = set(self.machine.stuck())
                self.reported = before if "stuck" in self.filters else set()
        if touched == "quiet" and self.tells_stuck(before):
            return None
        return self.stands(self.first(), "pause", "quiet: no node has an event" if touched == "quiet" else FULL)

    def tells_stuck(self, known):
        """Reports the first shown node that is deadlocked, isn't stopped, and is not among those known, if there is one."""
        found = self.machine.stuck() if "stuck" in self.filters else []
        node = next((it for it in found if it not in known and self.shown.has_thread(it) and not self.machine.chip[it].stop), None)
        if node is None:
            return False
        self.reported = set(found)
        self.stands(node, "exception", f"node {name(node)} {self.shown.does(node)}, and can never go on")
        return True

    def stands(self, node, reason, description, hits=()):
        self.tell_threads()
        self.tell_stopped(node, reason, description, hits)

    def mover(self):
        """The node that is to make steps."""
        node = self.node()
        if self.machine.chip[node].stop:
            raise Refused(f"{self.command}: the node is stopped")
        return node

    def by_line(self):
        return self.by_lines and self.arguments.get("granularity") != "instruction"

    def do_continue(self):
        self.respond({"allThreadsContinued": True})
        self.go(None, lambda told, touched: False)

    def do_next(self):
        self.step(True)

    def do_stepIn(self):
        self.step(False)

    def step(self, over):
        node = self.mover()
        self.respond()
        began = self.machine.steps[node]
        by_line = self.by_line()

        def reached(told, touched):
            if node not in touched:
                return False
            if over and any(it > began for it in self.machine.calls(node)):
                return False
            return not by_line or self.shown.begins(node, self.machine.steps[node], began)

        self.go(node, reached)

    def do_stepOut(self):
        node = self.mover()
        calls = self.machine.calls(node)
        if not calls:
            raise Refused("stepOut: the node is in no call that is kept")
        self.respond()
        self.go(node, lambda told, touched: calls[0] not in self.machine.calls(node))

    def gone_back(self, node, keeps, reason=None):
        """Rolls back the steps of a node after the first `keeps`, and reports all removed steps."""
        before = list(self.machine.steps)
        said = self.machine.rewind(node, keeps + 1) if keeps < before[node] else f"removed 0 kept {len(self.machine.events)}"
        lines = [f"rewind {name(node)} {self.machine.steps[node] + 1}: {said}\n"]
        for other in range(NODES):
            if other != node and self.machine.steps[other] < before[other]:
                lines.append(f"  with it {name(other)} {self.machine.steps[other] + 1} to {before[other]}\n")
        self.respond()
        self.tell("output", {"category": "console", "output": "".join(lines)})
        self.stands(node, reason or ("breakpoint" if self.machine.steps[node] else "entry"), "gone back")

    def do_stepBack(self):
        node = self.node()
        self.gone_back(node, self.shown.line_back(node) if self.by_line() else max(self.machine.steps[node] - 1, 0), "step")

    def do_reverseContinue(self):
        """To after the newest step but the last by which the node came to a breakpoint, or to before one by which it wrote a watched cell."""
        node, keeps = self.node(), 0
        for step in range(1, self.machine.steps[node] + 1):
            for point in (it for it in self.points if self.halts(it, node, step)):
                keeps = max(keeps, step - 1 if point["set"] == "data" else step if step < self.machine.steps[node] else 0)
        self.gone_back(node, keeps)

    def do_evaluate(self):
        text = self.arguments["expression"].strip(" \t\n\r\f")
        node = node_of_frame(self.arguments.get("frameId"))
        node = self.first() if node is None else node
        value = self.shown.value(node, text)
        if value is not None:
            return self.respond({"result": value, "variablesReference": 0})
        if self.arguments.get("context", "repl") != "repl":
            raise Refused("evaluate: no register and no cell")
        if text == "quit":
            raise Refused("evaluate: disconnect ends the session")
        said = answer(self.machine, text)
        self.respond({"result": said, "variablesReference": 0})
        if CLASSES.get(text.split(" ")[0]) == CHANGE and not said.startswith("no "):
            self.stands(node, "goto", "by a command")
        return None
