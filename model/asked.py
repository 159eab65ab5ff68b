"""Generated sessions of an editor: requests by a seed, each with the messages in answer by the reference model."""

import random

from client import demand, text_of
from conditions import generated_test
from editing import Session
from exploring import expected_lines
from files import load_of
from listing import NAMES
from machine import name
from node import neighbour
from shown import SIDE_NAMES, address_of, node_of_thread, op_of, thread_of
from source import asm

BODIES = ("5 2*", "4 a!", "dup 3 b! !b", "dup +", "over over +", "drop dup", "push pop", "7 . -", "2* 2/ dup", "dup or", "1 +")
LOOPS = ("2 for\n  {}\n  next", "3 for\n  dup\n  unext", "1 for dup unext", "dup if\n  {}\n  then", "dup -if {} else\n  {} then", "begin\n  {}\n  dup if drop {} then 0 until")


# Three nodes that hand words on and never wait for ever: of each its sides, and what it says once in a round.
FLOW = (("node 000\n/b right", "dup !b"), ("node 001\n/a right\n/b left", "@ dup !b"), ("node 002\n/a left", "@ drop"))


class Generator:
    """Requests by a seed, over a small program of some nodes beside one another: lines with loops, calls, words that go over, and stops. Each
    third session is of lines forward and back, and its nodes never wait for ever."""

    def __init__(self, number):
        self.random, self.expected = random.Random(number), random.Random(f"expected {number}")
        self.is_free = number % 3 == 0

    def body(self, name, depth=1):
        draw = self.random.random()
        if draw < 0.25 and depth:
            shape = self.random.choice(LOOPS)
            return shape.format(*(self.body(name, depth - 1) for _ in range(shape.count("{}"))))
        if draw < 0.4:
            return self.random.choice(("one", "two one", "one\n  two") if name == "main" else ("two",) if name == "one" else ("dup",))
        if draw < 0.6:
            return self.random.choice(("@", "dup !b", "dup ! @b", "dup\n  !b"))
        return self.random.choice(BODIES)

    def word(self, name, *ends):
        lines = [self.body(name) for _ in range(self.random.choice((1, 2, 3)))]
        stop = ["0x150 a! !"] if self.random.random() < 0.06 else []
        return [f": {name} {lines[0]}"] + [f"  {it}" for it in lines[1:] + stop] + [f"  {self.random.choice(ends)}"]

    def lines(self, calls, depth=2):
        """Lines that leave the data stack as it was."""
        found = []
        for _ in range(self.random.randrange(1, 4)):
            draw = self.random.random()
            if draw < 0.3 and depth:
                inner = self.lines(calls, depth - 1)
                found += self.random.choice((
                    ["2 for", *inner, "next"], ["1 for", *inner, "2* next"], ["3 for dup unext drop"], ["2 for", "dup drop", "unext"],
                    ["dup 1 and if", *inner, "then drop"], ["dup -if drop", *inner, "dup then drop"], ["begin", *inner, "1 until drop"],
                ))
            else:
                found.append(self.random.choice((*calls * 2, "dup drop", "5 push pop drop", "dup 2* drop dup drop", "7", "drop", "dup\n  drop . .")))
        return found

    def flowing(self):
        """Nodes that hand words on, with loops and calls, over lines as they come."""
        lines = []
        for begins, each in FLOW:
            lines += [begins, ": main 0", ": more", "1 +", *self.lines(["one", "two", "one two"]), each, *self.lines(["one"]), "more ;"]
            lines += [": one", *self.lines(["two", "two two"], 1), self.random.choice((";", "two ;", "two\n  ;"))]
            lines += [": two", "dup", *self.lines(["three"], 1), "drop", ";", ": three dup", "drop ;"]
        return "\n".join(it if it.startswith(("node", ":")) else f"  {it}" for it in lines) + "\n"

    def text(self):
        """A source, or now and then its image."""
        if self.is_free:
            return self.flowing()
        source = self.source()
        if self.random.random() > 0.9:
            return asm(source)[0]
        if self.expected.random() < 0.1:
            return source
        lines = expected_lines(self.expected, load_of(asm(source)[0].splitlines()))
        nodes = [it.split()[1] for it in source.splitlines() if it.startswith("node ")]
        lines.append(f"expect never reach {self.expected.choice(nodes)} {self.expected.choice(('one', 'two'))}")
        return source + "".join(f"{it}\n" for it in lines)

    def source(self):
        lines = []
        for node in self.random.choice(((0, 1), (0, 1, 2), (1, 19), (20, 21, 38))):
            beside = [label for side, label in SIDE_NAMES.items() if neighbour(node, side) is not None]
            lines += [f"node {name(node)}", f"/a {self.random.choice(beside)}", f"/b {self.random.choice(beside)}"]
            lines += ["/p right"] if self.random.random() < 0.05 else []
            lines += self.word("main", *["main ;"] * 7, f"{beside[0]} push ;") + self.word("one", ";")
            lines += self.random.choice(([], ["org 0x80"], [": data 7 , -1 ,"])) + self.word("two", ";", "dup ;", "dup ;", "ex dup ;")
        return "\n".join(lines) + "\n"

    def move(self, thread, is_full, is_within):
        """A move of a node; back, where no more events can be kept, and often out of a call where it is within some."""
        if is_within and self.random.random() < 0.4:
            return "stepOut", {"threadId": thread}
        back = (("stepBack", "line"), ("stepBack", None), ("stepBack", "instruction"), ("reverseContinue", None))
        forward = (("next", "line"), ("next", None), ("next", "instruction"), ("stepIn", "line"), ("stepIn", None), ("stepIn", "instruction"), ("stepOut", None), ("continue", None))
        command, grain = self.random.choice(back if is_full else forward + back)
        return command, {"threadId": thread} | ({"granularity": grain} if grain else {})

    def look(self, thread):
        node = node_of_thread(thread) or 0
        draw = self.random.randrange
        context = {} if draw(4) == 0 else {"context": "watch" if draw(6) == 0 else "repl"}
        return self.random.choice((
            ("threads", None),
            ("stackTrace", {"threadId": thread, "startFrame": draw(3), "levels": draw(4)}),
            ("scopes", {"frameId": 16 * node + draw(18)}),
            ("variables", {"variablesReference": 1 + 8 * node + draw(8), "start": draw(70), "count": draw(6)}),
            ("variables", {"variablesReference": 1 + 8 * node + draw(4)}),
            ("disassemble", {"memoryReference": address_of(node, draw(8) + draw(2) * 0x80), "offset": draw(9) - 4, "instructionOffset": draw(5) - 2, "instructionCount": draw(20)}),
            ("dataBreakpointInfo", {"variablesReference": 1 + 8 * node + self.random.choice((4, 4, 4, draw(8))), "name": self.random.choice(("[05]", "[3f]", "[43]", "[8A]", "t"))}),
            ("exceptionInfo", {"threadId": thread}),
            ("pause", {"threadId": thread}),
            ("evaluate", {"expression": self.random.choice(("t", "[05]", "[43]", "[80]", "[C1]", " slot\t", "state", "who", "chip", "count", f"whence {name(node)} last", f"at {name(node)} 2", "zzz", "step 001", "back", "run 3", f"rewind {name(node)} 2")), "frameId": 1 + 16 * node, **context}),
        ))


# Breakpoints of a generated session, except those on lines: the request, the member that names one, and some names.
ASKED = (
    ("setFunctionBreakpoints", "name", ("one", "000 main", "001:two", "102 one", "foo")),
    ("setDataBreakpoints", "dataId", ("0x000005", "0x001043", "0x102000", "0x001080")),
    ("setInstructionBreakpoints", "instructionReference", ("0x000002", "0x001001", "0x102081", "0x018000")),
)


def asked_of(number, path, can):
    """The requests of a generated session with the messages of each, as this model answers them; and what the nodes did on lines that were
    then undone. `can` says which requests are allowed. Each third session has only such lines."""
    make, session, found, mirrored = Generator(number), Session(), [], set()

    def ask(command, arguments=None):
        if not can(command):
            return [{}]
        found.append(({"command": command} | ({"arguments": arguments} if arguments is not None else {}), messages_of(session, command, arguments)))
        return session.out

    draw, is_free = make.random, make.is_free
    ask("initialize", {"adapterID": "ga144"})
    limit, order, seed = 4000 if is_free else draw.choice((20, 200, 400)), draw.choice(("rounds", "greedy", "random")), draw.randrange(1 << 30)
    stands = {"stopOnEntry": False} if not is_free and draw.random() < 0.2 else {}
    ask("launch", {"program": path, "limit": limit, "order": order, "seed": seed} | stands)
    if not is_free:
        ask_for_breakpoints(path, ask, draw)
    if is_free or draw.random() < 0.8:
        ask("setExceptionBreakpoints", {"filters": [] if is_free else draw.choice((["stop", "stuck"], ["stuck"], ["stop", "broken"], ["broken"], ["stuck", "broken"], ["stop", "stuck", "broken"], []))})
    ask("configurationDone")
    for _ in range(6 if is_free else 14):
        nodes = session.shown.nodes()
        thread = thread_of(draw.choice(nodes)) if nodes and draw.random() < 0.97 else 999
        machine, node = session.machine, node_of_thread(thread)
        if not is_free:
            ask(*make.move(thread, len(machine.events) == machine.limit, node is not None and len(machine.calls(node)) > 1))
            ask("evaluate", {"expression": "dump", "context": "repl"})
            ask("stackTrace", {"threadId": thread})
            ask(*make.look(thread))
        if thread != 999 and can("stepBack") and (is_free or draw.random() < 0.3):
            mirrored |= mirror(session, ask, node, draw.randrange(2, 12))
    ask("evaluate", {"expression": "save", "context": "repl"})
    ask("terminate")
    return found, mirrored


# Hit conditions of generated sessions.
COUNTS = ("1", "2", "3", "5", "% 2", "% 3", ">= 2", ">= 4", "0", "%2")


def conditions(draw):
    """Now and then a condition, and a hit condition."""
    found = {"condition": generated_test(draw)} if draw.random() < 0.3 else {}
    return found | ({"hitCondition": draw.choice(COUNTS)} if draw.random() < 0.3 else {})


def ask_for_breakpoints(path, ask, draw):
    lines = [{"line": draw.randrange(1, 50)} | conditions(draw) for _ in range(draw.randrange(6))]
    ask("setBreakpoints", {"source": {"path": path}, "breakpoints": lines})
    for command, member, some in ASKED:
        if draw.random() < 0.3:
            offset = {"offset": draw.randrange(-3, 4)} if "Instruction" in command and draw.random() < 0.5 else {}
            ask(command, {"breakpoints": [{member: it} | offset | conditions(draw) for it in draw.sample(some, 2)]})


def mirror(session, ask, node, count):
    """Some lines of a node forward, and back: the place must be the same, as long as calls are left by `;` alone, and none that was
    open. Returns what the node did on the lines that were undone."""
    machine, shown, stood, did = session.machine, session.shown, [], set()
    open_calls = machine.calls(node)
    if machine.steps[node] and not shown.begins(node, machine.steps[node]):
        ask("next", {"threadId": thread_of(node)})
        return did
    for _ in range(count):
        here = machine.steps[node], shown.frame(node, 0, machine.spot(node, machine.steps[node]))
        if ask("next", {"threadId": thread_of(node)})[-1].get("body", {}).get("reason") != "step":
            break
        left = [it for it in range(here[0], machine.steps[node]) if machine.leaves_call(node, it + 1)]
        if left or [it for it in open_calls if it not in machine.calls(node)]:
            return set()
        did |= {done(machine.kept[node][it + 1][0]) for it in range(here[0], machine.steps[node])}
        stood.append(here)
        ended = machine.steps[node]
    if not stood or machine.steps[node] != ended:
        return set()
    for here in reversed(stood):
        ask("stepBack", {"threadId": thread_of(node)})
        now = machine.steps[node], shown.frame(node, 0, machine.spot(node, machine.steps[node]))
        demand(now == here, f"forward and back over lines: {here} and then {now}")
    return did


def done(told):
    """What a step did: the name of an opcode, pass, fetch, wait or stop."""
    code = op_of(told)
    return NAMES[code] if code is not None else told.split(" ")[0] if told.startswith("pass ") else told.split(" ")[2]


def messages_of(session, command, arguments):
    """The answers of this model, as texts."""
    return [text_of(it) for it in session.answer(command, arguments)]
