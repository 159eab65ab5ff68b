"""A session of `ga144 explore`: the replay machine of machine.py with the commands of docs/REFERENCE.md, "Exploring"."""

import re

from conditions import SIGN, SIGNS, number_in, test_in, value_of
from expecting import SessionExpectations
from listing import NAMES
from machine import Machine, NODES, name
from node import FETCH_DUE, Node, SIDES, neighbour, target_of
from notes import Notes
from whence import LOADED, MOST as MOST_LINES, asked_of, held_after, lines_of, queried_word, tested_by, word_in

NODE, W, HH = "[0-7](?:0[0-9]|1[0-7])", "0[0-3][0-9a-fA-F]{4}", "[0-9a-fA-F]{2}"
NUMBER = "(?:0|[1-9][0-9]{0,9})"
STEP, PLACE = f"(?:{NUMBER}|last)", f"(?:line {NUMBER}|[^ ]+)"
MOST = (1 << 32) - 1
LONGEST = 200
STORES = {"0c": ("!p", "p"), "0d": ("!+", "a"), "0e": ("!b", "b"), "0f": ("!", "a")}
CONDITION = re.compile(
    rf"pass {NODE} {NODE} (?:{SIGN} (?P<passed>.+)|{NUMBER})|step {NODE} {NUMBER}|stop|stop {NODE}|wait {NODE}|mem (?P<of>{NODE}) {HH} = (?P<held>.+)|p {NODE} {PLACE}"
    rf"|broken|reach {NODE} {PLACE}|change (?P<in>{NODE}) {HH}(?: = (?P<stored>.+))?|(?P<node>{NODE}) (?P<test>.+)", re.DOTALL
)
MOST_CONDITIONS = 8
RUN = re.compile(rf"run(?: (greedy|random ({NUMBER})))?(?: ({NUMBER}))?(?: until (.+))?")
BACK = re.compile(rf"back (?:({NODE}) )?until (.+)")
# The commands in the order of `help`: the form of each, its class, what `help` says of it, and what `help` of this one says besides: what it
# answers, and an example. One of exploring has how often it comes in generated sessions, of about 1000 lines.
COMMANDS = []
# A query changes nothing; a change makes events or removes some.
QUERY, CHANGE = "query", "change"


def command(*row):
    """The row of the command that is answered by the method below, `answer_NAME` if its form alone spells it."""
    COMMANDS.append(row)
    return lambda method: method


# what the words of a form mean, with an example; one in brackets may be missing
VALUE = "VALUE"
KINDS = {
    "NNN": (NODE, "000"), "MMM": (NODE, "001"), "K": (STEP, "1"), "HH": (HH, "00"), "N": ("[1-9]?[0-9]", "2"), "L": ("[1-9][0-9]{0,9}", "1"),
    "COMMAND": (".+", "why"), VALUE: (rf"[tsrpabi]|d[2-9]|r[1-8]|io|carry|slot|\[{HH}\]", "[00]"),
}  # fmt: skip
FEW = 3


def parts_of(form):
    """The command of a form, and its arguments. One in brackets may be missing; a word in lower case is literal."""
    return re.findall(r"\[[^]]*\]|[^ ]+", form)


def spelled(form):
    """The lines of a form, and the kinds of its arguments."""
    command, *parts = parts_of(form)
    words = [part.strip("[]").split(" ") for part in parts]
    patterns = ("".join(f" {word}" for word in before) + f" ({KINDS[kind][0]})" for *before, kind in words)
    return re.compile(command + "".join(f"(?:{pattern})" + "?" * part.startswith("[") for pattern, part in zip(patterns, parts))), [it[-1] for it in words]


def distance(one, other):
    """How many letters are to be inserted, dropped or changed, or exchanged with the next one, to make one word of the other."""
    rows = [list(range(len(other) + 1))]
    for at, letter in enumerate(one, 1):
        row = [at]
        for to, its in enumerate(other, 1):
            row.append(min(rows[-1][to] + 1, row[-1] + 1, rows[-1][to - 1] + (letter != its)))
            if at > 1 and to > 1 and letter == other[to - 2] and one[at - 2] == its:
                row[-1] = min(row[-1], rows[-2][to - 2] + 1)
        rows.append(row)
    return rows[-1][-1]


def cure(line):
    """What to write in place of a line that is no command. Bytes are the characters of Latin-1."""
    word = line.split(" ")[0]
    if line.startswith("\xef\xbb\xbf"):
        return "a byte order mark stands before the command; leave it out"
    if line.endswith("\r"):
        return "a carriage return ends the line; end it with a line feed alone"
    if re.search("^[ \t]|[ \t]\\Z", line):
        return "a blank stands at an end of the line; leave it out"
    if re.search("[A-Z]", word):
        return "the command is in upper case; write it in lower case"
    return FORMS.get(word) or next((form for name, form in FORMS.items() if distance(word, name) <= 1), "help")


def number_of(text):
    """The node of a name."""
    return 18 * int(text[0]) + int(text[1:])


def waiting(number):
    """A node into which nothing was loaded, after the event by which it comes to wait for code."""
    node = Node(number)
    node.own(None)
    return node


def cell_of(part):
    """The cell that a part names, or None."""
    return target_of(int(part, 16)) if re.fullmatch("[0-9a-f]{2}", part) else None


def mixed(state):
    """A word of SplitMix64, and the state after it."""
    state = (state + 0x9E3779B97F4A7C15) % (1 << 64)
    word = state
    word = (word ^ word >> 30) * 0xBF58476D1CE4E5B9 % (1 << 64)
    word = (word ^ word >> 27) * 0x94D049BB133111EB % (1 << 64)
    return word ^ word >> 31, state

def next_node(machine, order, turn, state):
    """The node, of those that have an event, that makes the next one: the first from the turn on, round the chip, or one that is drawn."""
    if order == "random":
        nodes = [it for it in range(NODES) if machine.next(it) is not None]
        return nodes[mixed(state)[0] % len(nodes)] if nodes else None
    return next((it % NODES for it in range(turn, turn + NODES) if machine.next(it % NODES) is not None), None)

class Explorer(Machine):
    notes = Notes()
    expected = SessionExpectations([])
    # what is the case, or what to do, where a command is refused
    NOTHING_EXPECTED = "no 35 noexpect: the source has no line expect; write one, as expect 001 t = 3"
    FULL = "give a greater --limit; or save, dump, and go on from the dump"
    ADVICE = {
        "no 1 waiting": "who shows for whom it waits",
        "no 2 stopped": "whence NNN last shows why",
        "no 3 full": FULL,
        "no 5 empty": "the history has no event",
    }

    def advised(self, answer):
        return f"{answer}: {self.ADVICE[answer]}" if answer in self.ADVICE else answer

    def missing_step(self, node):
        count = self.steps[node]
        return f"no 6 nostep: {name(node)} has {count} {'step' if count == 1 else 'steps'}"

    def step(self, node):
        return self.advised(super().step(node))

    def back(self):
        return self.advised(super().back())

    def rewind(self, node, step):
        return self.missing_step(node) if self.place(node, step) is None else super().rewind(node, step)

    def why(self, node, step, other, other_step):
        lacking = next((at for at, its in ((node, step), (other, other_step)) if self.place(at, its) is None), None)
        return super().why(node, step, other, other_step) if lacking is None else self.missing_step(lacking)

    def explored(self, line):
        """The answer to a command of exploring, or None."""
        if len(line) > LONGEST or any(int(it) > MOST for it in re.findall("[0-9]{10,}", line)):
            return None
        command = line.split(" ")[0]
        if hasattr(self, f"answer_{command}"):
            pattern, kinds = spelled(FORMS[command])
            asked = pattern.fullmatch(line)
            return asked and getattr(self, f"answer_{command}")(*self.meant(kinds, asked.groups()))
        found, back = RUN.fullmatch(line), BACK.fullmatch(line)
        until = back[2] if back else found and found[4]
        conditions = until.split(" or ") if until else []
        if not (found or back) or len(conditions) > MOST_CONDITIONS or not all(map(self.is_condition, conditions)):
            return None
        if "broken" in conditions and not self.expected.lines:
            return self.NOTHING_EXPECTED
        if back:
            return self.back_until(back[1] and number_of(back[1]), conditions)
        order, seed, most, _ = found.groups()
        return self.run(order and order.split(" ")[0], seed and int(seed), int(most) if most else MOST, conditions)

    def meant(self, kinds, words):
        """What the arguments of a command mean, by their kinds; `last` is a step of the node before it."""
        given = []
        for kind, word in zip(kinds, words):
            if kind == "N":
                given.append(FEW if word is None else int(word))
            elif kind == "L":
                given.append(int(word or 1))
            elif kind == "K":
                given.append(self.steps[given[0]] if word == "last" else int(word))
            elif kind == "HH":
                given.append(int(word, 16))
            elif kind == VALUE:
                given.append(word and word.lower())
            else:
                given.append(number_of(word) if word and kind != "COMMAND" else word)
        return given

    def is_condition(self, text):
        kind, *words = text.split(" ")
        said = CONDITION.fullmatch(text)
        if said and said["test"] is not None:
            return self.test(said["node"], said["test"])[0] is not None
        if said and said["passed"] is not None:
            return self.is_word(None, said["passed"])
        for node, word in (("of", "held"), ("in", "stored")):
            if said and said[word] is not None:
                return self.is_word(said[node], said[word])
        return bool(said) and (kind not in ("p", "reach") or self.address(*words) is not None)

    def label(self, node):
        """The addresses of a node's labels."""
        return lambda text: node and self.notes.address(number_of(node), text)

    def number(self, node, text):
        return number_in(text, self.label(node))

    def is_word(self, node, text):
        number = self.number(node, text)
        return number is not None and number < 1 << 18

    def test(self, node, text):
        return test_in(text, self.label(node))

    def written(self, conditions):
        """The nodes whose writes some conditions ask for."""
        asked = [number_of(condition.split(" ")[1]) for condition in conditions if condition.startswith("change ")]
        return asked + (self.expected.written(number_of) if "broken" in conditions else [])

    @command(
        "run [greedy|random SEED] [N] [until COND]", CHANGE,
        "make up to N events, in rounds or in this order\n"
        "COND: NNN VALUE OP N, pass NNN MMM OP N, pass NNN MMM J, step NNN K, stop, stop NNN,\n"
        "      wait NNN, mem NNN HH = N, p NNN X, reach NNN X, change NNN HH [= N], broken, COND or COND\n"
        "VALUE: t s r p a b i, d2 to d9, r1 to r8, io, slot, carry, step, [HH]\n"
        "OP: = != < <= > >=   N: a number, a port, a label   X: an address, a label, line N",
        "reached M EVENT, made M, quiet M or full M: how many events, and why no more", "run 1000 until stop or 001 t = 0x150", 230,
    )  # fmt: skip
    def run(self, order, seed, most, conditions):
        turn, state = 0, seed
        written = self.written(conditions)
        for made in range(most):
            node = next_node(self, order, turn, state)
            if node is None:
                return f"quiet {made}"
            if len(self.events) == self.limit:
                return f"full {made}: {self.FULL}"
            before = {it: self.chip[it].copy() for it in written}
            told = self.step(node)
            held = next((number for number, condition in enumerate(conditions, 1) if self.holds(condition, told, before)), None)
            if held:
                return f"reached {made + 1}{f' by {held}' if len(conditions) > 1 else ''} {told}"
            if order == "random":
                state = mixed(state)[1]
            else:
                turn = node if order == "greedy" else (node + 1) % NODES
        return f"made {most}"

    def holds(self, condition, told, before):
        """Whether a condition holds right after the event with this text; `before` has some nodes as they were before it."""
        if condition == "broken":
            return self.expected.line_broken_by(self, told, before) is not None
        kind, *words = condition.split(" ")
        event = told.split(" ")
        own = event[0] != "pass"
        if kind == "pass" and (own or (event[1], event[3]) != (words[0], words[1])):
            return False
        if kind == "pass" and len(words) == 3:
            return len(self.sent(*map(number_of, words[:2]))) == int(words[2])
        if kind == "pass":
            return SIGNS[words[2]](int(event[5], 16), self.number(None, words[3]))
        if kind == "step":
            ends = [event[:2]] if own else [event[1:3], event[3:5]]
            return words in ends
        if kind in ("stop", "wait"):
            return own and event[2] == kind and (not words or event[0] == words[0])
        if re.fullmatch(NODE, kind):
            node = number_of(kind)
            return self.test(kind, " ".join(words))[0](self.chip[node], self.steps[node])
        node = number_of(words[0])
        asked = self.number(words[0], " ".join(words[3:])) if kind in ("mem", "change") and words[3:] else None
        if kind == "mem":
            return int(self.mem(node, int(words[1], 16)).split(" ")[3], 16) == asked
        if kind == "p":
            return self.chip[node].p == self.address(*words)
        if words[0] not in ([event[0]] if own else event[1:4:2]):
            return False
        if kind == "reach":
            it = self.chip[node]
            return not it.wait and not it.stop and it.slot == FETCH_DUE and it.p == self.address(*words)
        return self.wrote(before[node], told, int(words[1], 16)) and asked in (None, int(self.mem(node, int(words[1], 16)).split(" ")[3], 16))

    @staticmethod
    def wrote(before, told, address):
        """Whether an event of a node that was so before it wrote the cell at an address: by one of four opcodes."""
        store = STORES.get(told.split(" ")[-1]) if " run " in told else None
        return bool(store) and address < 0x80 and target_of(getattr(before, store[1])) == ("ram", address % 64)

    def address(self, node, word, line=None):
        """The address that a word, a label of the node or a line of its source names, or None."""
        if line is not None:
            return self.notes.begun(number_of(node), int(line))
        return int(word, 16) if re.fullmatch(W, word) else self.notes.address(number_of(node), word)

    def replayed(self, written):
        """The machine after each event, with the event and these nodes as they were before it."""
        again = Explorer(self.load, self.limit)
        again.notes, again.expected = self.notes, self.expected
        for event in self.events:
            again.events.append(event)
            before = {it: again.chip[it].copy() for it in written}
            again.apply(event)
            yield again, event, before

    def places_where(self, holds):
        """The places of the events after which this holds."""
        written = self.expected.written(number_of)
        return (place for place, (again, _, before) in enumerate(self.replayed(written)) if holds(again, again.told[-1], before))

    def back_until(self, only, conditions):
        """Undoes the newest event, of one node if one is named, after which one of the conditions held, and all later ones."""
        newest = None
        for place, (again, event, before) in enumerate(self.replayed(self.written(conditions))):
            if only in (None, *event) and any(again.holds(it, again.told[-1], before) for it in conditions if it != "broken"):
                newest = place
        if "broken" in conditions:
            newest = max((it for it in (newest, self.expected.newest_breach(self, only)) if it is not None), default=None)
        if newest is None:
            return "none"
        if only is not None:
            return self.rewind(only, sum(only in event for event in self.events[: newest + 1]))
        gone = len(self.events) - newest
        self.events = self.events[:newest]
        self.replay()
        return f"removed {gone} kept {newest}"

    def doing(self, node):
        it = self.chip[node]
        if not self.steps[node]:
            return "  ."
        if it.stop:
            return "  x"
        if not it.wait:
            return "  *"
        return " " + {"fetch": "@", "read": "?", "write": "!"}[it.wait[0]] + (it.wait[1] if len(it.wait[1]) == 1 else "+")

    @command(
        "chip", QUERY, "what each node does",
        "rows 7 to 0 of nodes: . made no step, * runs, x stopped, @ waits for code, ? reads, ! writes", "chip", 20,
    )  # fmt: skip
    def answer_chip(self):
        return "\n".join(f"{row}" + "".join(self.doing(18 * row + column) for column in range(18)) for row in range(7, -1, -1))

    def does(self, node):
        it = self.chip[node]
        if it.wait:
            return {"fetch": "fetches", "read": "reads", "write": "writes"}[it.wait[0]]
        return "stopped" if it.stop else "runs"

    def awaited(self, node):
        """The sides on which a node awaits a neighbour, with that one."""
        beside = [(side, neighbour(node, side)) for side in (self.chip[node].wait or ("", ""))[1]]
        return [(side, other) for side, other in beside if other is not None]

    def stuck(self):
        """The greatest set of nodes that wait or are stopped, await none but these and can pass one another no word."""
        marked = {node for node in range(NODES) if self.chip[node].wait or self.chip[node].stop}
        while True:
            ready = {event for event in map(self.next, marked) if event and set(event) <= marked}
            freed = {node for node in marked if any(other not in marked for side, other in self.awaited(node))}
            freed |= {event[0] for event in ready}
            if not freed:
                return sorted(marked)
            marked -= freed

    def idle(self):
        """The nodes into which nothing was loaded, and which kept nothing but the event by which they came to wait for code; and those that
        were loaded as they are after it, and kept none."""
        waits = [event[0] for event, told in zip(self.events, self.told) if told.endswith(" 1 wait")]
        idle = {node for node in waits if self.steps[node] == 1 and vars(self.load[node]) == vars(Node(node))}
        return idle | {node for node in range(NODES) if not self.steps[node] and vars(self.load[node]) == vars(waiting(node))}

    @command(
        "who", QUERY, "who waits for whom, and which nodes can never go on",
        "for each that waits what it does, and the nodes that it awaits; then stuck, ring, ended and idle", "who", 30,
    )  # fmt: skip
    def answer_who(self):
        return "\n".join(self.waiting())

    def waiting(self):
        idle, stuck = self.idle(), self.stuck()
        for node in range(NODES):
            if self.chip[node].wait and node not in idle:
                beside = "".join(f" {side} {name(other)} {self.does(other)}" for side, other in self.awaited(node))
                yield f"{name(node)} {self.does(node)}{beside}"
        ended, still = self.ended(), sum(node in idle for node in stuck)
        busy = [name(node) for node in stuck if node not in ended]
        if busy:
            yield " ".join(["stuck", *busy] + ([f"and {still} idle"] if still else []))
        yield from (" ".join(["ring", *map(name, ring)]) for ring in self.rings(stuck))
        over = [name(node) for node in stuck if node in ended and node not in idle]
        if over:
            yield " ".join(["ended", *over])
        if idle:
            yield f"idle {len(idle)}"

    def ended(self):
        """The least set of nodes that wait for code, or to read from nodes of the set alone."""
        ended, more = set(), {node for node in range(NODES) if self.chip[node].wait and self.chip[node].wait[0] == "fetch"}
        while more:
            ended |= more
            reading = [node for node in range(NODES) if node not in ended and self.chip[node].wait and self.chip[node].wait[0] == "read"]
            more = {node for node in reading if self.awaited(node) and all(other in ended for _, other in self.awaited(node))}
        return ended

    def rings(self, stuck):
        """The wait cycles of some nodes, each of which awaits only the next: each from its node of the lowest number on."""
        awaited = {node: [other for _, other in self.awaited(node)] for node in stuck}
        after = {node: others[0] for node, others in awaited.items() if len(others) == 1}
        for first in stuck:
            ring = [first]
            while after.get(ring[-1]) not in (None, *ring):
                ring.append(after[ring[-1]])
            if after.get(ring[-1]) == first and min(ring) == first:
                yield ring

    @command(
        "effects NNN K", QUERY, "what rewind NNN K would remove",
        "effects X N, and for each of N nodes its first step that it would remove, and their number", "effects 001 last", 50,
    )  # fmt: skip
    def answer_effects(self, node, step):
        place = self.place(node, step)
        if place is None:
            return self.missing_step(node)
        goes = self.dependents(place)
        left = [sum(at in event for event, gone in zip(self.events, goes) if not gone) for at in range(NODES)]
        tails = self.tails(self.followed()[0])
        firsts = [(at, left[at] + 1) for at in range(NODES) if left[at] < self.steps[at]]
        lines = [f"{name(at)} {first} {self.steps[at] - left[at]}{tails[at, first]}" for at, first in firsts]
        return "\n".join([f"effects {sum(goes)} {len(lines)}"] + lines)

    def sent(self, writer, reader):
        """The texts of the transfers from one node to another."""
        return [told for event, told in zip(self.events, self.told) if event == (writer, reader)]

    @command(
        "words NNN MMM", QUERY, "the words transferred from NNN to MMM",
        "words NNN MMM C, and for each of C words its number, the steps of both nodes and the word", "words 000 001", 60,
    )  # fmt: skip
    def answer_words(self, writer, reader):
        if all(neighbour(writer, side) != reader for side in SIDES):
            return "no 34 nolink: only neighbours pass words"
        sent = [told.split(" ")[1:] for told in self.sent(writer, reader)]
        lines = [" ".join([str(number)] + words) for number, words in enumerate(sent, 1)]
        return "\n".join([f"words {name(writer)} {name(reader)} {len(lines)}"] + lines)

    def passed_through(self, node):
        """The text of each step of a node, and the node before and after it."""
        again = Explorer(self.load, self.limit)
        for event in self.events:
            before = again.chip[node].copy()
            again.apply(event)
            if node in event:
                yield again.told[-1], before, again.chip[node].copy()

    @command(
        "writes NNN HH", QUERY, "the steps that wrote the cell HH of NNN, the newest first",
        "for each the step, the opcode and the word", "writes 001 20", 70,
    )  # fmt: skip
    def answer_writes(self, node, address):
        """The steps by which a node wrote a cell of its RAM: one of four opcodes, at an address that names the cell."""
        lines = []
        for step, (told, before, behind) in enumerate(self.passed_through(node), 1):
            if self.wrote(before, told, address):
                lines.append(f"{name(node)} {step} {STORES[told.split(' ')[-1]][0]} {before.d[0]:06x}")
        return "\n".join(reversed(lines))

    def tails(self, passed):
        """What the source says of the slot that each step ran, in the cell from which its word was fetched, by node and step."""
        cells, steps, tails = {}, {}, {}
        for event, told, before in passed:
            for node, held in zip(event, before):
                steps[node] = steps.get(node, 0) + 1
                if told.endswith(" fetch") or held.wait and held.wait[0] == "fetch":
                    cells[node] = target_of(held.p)
                tails[node, steps[node]] = self.notes.tail(node, cells.get(node), held.slot)
        return tails

    def deed(self, node, told):
        """What a step of a node did."""
        words = told.split(" ")
        if words[0] == "pass":
            _, writer, step, reader, its, word = words
            return f"takes {word} from {writer} {step}" if reader == name(node) else f"sends {word} to {reader} {its}"
        return NAMES[int(words[3], 16)] if words[2] == "run" else " ".join(words[2:])

    @command(
        "at NNN K [N]", QUERY, "N steps before and after step K of NNN, with registers",
        "for each the step, what it did, and the registers t, s, r, a, b and p after it", "at 001 last 5", 80,
    )  # fmt: skip
    def answer_at(self, node, step, around):
        if not 1 <= step <= self.steps[node]:
            return self.missing_step(node)
        lines, passed = [], list(self.passed_through(node))
        tails = self.tails(((node,), told, (before,)) for told, before, _ in passed)
        for number, (told, _, behind) in enumerate(passed, 1):
            if abs(number - step) <= around:
                seen = {"t": behind.d[0], "s": behind.d[1], "r": behind.r[0], "a": behind.a, "b": behind.b, "p": behind.p}
                registers = "".join(f" {register} {word:06x}" for register, word in seen.items())
                lines.append(f"{name(node)} {number} {self.deed(node, told)}{registers}{tails[node, number]}")
        return "\n".join(lines)

    def followed(self):
        """The events, each with its text and its nodes before it; what each step of a node did; and the nodes after their
        steps, from the load on."""
        again, passed, deeds = Explorer(self.load, self.limit), [], {}
        behind = {(number, 0): it.copy() for number, it in enumerate(again.chip)}
        for event in self.events:
            before = [again.chip[it].copy() for it in event]
            again.apply(event)
            passed.append((event, again.told[-1], before))
            deeds.update({(it, again.steps[it]): self.deed(it, again.told[-1]) for it in event})
            behind.update({(it, again.steps[it]): again.chip[it].copy() for it in event})
        return passed, deeds, behind

    def made_line(self, tag, deeds, tails, behind, count=""):
        """The step that made a word, by its tag, or that it was loaded, with the word; a transferred one is in what the step did."""
        node, number, part = tag
        mark = f" {part}" if part in LOADED + ("r",) and part != "i" else ""
        word = f" {word_in(behind[node, number], part):06x}"
        if number and part == "t" and deeds[node, number] == "+*":
            word += f" a {behind[node, number].a:06x}"
        if number and part in ("t", "i") and deeds[node, number].startswith("takes"):
            word = ""
        told = f"{number} {deeds[node, number]}{mark}{word}{count}{tails[node, number]}" if number else f"load {part}{word}{self.notes.never_set(node, part)}{self.notes.tail(node, cell_of(part))}"
        return f"{name(node)} {told}"

    @command(
        f"whence NNN K [{VALUE}] [from L]", QUERY,
        "the steps whose values went into what step K of NNN made, or\n"
        "                      into a register, a word of a stack or a cell as it is after step K",
        "the nearest 100, each with its number and > the number of the step that used its value", "whence 001 last, or whence 001 last r", 160,
    )  # fmt: skip
    def answer_whence(self, node, step, value, line):
        if not 1 <= step <= self.steps[node]:
            return self.missing_step(node)
        passed, deeds, behind = self.followed()
        asked, made = asked_of(passed, NODES)
        tails = self.tails(passed)
        first = held_after(passed, NODES, node, step, value) if value else asked[node, step]
        if first is None:
            return f"{name(node)} {step} {deeds[node, step]}{tails[node, step]}"
        part = value and (f"{int(value[1:3], 16) & (0xBF if int(value[1:3], 16) > 0x7F else 0x3F):02x}" if value[0] == "[" else value)
        part, word = (part, word_in(behind[node, step], part)) if value else queried_word(deeds[node, step], behind[node, step - 1], behind[node, step])
        moved = line == 1 and first[:2] != (node, step)
        head = [f"0 {name(node)} {step} {deeds[node, step]}{f' {part} {word:06x}' if part else ''}{tails[node, step]}"] if moved else []
        lines, whole = lines_of(first, made, deeds, line - 1 + MOST_LINES)
        told = [
            f"{number}{f'>{user}' if number > 1 or moved else ''} {self.run_line(run, deeds, tails, behind)}"
            for number, (user, run) in enumerate(lines, 1) if number >= line
        ]  # fmt: skip
        return "\n".join(head + told + ([] if whole else [f"more from {len(lines) + 1}"])) or "none"

    def run_line(self, run, deeds, tails, behind):
        """The line of the first of a run, with how many there are."""
        return self.made_line(run[0], deeds, tails, behind, f" x{len(run)}" if len(run) > 1 else "")

    @command(
        "because NNN K [N]", QUERY,
        "N steps before step K at which a value decided where NNN continued\n"
        "K of effects, at, whence, because: a step's number, or last",
        "for each the step and the word that it tested, and below it the step that made that word", "because 001 last", 100,
    )  # fmt: skip
    def answer_because(self, node, step, most):
        if not 1 <= step <= self.steps[node]:
            return self.missing_step(node)
        passed, deeds, behind = self.followed()
        asked, made = asked_of(passed, NODES)
        tails, lines = self.tails(passed), []
        own = [(told, before[event.index(node)], event[-1] == node) for event, told, before in passed if node in event]
        came = {at for at, (told, before, taken) in enumerate(own, 1) if told[0] == "p" and taken and before.wait[0] == "fetch"}
        for number in range(1, step):
            told, before, _ = own[number - 1]
            tested = asked[node, number] and tested_by(told, before, asked[node, number], made, came)
            if tested:
                tag, register, word = tested
                mark = f" {register} {word:06x}" if register else ""
                head = f"{name(node)} {number} {deeds[node, number]}{mark}{tails[node, number]}"
                lines.append(f"{head}\n  {self.made_line(tag, deeds, tails, behind)}")
        return "\n".join(reversed(lines[-most:] if most else [])) if lines else "none"

    def offers(self, node, step):
        """The neighbours whose step would transfer a word to a node after the rollback of its step, with that word."""
        again = Explorer(self.load, self.limit)
        again.events = [event for event, gone in zip(self.events, self.dependents(self.place(node, step))) if not gone]
        again.replay()
        beside = [other for other in (neighbour(node, side) for side in SIDES) if other is not None]
        return [(other, again.chip[other].d[0]) for other in beside if again.next(other) == (other, node)]

    def looks_next(self, node):
        """Whether the next event of a node is one of its own that looks."""
        looks = []
        if self.next(node) == (node,):
            self.chip[node].copy().own(lambda: self.io_word(node, looks))
        return bool(looks)

    def seen(self):
        """For each event of the history the word that it read from `io`, if it looks, and the nodes that would read another word there after it."""
        again, words, changes = Explorer(self.load, self.limit), [], []
        for event, looked in zip(self.events, self.looked):
            words.append(again.io_word(event[0], []) if looked else None)
            around = sorted({other for node in event for side in SIDES for other in [neighbour(node, side)] if other is not None})
            before = [again.io_word(node, []) for node in around]
            again.apply(event)
            changes.append({node for node, word in zip(around, before) if again.io_word(node, []) != word})
        return words, changes

    def near(self):
        """The looks and the changes that they observe with nothing between them in happens-before, each pair by the places of both. Sets of
        places are the bits of a number."""
        words, changes = self.seen()
        touching, changing, looking = ([0] * NODES for _ in range(3))
        past, pairs = [], []
        for place, event in enumerate(self.events):
            look, apart, bound = self.looked[place], 0, 0
            for node in event:
                bound |= touching[node]
            if look:
                apart |= changing[event[0]]
            for node in changes[place]:
                apart |= looking[node]
            apart &= ~bound
            before, near = 0, []
            while (bound | apart) & ~before:
                last = ((bound | apart) & ~before).bit_length() - 1
                before |= past[last] | 1 << last
                near += [last] if apart >> last & 1 else []
            past.append(before)
            if look:
                pairs += [(place, change) for change in near if event[0] in changes[change]]
            for node in [neighbour(node, side) for node in event for side in SIDES]:
                pairs += [(it, place) for it in near if node in changes[place] and self.looked[it] and self.events[it] == (node,)]
            for node in event:
                touching[node] |= 1 << place
            for node in changes[place]:
                changing[node] |= 1 << place
            if look:
                looking[event[0]] |= 1 << place
        return words, pairs

    def reading(self, word, look, change):
        """The line of a look and a change, where the look reads another word."""
        (node,), event = self.events[look], self.events[change]
        step = sum(node in it for it in self.events[: look + 1])
        beside = next(it for it in event if len(event) == 1 or it in [neighbour(node, side) for side in SIDES] or it == event[1])
        changed = sum(beside in it for it in self.events[: change + 1])
        back = (node, step) if look < change else (beside, changed)
        again = Explorer(self.load, self.limit)
        again.events = [it for it, gone in zip(self.events, self.dependents(self.place(*back))) if not gone]
        again.replay()
        if again.steps[node] + 1 != step or not again.looks_next(node) or again.io_word(node, []) == word:
            return []
        where = "behind" if look < change else "before"
        return [f"{name(node)} {step} reads {word:06x}, or {again.io_word(node, []):06x} {where} {name(beside)} {changed}: rewind {name(back[0])} {back[1]}, step {name(node)}"]

    def readings(self, only):
        if not any(self.looked):
            return []
        words, pairs = self.near()
        return [line for look, change in pairs if only is None or self.events[look] == (only,) for line in self.reading(words[look], look, change)]

    @command(
        "races [NNN]", QUERY, "steps that yield another word in another order, and how",
        "races N, and for each of N steps the other word, and two commands that lead there", "races 001", 40,
    )  # fmt: skip
    def answer_races(self, only):
        """The races, of a node or of all, and the last line about other interleavings."""
        lines = []
        for node in range(NODES) if only is None else [only]:
            for told in [told for event, told in zip(self.events, self.told) if event[1:] == (node,)]:
                _, writer, _, reader, step, word = told.split(" ")
                others = [(name(other), it) for other, it in self.offers(node, int(step)) if name(other) != writer]
                taken = f"{reader} {step} takes {word} from {writer}"
                lines += [f"{taken}, or {it:06x} from {other}: rewind {reader} {step}, step {other}" for other, it in others]
        lines += self.readings(only)
        last = []
        if any(self.looked) or any(map(self.looks_next, range(NODES))):
            last = ["looks are kept or come next: there may be other races"]
        elif only is None and not lines:
            ended = all(self.next(node) is None for node in range(NODES))
            last = ["every order ends on this chip" if ended else "no other order, as long as no node makes more steps"]
        return "\n".join([f"races {len(lines)}"] + lines + last)

    @command(
        "expectations", QUERY, "the status of each line expect of the source",
        "for each whether it is held, broken and by what, or pending: it depends on what comes or on other orders", "expectations", 6,
    )  # fmt: skip
    def answer_expectations(self):
        return self.expected.answer(self)

    @command(
        "save", QUERY, "the history as lines of debug",
        "step NNN for each event, the oldest first", "save", 10,
    )  # fmt: skip
    def answer_save(self):
        return "\n".join(f"step {name(event[0])}" for event in self.events)

    @command(
        "help [COMMAND]", QUERY, "these lines, or more of one command",
        "the command's form and what it does, what it answers, and an example", "help why", 6,
    )  # fmt: skip
    def answer_help(self, command):
        return MORE.get(command) if command else HELP


# Those of the debugger, of which `back until` is one of exploring.
COMMANDS += [
    ("step NNN", CHANGE, "make the next event of NNN",
     "NNN K and what the step did, or pass WWW K RRR J W: it moved the word W from WWW to RRR", "step 001"),
    ("back [[NNN] until COND]", CHANGE,
     "undo the newest event; or the newest after which COND held, and all\n"
     "                      later ones; or such a step of NNN, with its dependents",
     "removed X kept M: X events were removed, and M are left; or none if there is no such event", "back until change 001 20", 40),
    ("rewind NNN K", CHANGE, "remove step K of NNN, with its dependents",
     "removed X kept M: X events were removed, and M are left", "rewind 001 4"),
    ("node NNN", QUERY, "the state of NNN",
     "the state, the registers and both stacks, the top first", "node 001"),
    ("mem NNN HH", QUERY, "the word at HH of the memory of NNN",
     "mem NNN HH W: RAM below 80, ROM from there on", "mem 001 20"),
    ("trace NNN", QUERY, "the steps of NNN",
     "trace NNN C, and C events, the oldest first", "trace 001"),
    ("why NNN K MMM J", QUERY, "by which events step K of NNN led to step J of MMM",
     "chain C, and C events from the cause to its effect; or independent",
     "why 000 3 001 7, did step 3 of 000 lead to step 7 of 001?"),
    ("count", QUERY, "how many events the history has, and how many were made",
     "kept K made M limit L", "count"),
    ("dump", QUERY, "the chip as an image",
     "an image of format 2, which every command reads", "dump"),
    ("quit", QUERY, "end",
     "nothing", "quit"),
]  # fmt: skip
FORMS = {form.split(" ")[0]: form for form, *_ in COMMANDS}
# an example of each
EXAMPLES = {name: example.split(", ")[0] for name, (_, _, _, _, example, *_) in zip(FORMS, COMMANDS)}
CLASSES = {name: class_ for name, (_, class_, *_) in zip(FORMS, COMMANDS)}
# how often one comes in generated sessions
OFTEN = {name: often for name, (_, _, _, _, _, *given) in zip(FORMS, COMMANDS) for often in given}
# what `help` says of each command, by its name
ROWS = {name: f"{form:22}{does}" if len(form) < 22 else f"{form}\n{'':22}{does}" for name, (form, _, does, *_) in zip(FORMS, COMMANDS)}
MORE = {name: f"{row}\nanswers: {answers}\nexample: {example}" for (name, row), (_, _, _, answers, example, *_) in zip(ROWS.items(), COMMANDS)}
HELP = "\n".join(ROWS.values())
