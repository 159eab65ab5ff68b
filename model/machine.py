"""The replay machine: it keeps a load and a list of events, and replays the list. Part of the reference model of docs/REFERENCE.md.

Answers are the texts of docs/REFERENCE.md. An event is a tuple of the nodes that it touches: one, or writer and reader.
"""

from node import Node, SIDES, neighbour

NODES = 144
READS = ("fetch", "read")


def name(node):
    row, column = divmod(node, 18)
    return f"{row}{column:02}"


def letters(sides):
    return "".join(side if side in sides else "-" for side in SIDES)


def words(values):
    return " ".join(f"{value:06x}" for value in values)


class Machine:
    def __init__(self, load, limit):
        self.load, self.limit, self.made, self.events = load, limit, 0, []
        self.replay()

    def replay(self):
        self.chip = [node.copy() for node in self.load]
        self.told, self.looked, self.steps = [], [], [0] * NODES
        for event in self.events:
            self.apply(event)

    def apply(self, event):
        for node in event:
            self.steps[node] += 1
        looks = []
        if len(event) == 1:
            node = event[0]
            what = self.chip[node].own(lambda: self.io_word(node, looks))
            self.told.append(f"{name(node)} {self.steps[node]} {what}")
        else:
            writer, reader = event
            word = self.chip[writer].send()
            self.chip[reader].take(word)
            self.told.append(f"pass {name(writer)} {self.steps[writer]} {name(reader)} {self.steps[reader]} {word:06x}")
        self.looked.append(bool(looks))

    def io_word(self, node, looks):
        looks.append(node)
        word = 0x15555
        for place, side in enumerate(SIDES):
            beside = neighbour(node, side)
            if beside is None:
                continue
            if self.chip[beside].waits(READS, side):
                word &= ~(1 << 16 - 2 * place)
            if self.chip[beside].waits(("write",), side):
                word |= 1 << 15 - 2 * place
        return word

    def next(self, node):
        """The event that a step of the node makes, or None if the node waits or is stopped."""
        wait = self.chip[node].wait
        if self.chip[node].stop:
            return None
        if wait is None:
            return (node,)
        for side in wait[1]:
            other = neighbour(node, side)
            if other is None:
                continue
            if wait[0] == "write" and self.chip[other].waits(READS, side):
                return (node, other)
            if wait[0] in READS and self.chip[other].waits(("write",), side):
                return (other, node)
        return None

    # Dependence.

    def depends_directly(self, later, earlier):
        after, before = self.events[later], self.events[earlier]
        if set(after) & set(before):
            return True
        return self.looked[later] and any(neighbour(after[0], side) in before for side in SIDES)

    def dependents(self, place):
        """For each event, whether it depends on the one at this place. That one depends on itself."""
        marked = [False] * len(self.events)
        marked[place] = True
        for later in range(place + 1, len(self.events)):
            marked[later] = any(marked[at] and self.depends_directly(later, at) for at in range(place, later))
        return marked

    def place(self, node, step):
        """The place of the node's step in the list, or None."""
        places = [at for at, event in enumerate(self.events) if node in event]
        return places[step - 1] if 1 <= step <= len(places) else None

    def step_at(self, place):
        """A node of the event at this place, and the number of its step."""
        node = self.events[place][-1]
        return node, sum(node in event for event in self.events[: place + 1])

    # Commands.

    def step(self, node):
        event = self.next(node)
        if event is None:
            return "no 2 stopped" if self.chip[node].stop else "no 1 waiting"
        if len(self.events) == self.limit:
            return "no 3 full"
        self.events.append(event)
        self.made += 1
        self.apply(event)
        return self.told[-1]

    def back(self):
        if not self.events:
            return "no 5 empty"
        self.events.pop()
        self.replay()
        return f"removed 1 kept {len(self.events)}"

    def rewind(self, node, step):
        place = self.place(node, step)
        if place is None:
            return "no 6 nostep"
        goes = self.dependents(place)
        self.events = [event for event, gone in zip(self.events, goes) if not gone]
        self.replay()
        return f"removed {sum(goes)} kept {len(self.events)}"

    def why(self, node, step, other, other_step):
        first, last = self.place(node, step), self.place(other, other_step)
        if first is None or last is None:
            return "no 6 nostep"
        marked = self.dependents(first)
        if last < first or not marked[last]:
            return "independent"
        chain = [last]
        while chain[0] != first:
            oldest = next(at for at in range(first, chain[0]) if marked[at] and self.depends_directly(chain[0], at))
            chain.insert(0, oldest)
        return "\n".join([f"chain {len(chain)}"] + [self.told[at] for at in chain])

    def node(self, node):
        it = self.chip[node]
        state = f"stop {it.stop}" if it.stop else f"{it.wait[0]} {letters(it.wait[1])}" if it.wait else "run"
        return (
            f"node {name(node)} {state} p {it.p:06x} a {it.a:06x} b {it.b:06x} i {it.i:06x} slot {it.slot} "
            f"carry {it.carry} io {it.io:06x} d {words(it.d)} r {words(it.r)}"
        )

    def mem(self, node, address):
        memory = self.chip[node].ram if address < 0x80 else self.chip[node].rom
        return f"mem {name(node)} {address:02x} {memory[address & 0x3F]:06x}"

    def trace(self, node):
        lines = [text for text, event in zip(self.told, self.events) if node in event]
        return "\n".join([f"trace {name(node)} {len(lines)}"] + lines)

    def count(self):
        return f"kept {len(self.events)} made {self.made} limit {self.limit}"

    def dump(self):
        blocks = [block_of(self.chip[node]) for node in range(NODES)]
        return "\n".join(["ga144 2"] + [line for block in blocks if len(block) > 1 for line in block] + ["end"])


def block_of(node):
    """The lines of format 2 for the differences of a node from its load, in their order."""
    load = Node(node.number)
    lines = [f"node {name(node.number)}"]
    differs = [it for it in vars(node) if getattr(node, it) != getattr(load, it)]
    lines += [f"{it} {getattr(node, it):06x}" for it in ("a", "b", "p", "i", "io") if it in differs]
    lines += [f"{it} {getattr(node, it)}" for it in ("carry", "slot") if it in differs]
    lines += [f"{it} {words(getattr(node, it))}" for it in ("d", "r") if it in differs]
    if node.wait:
        lines.append(f"wait {node.wait[0]} {letters(node.wait[1])}")
    if node.stop:
        lines.append(f"stop {node.stop}")
    for memory in ("ram", "rom"):
        cells = getattr(node, memory)
        lines += [f"{memory} {at:02x} {words(cells[at : at + 8])}" for at in range(0, 64, 8) if any(cells[at : at + 8])]
    return lines
