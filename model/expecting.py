"""The status of each expectation of a source in a session, and the events that break one. Part of the reference model, for docs/REFERENCE.md, "Expectations in a
session"."""

from conditions import number_in
from machine import NODES, name


class SessionExpectations:
    """The expectations of a source, in order."""

    def __init__(self, lines):
        self.lines = lines

    @staticmethod
    def link(line):
        """The two nodes of a link, the words that are expected there, and whether others may come after them."""
        from explore import number_of

        giver, taker, _, *words = line.words[1:]
        is_open = words[-1] == ".."
        link = number_of(giver), number_of(taker)
        return link, [number_in(it, lambda label: line.notes.address(link[0], label)) for it in words[: len(words) - is_open]], is_open

    @staticmethod
    def fault(words, is_open, place, word):
        """What is wrong with a word after this number of others, or None."""
        if place < len(words):
            return None if word == words[place] else f"word {place + 1} is {word:06x}"
        return None if is_open else f"a further word is {word:06x}"

    @staticmethod
    def parts(line):
        return [it for it in " ".join(line.words[1:]).split(" or ") if not it.startswith("stuck ")]

    def written(self, number_of):
        """The nodes whose writes some conditions ask for."""
        return [number_of(it.split(" ")[1]) for line in self.lines if line.words[0] == "never" for it in self.parts(line) if it.startswith("change ")]

    def line_broken_by(self, machine, told, before):
        """The line of the first expectation that the event with this text, the newest of the machine, breaks: none before it violates that. Or None."""
        lines = [line for line in self.lines if self.breaks(line, machine, told, before)]
        return next((line.line for line in lines if self.first_place(line, machine) == len(machine.events) - 1), None)

    def first_place(self, line, machine):
        """The place of the first event that violates an expectation, or None."""
        places = machine.places_where(lambda again, told, before: self.breaks(line, again, told, before))
        return next(places, None)

    def newest_breach(self, machine, only):
        """The place of the newest event, of one node if one is named, that broke an expectation, or None."""
        places = [self.first_place(line, machine) for line in self.lines]
        return max((it for it in places if it is not None and only in (None, *machine.events[it])), default=None)

    def breaks(self, line, machine, told, before):
        """Whether the event violates an expectation."""
        if line.node is None and line.words[0] == "never":
            return any(machine.holds(it, told, before) for it in self.parts(line))
        if line.node is None and line.words[0] == "pass" and told.startswith("pass "):
            link, words, is_open = self.link(line)
            *_, word = told.split(" ")
            is_here = told.split(" ")[1:4:2] == [name(it) for it in link]
            return is_here and self.fault(words, is_open, len(machine.sent(*link)) - 1, int(word, 16)) is not None
        return False

    def answer(self, machine):
        if not self.lines:
            return "none"
        quiet = all(machine.next(it) is None for it in range(NODES))
        return "\n".join(f"line {line.line}: {line.text}: {self.status(line, machine, quiet)}" for line in self.lines)

    def status(self, line, machine, quiet):
        by_end = "held" if quiet else "pending"
        if line.node is not None:
            it = machine.chip[line.node]
            return by_end if not quiet or line.is_met(it) else f"broken, {line.has(it)}"
        if line.words[0] == "never":
            place = self.first_place(line, machine)
            first = None if place is None else machine.told[place]
            stuck = [it[6:] for it in " ".join(line.words[1:]).split(" or ") if it.startswith("stuck ")]
            held = [it for it in stuck if it in map(name, machine.stuck())] if stuck else []
            return f"broken, {first}" if first else f"broken, stuck {held[0]}" if held else by_end
        if line.words[0] == "pass":
            link, words, is_open = self.link(line)
            sent = [int(told.split(" ")[5], 16) for told in machine.sent(*link)]
            faults = [self.fault(words, is_open, place, word) for place, word in enumerate(sent)]
            fault = next(filter(None, faults), None)
            if fault:
                return f"broken, {fault}"
            if len(sent) < len(words):
                return f"broken, word {len(sent) + 1} never comes" if quiet else "pending"
            return "held" if is_open else by_end
        return "pending"
