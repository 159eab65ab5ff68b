"""Debug info, the map from cells and slots to source. Part of the reference model, for "Exploring" in docs/REFERENCE.md."""

from node import advanced, target_of
from source import NODE_NAMES, programs_of
from words import lines_of, words_of

LONGEST, WHITE = 40, " \t\r\f"


def part_of(cell):
    """The name that a cell has in `whence`: its address, in ROM from 80 on."""
    return f"{cell[1] + 128 * (cell[0] == 'rom'):02x}"


class Notes:
    """The words and the labels of a source by cell. An image has none. `set` has the parts that the text gives, each with its node and named
    as `whence` does; or None if it gives all."""

    def __init__(self, source=None):
        self.cells, self.labels, self.begins, self.lines = {}, {}, {}, lines_of(source or "")
        self.set = None if source is None else set()
        for name, (_, asked, layout) in (programs_of(words_of(source)) if source is not None else {}).items():
            node = NODE_NAMES[name]
            for cell in layout.cells:
                address = cell.address
                if not cell.data:
                    self.begins.setdefault((node, cell.slots[0][0]), address)
                for words in [[word for word, *_ in cell.slots]] + [[word] for word, _ in cell.literals]:
                    self.cells[node, target_of(address)] = f"{address:03x}", words
                    self.set.add((node, part_of(target_of(address))))
                    address = advanced(address)
            self.labels[node] = [(it, layout.labels[it]) for _, it in layout.order if isinstance(it, str)]
            self.set |= {(node, it[1:]) for it in [*asked.registers] + ["/p"] * bool(layout.cells)}

    def never_set(self, node, part):
        """The text after a loaded value that the text of the chip didn't give."""
        return "" if self.set is None or (node, part) in self.set else ", never set"

    def label(self, node, cell):
        """The label of a cell: of the labels in the same memory and not after the cell, the last one at the greatest address."""
        named = [(target_of(address), it) for it, address in self.labels[node]]
        before = [(place, it) for place, it in named if place[0] == cell[0] and place[1] <= cell[1]]
        return [it for place, it in before if place == max(before)[0]][-1:]

    def source_text(self, words, slot):
        """The source line of a cell with these words, or, of a long line, the part from the word of this slot on. Slot 4 is the fetch."""
        line = self.lines[words[0] - 1].strip(WHITE)
        if len(line) <= LONGEST:
            return f"{words[0]}: {line}"
        word = words[0 if slot == 4 else min(slot, len(words) - 1)]
        return f"{word}:{word.column}: {self.lines[word - 1][word.column - 1 :].strip(WHITE)}"

    def tail(self, node, cell, slot=4):
        """The text about a cell, or a slot of it, at the end of an answer's line."""
        if (node, cell) not in self.cells:
            return ""
        address, words = self.cells[node, cell]
        return " \\ " + " ".join([address, *self.label(node, cell), self.source_text(words, slot)])

    def begun(self, node, line):
        """P at the first instruction word of a source line for a node, or None."""
        return self.begins.get((node, line))

    def address(self, node, name):
        """P at a label, or None."""
        return dict(self.labels.get(node, [])).get(name)
