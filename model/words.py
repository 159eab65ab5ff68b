"""Part of the reference model, for "Source" in docs/REFERENCE.md: the words of a source, and the requests of those of a node."""

import re

OPCODES = "; ex jump call unext next if -if @p @+ @b @ !p !+ !b ! +* 2* 2/ - + and or drop dup pop over a . push b! a!".split()
CODE = {it: code for code, it in enumerate(OPCODES)}
JUMPS = {it: CODE[it] for it in ("jump", "call", "unext", "next", "if", "-if")}
OPS = {it: code for it, code in CODE.items() if it not in JUMPS} | {"inv": CODE["-"], "invert": CODE["-"], "xor": CODE["or"], "nop": CODE["."]}
PORTS = {"right": 0x1D5, "down": 0x115, "left": 0x175, "up": 0x145, "io": 0x15D}
BEGINNINGS = {"if": "if", "-if": "-if", "ahead": "jump"}
ENDINGS = {"again": "jump", "until": "if", "-until": "-if", "next": "next"}
CONTROLS = {*BEGINNINGS, *ENDINGS, "begin", "for", "else", "then", "while", "-while", "repeat", "unext", "*next"}
DIRECTIVES = {":", "org", "/p", "/a", "/b", "..", "+cy", "-cy", "node", "constant", "expect", ",", "\\", "("}
MARK = "\xef\xbb\xbf"
# In the place of a word that was skipped.
GAP = ""
BOUNDS = {"/p": 0x400, "/a": 0x40000, "/b": 0x200}
RANGES = {"": "-131072 to 262143", "/p": "0 to 0x3ff", "/a": "-131072 to 262143", "/b": "0 to 0x1ff", "org": "0 to 0x3f, 0x80 to 0xbf"}
OTHERS = {">r": "push", "r>": "pop", "r@": "pop dup push", "2dup": "over over", "2drop": "drop drop", "nip": "push drop pop"}
OTHERS |= {"swap": "over push push drop pop pop", "tuck": "over push push drop pop pop over", "rot": "push push a! pop pop a, which changes A"}
OTHERS |= {"1+": "1 . +", "1-": "-1 . +", "negate": "inv 1 . +", "*": "+*, one step", "not": "inv", "~": "inv", "&": "and", "^": "xor"}
OTHERS |= {"lshift": "2*, one bit", "<<": "2*, one bit", "rshift": "2/, one bit", ">>": "2/, one bit", "|": "dup push inv and pop xor"}
OTHERS |= {"a@": "a", "@a": "@", "!a": "!", "@a+": "@+", "!a+": "!+", "do": "for", "loop": "next", "if,": "if", "endif": "then"}
OTHERS |= {"exit": ";", ";s": ";", "call": "NAME", "jump": "NAME ;", "variable": ": NAME 0 ,", "create": ": NAME", ",": "N ,"}
OTHERS |= {"equ": "N constant NAME"}
OTHERS |= {"expect": "expect begins a line of its own", "end": "end on a line of its own", "//": "\\", "#": "\\", "--": "\\"}
MEANT = "drop dup pop over push and or xor inv invert nop ex a a! b! begin for next unext *next again until -until while -while repeat".split()
MEANT += "if -if ahead else then org node expect constant right down left up io".split()


class Fault(Exception):
    """A fault of a source, with its line."""

    def __init__(self, line, text):
        super().__init__(f"line {line}: {text}")
        self.line, self.text = line, text


class At(int):
    """The number of a line, with the column of a word in it, in bytes from 1 on."""

    def __new__(cls, line, column):
        at = super().__new__(cls, line)
        at.column = column
        return at

    def __getnewargs__(self):
        return int(self), self.column


def fault(line, text):
    return Fault(line, text)


def demand(holds, line, text):
    if not holds:
        raise fault(line, text)


def lines_of(source):
    """The lines, without a byte order mark before the first and without a carriage return at the end of each."""
    lines = source.removeprefix(MARK).split("\n")
    return [it.removesuffix("\r") for it in (lines[:-1] if source.endswith("\n") or not source else lines)]


def shown(word):
    """A word as standard error has it."""
    return "".join(it if " " <= it <= "~" else f"\\x{ord(it):02x}" for it in word)


def is_near(word, name):
    """Whether a word has a letter too few, too many or another one, or two neighbours exchanged."""
    if len(word) == len(name):
        apart = [at for at in range(len(name)) if word[at] != name[at]]
        exchanged = len(apart) == 2 and apart[1] == apart[0] + 1 and word[apart[0]] == name[apart[1]] and word[apart[1]] == name[apart[0]]
        return len(apart) < 2 or exchanged
    long, short = (word, name) if len(word) > len(name) else (name, word)
    return any(long[:at] + long[at + 1 :] == short for at in range(len(long)))


def hint(word):
    """What to write in place of a word that says nothing."""
    first, last = word[:1], word[-1:]
    if word in OTHERS:
        return OTHERS[word]
    if re.fullmatch("\\$[0-9a-fA-F]+", word):
        return f"0x{word[1:]}"
    if len(word) > 1 and last == ";":
        return f"{word[:-1]} ;"
    if len(word) > 1 and ":" in (first, last):
        return f": {word[:-1] if last == ':' else word[1:]}"
    if last == "," and is_number(word[:-1]):
        return f"{word[:-1]} ,"
    same = str.maketrans("ABCDEFGHIJKLMNOPQRSTUVWXYZ", "abcdefghijklmnopqrstuvwxyz")
    meant = [it for it in MEANT if word.translate(same) == it or len(it) > 3 and is_near(word, it)]
    return f"{meant[0]}?" if meant else ""


def unknown(line, word):
    told = hint(word)
    return fault(line, f"what is {shown(word)}" + (f": {shown(told)}" if told else ""))


def scanned(source):
    """The words with their lines and columns, without those of expectations; a line at fault is a word that is a Fault."""
    for number, line in enumerate(lines_of(source), 1):
        if line == "end":
            return
        if len(line) > 200:
            yield number, fault(number, "the line has more than 200 bytes")
            continue
        within, said = False, []
        for found in re.finditer("[^ \t]+", line):
            word = found[0]
            if within:
                within = not word.endswith(")")
            elif word == "\\":
                break
            elif word == "(":
                within = True
            else:
                said.append((At(number, found.start() + 1), word))
        if not said or said[0][1] != "expect":
            yield from said
        if within:
            yield number, fault(number, "a comment without its )")


def without_constants(words):
    """The words without definitions of constants, each of which is replaced by its number from there on; a definition at fault is a Fault."""
    numbers, labels, left, at = {}, set(), [], 0
    while at < len(words):
        line, word = words[at]
        third = words[at + 2 : at + 3]
        if isinstance(word, Fault) or words[at + 1 : at + 2] == [] or words[at + 1][1] != "constant":
            left.append((line, word if isinstance(word, Fault) else numbers.get(word, word)))
            if word == ":" and at + 1 < len(words) and words[at + 1][1] not in numbers:
                labels.add(words[at + 1][1])
            at += 1
            continue
        at += 3
        if not third or isinstance(third[0][1], Fault):
            left.append((words[at - 2][0], fault(words[at - 2][0], "a name or a value is missing")))
            at -= 1
            continue
        number, (name_line, name) = numbers.get(word, word), third[0]
        try:
            is_number_here = number_of(number, line) is not None
        except Fault:
            is_number_here = False
        if not is_number_here:
            left.append((line, fault(line, "no number from -131072 to 262143 before constant")))
        elif name in numbers or name in labels or not is_name(name):
            left.append((name_line, fault(name_line, "the name is taken")))
        else:
            numbers[name] = number
    return left


def with_nodes(words, is_whole):
    """The words with a `node` before each name of a node; the program of several nodes after each of the names, or after the last alone."""
    all_words, at = [], 0
    while at < len(words):
        if words[at][1] != "node" or words[at + 1 : at + 2] == [] or words[at + 1][1] == "node":
            all_words.append(words[at])
            at += 1
            continue
        begin, last = words[at], at + 2
        while last < len(words) and words[last][0] == begin[0] and not isinstance(words[last][1], Fault) and re.fullmatch("[0-9]{3}", words[last][1]):
            last += 1
        end = next((it for it in range(last, len(words)) if words[it][1] == "node"), len(words))
        for name in words[at + 1 : last]:
            all_words += [begin, name, *(words[last:end] if is_whole else [])]
        all_words += [] if is_whole else words[last:end]
        at = end
    return all_words


def words_of(source, is_whole=True):
    """The words, in which constants are numbers and each node has a `node` of its own."""
    return with_nodes(without_constants(list(scanned(source))), is_whole)



def out_of_range(line, word, place=""):
    return fault(line, f"number out of range: {shown(word)} ({RANGES[place]})")


def demand_range(holds, line, word, place=""):
    if not holds:
        raise out_of_range(line, word, place)


def number_of(word, line, place=""):
    """The number that a word says modulo 2^18, None where it says none."""
    if word in PORTS:
        return PORTS[word]
    if re.fullmatch("[r-][d-][l-][u-]", word) and word != "----":
        return 0x155 ^ sum(bit for letter, bit in zip(word, (0x80, 0x40, 0x20, 0x10)) if letter != "-")
    found = re.fullmatch("(-?)(?:0x([0-9a-fA-F]+)|([0-9]+))", word)
    if not found:
        return None
    size = int(found[2], 16) if found[2] else int(found[3])
    demand_range(size <= 131072 if found[1] else size <= 262143, line, word, place)
    return (-size if found[1] else size) % 0x40000


def is_number(word):
    try:
        return number_of(word, 0) is not None
    except Fault:
        return True


def is_name(word):
    """Whether a label may have this name."""
    return not (is_number(word) or word in OPS or word in JUMPS or word in CONTROLS or word in DIRECTIVES or word.startswith("'"))


class Words:
    """What the words of a node ask for. A label is its name, or a number where a control word makes it."""

    def __init__(self, line, words):
        self.asked, self.marked, self.registers, self.open = [], set(), {}, []
        self.words, self.bit, self.made, self.begun, self.named = list(words), 0, 0, line, []
        while self.words:
            if self.words[0][1] == GAP:
                self.words.pop(0)
            else:
                self.word()

    def unfinished(self):
        """The faults of control words that are open and of labels that are nowhere."""
        open_ones = [fault(line, "this is never closed") for _, _, line in self.open]
        return open_ones + [unknown(line, label) for line, label in self.named if label not in self.marked]

    def take(self, line):
        """The word after a directive."""
        demand(self.words, line, "a name or a value is missing")
        line, word = self.words.pop(0)
        if isinstance(word, Fault):
            raise word
        return line, word

    def comes(self, word):
        """Whether this word is next, which is taken then."""
        if self.words and self.words[0][1] == word:
            self.words.pop(0)
            return True
        return False

    def ask(self, line, *what):
        self.asked.append((line, *what))

    def label(self, line, word):
        self.named.append((line, word))
        return word

    def mark(self, line, label):
        demand(label not in self.marked, line, "the label stands twice")
        self.marked.add(label)
        self.ask(line, "mark", label)

    def jump(self, line, op, label):
        self.ask(line, "back" if label in self.marked else "ahead", CODE[op], label)

    def value(self, line, word):
        if word.startswith("'"):
            demand(word != "'", line, "a name or a value is missing")
            return self.label(line, word[1:])
        return number_of(word, line)

    def word(self):
        line, word = self.take(0)
        if self.comes(","):
            value = self.value(line, word)
            demand(value is not None, line, "a name or a value is missing")
            self.ask(line, "cell", value)
        elif word in DIRECTIVES:
            self.directive(line, word)
        elif word in OPS:
            self.ask(line, "op", OPS[word])
        elif word in CONTROLS:
            self.control(line, word)
        elif (value := self.value(line, word)) is not None:
            self.ask(line, "literal", value)
        else:
            if not is_name(word):
                raise unknown(line, word)
            self.jump(line, "jump" if self.comes(";") else "call", self.label(line, word))
        return line

    def directive(self, line, word):
        if word == ":":
            line, text = self.take(line)
            demand(is_name(text), line, "the name is taken")
            self.mark(line, self.label(line, text))
        elif word == "org":
            line, text = self.take(line)
            address = number_of(text, line, word)
            demand(address is not None, line, "a name or a value is missing")
            demand_range(address < 0x40 or 0x80 <= address < 0xC0, line, text, word)
            self.ask(line, "org", address + self.bit)
        elif word in BOUNDS:
            line, text = self.take(line)
            value = number_of(text, line, word)
            if value is None:
                demand(is_name(text), line, "a name or a value is missing")
                value = self.label(line, text)
            else:
                demand_range(value < BOUNDS[word], line, text, word)
            demand(word not in self.registers, line, "the register is given twice")
            self.registers[word] = (line, value)
        elif word in ("+cy", "-cy"):
            self.bit = 0x200 if word == "+cy" else 0
            self.ask(line, "bit", self.bit)
        elif word == "..":
            self.ask(line, "fill")
        else:
            raise unknown(line, word)

    def new(self):
        self.made += 1
        return self.made

    def begin(self, line):
        label = self.new()
        self.open.append(("loop", label, line))
        self.mark(line, label)

    def ahead(self, line, op):
        label = self.new()
        self.jump(line, op, label)
        self.open.append(("ahead", label, line))

    def close(self, line, kind):
        demand(self.open and self.open[-1][0] == kind, line, "nothing is open that this closes")
        return self.open.pop()[1]

    def control(self, line, word):
        if word in BEGINNINGS:
            self.ahead(line, BEGINNINGS[word])
        elif word in ("begin", "for"):
            if word == "for":
                self.ask(line, "op", CODE["push"])
            self.begin(line)
        elif word == "else":
            label = self.close(line, "ahead")
            self.ahead(line, "jump")
            self.mark(line, label)
        elif word == "then":
            self.mark(line, self.close(line, "ahead"))
        elif word == "unext":
            self.ask(line, "unext", self.close(line, "loop"))
        elif word in ("while", "-while"):
            demand(self.open and self.open[-1][0] == "loop", line, "nothing is open that this closes")
            loop = self.open.pop()
            self.ahead(line, word.replace("while", "if"))
            self.open.append(("loop", loop[1], line))
        elif word == "*next":
            demand(self.open, line, "nothing is open that this closes")
            innermost = self.open.pop()
            self.jump(line, "next", self.close(line, "loop"))
            self.open.append(innermost)
        else:
            self.jump(line, ENDINGS.get(word, "jump"), self.close(line, "loop"))
            if word == "repeat":
                self.mark(line, self.close(line, "ahead"))
