"""A parser of the crates for questions about contracts: files of definitions and of code, the definitions that a text names, the clauses of
a function, and what is public.

A definition depends on what its text names, by its file's own definitions and its `use` lines. Clauses are those of a public function, and
the value of a public type in contracts. The fields of a type in code are not followed.
"""
import os
import re
import sys
from collections import defaultdict
from functools import cached_property

TOP = os.path.dirname(os.path.dirname(os.path.abspath(__file__)))
CRATES = f"{TOP}/crates"
# The interfaces whose definitions a reader may want to read in full: the files, and the names of types or functions with the clauses, or None
# for all that other crates see.
INTERFACES = {
    "Lab": [(f"ga_lab/src/{it}.rt", {"Lab", "NodeWalk", "Backward"}) for it in ("lab", "lab/backward", "lab/explaining", "lab/listing", "lab/steps", "lab/walking")],
    "session": [("ga_console/src/run.rt", {"session"})],
    "SharedLab": [(f"ga_shared/src/{it}.rt", None) for it in ("shared", "locked", "workers", "racing", "closing")],
    "race": [("ga_console/src/race.rt", None)],
}
NAME = r"[^\W\d]['\w-]*"
WORD = re.compile(rf"{NAME}(?:\.{NAME})*")
HEAD = re.compile(rf"(?:abbrev |unfoldable )?pub (?:(?:data|record) )?({NAME}|◌\S+◌)(?= *(?:[:({{]|$))", re.M)
CLAUSE = re.compile(rf"({NAME})(?= |$)")
MUTUAL = re.compile(r"^(?:abbrev )?mutual\n((?:  .*\n|\n)*)", re.M)
# Quoted text of definitions and of clauses; a comment there, which begins outside of a name; and the beginning of a block comment, which is
# a fault.
QUOTED = r'"(?:[^"\\\n]|\\[^\n])*"'
DASHES = r'(?<![^ \n(){}.;,@"»])--[^\n]*'
DEFINED = re.compile(f"{QUOTED}|{DASHES}|{{-")
# Quoted text of code, and a comment on a line of its own.
CODED = re.compile(r"""[bc]?r(#*)".*?"\1|"(?:[^"\\]|\\.)*"|'(?:[^'\\\n]|\\[^\n])'|^ *//[^\n]*""", re.M | re.S)
CONSTANT = re.compile(r"\b(?:const|static) ([A-Z]\w*): .*?=\s(.*?);\n", re.S)
BRACE = re.compile(f"{QUOTED}|{DASHES}|[{{}}]")
SIGNED = re.compile(rf"{QUOTED}|\b(?:requires|ensures)\b\*?(?: \w+)? (?={{)|[()\[\]{{;]")
USE = re.compile(r"^ *(?:pub )?(?:ghost )?use (Rattle\.[\w.]+?)(?:\.\{([^}]*)\}|(?: as (\w+))?);?$", re.M)


def read(path):
    with open(path, encoding="utf-8") as text:
        return text.read()


def without_comments(path, text):
    """The text of a file without its comments. Quoted text stays."""
    kind = DEFINED if path.endswith(".antt") else CODED
    if kind is DEFINED and any(it[0] == "{-" for it in DEFINED.finditer(text)):
        sys.exit(f"{path}: this script can't read comments between {{- and -}}: write -- before each line")
    return kind.sub(lambda it: "" if it[0].lstrip(" ").startswith(("--", "//")) else it[0], text)


def files_in(folder, ending):
    for at, _, files in os.walk(folder):
        yield from (f"{at}/{file}" for file in sorted(files) if file.endswith(ending))


def is_inner(module):
    """Whether only private contracts may use the definitions of a module."""
    return "inner" in module.split(".")


def dedented(text):
    """A text of definitions without `mutual` lines, and with their blocks unindented."""
    return MUTUAL.sub(lambda it: re.sub(r"^  ", "", it[1], flags=re.M), text)


class Module:
    """A file of definitions or of code: the names that its `use` lines import, and its own definitions with their texts."""

    def __init__(self, path, text, name=None):
        self.name, self.path = name, path
        self.text = without_comments(path, text)
        self.brought, self.aliases, self.own = defaultdict(list), {}, {}
        for use in USE.finditer(self.text):
            module, items, alias = use.groups()
            if items is None:
                self.aliases[alias or module.split(".")[-1]] = module
            for item in filter(None, re.split(r",\s*", (items or "").strip())):
                first, _, last = item.partition(" as ")
                self.brought[last or first].append((use.start(), module, first))
        if name:
            for part in re.split(r"\n(?=\S)", "\n" + USE.sub("", dedented(self.text))):
                head = HEAD.match(part) or CLAUSE.match(part)
                if head and (head.re is HEAD or head[1] in self.own):
                    self.own[head[1]] = self.own.get(head[1], "") + "\n" + part
        self.parts = {name: of for of, text in self.own.items() for name in re.findall(rf"^  ({NAME}) :", text, re.M)}

    def imports(self):
        return {module for brought in self.brought.values() for _, module, _ in brought} | set(self.aliases.values())

    def origins(self, text):
        """Lines `NAME is MODULE.NAME` for the imported names in a text, and for each imported name that has another one in its module. These
        include names of the kit's libraries. A text contains an operator if it contains its parts."""
        words = {word.split(".")[0] for word in WORD.findall(text)}
        for name, brought in self.brought.items():
            parts = name.split("◌")
            for _, module, first in brought:
                if first != name or name in words or len(parts) > 1 and all(it in text for it in parts):
                    yield f"{name} is {module}.{first}"
        yield from (f"{name} is {module}" for name, module in self.aliases.items() if name in words)

    def lines(self, name):
        return sum(1 for line in self.own[name].split("\n") if line.strip())


def texts_of_crates():
    """The files of definitions and of code, by their paths."""
    for crate in sorted(os.listdir(CRATES)):
        for part, ending in (("specs", ".antt"), ("src", ".rt")):
            for path in files_in(f"{CRATES}/{crate}/{part}", ending):
                yield os.path.relpath(path, CRATES), read(path)


class Reader:
    """The modules of all crates, or of these texts, by their paths in `crates`."""

    def __init__(self, texts=None):
        self.modules, self.code = {}, {}
        for path, text in (texts or dict(texts_of_crates())).items():
            if path.endswith(".antt"):
                name = f"Rattle.{path[:-5].replace('/', '.')}"
                self.modules[name] = Module(f"{CRATES}/{path}", text, name)
            else:
                self.code[path] = Module(f"{CRATES}/{path}", text)

    @cached_property
    def constants(self):
        """The values of the code's constants by name."""
        values = defaultdict(set)
        for here in self.code.values():
            for name, value in CONSTANT.findall(here.text):
                values[name].add(" ".join(value.split()))
        return values

    def values(self, text):
        """The values of the constants that a text names, and of the constants in these values."""
        seen, todo = set(), [text]
        while todo:
            for name in set(re.findall(r"\b[A-Z][A-Z_0-9]+\b", todo.pop())) & self.constants.keys() - seen:
                seen.add(name)
                todo += self.constants[name]
        return {f"{name} = {value}" for name in seen for value in self.constants[name]}

    def found(self, module, name):
        """The definition with a name in a module, or the one that has a constructor or a field of that name."""
        here = self.modules.get(module)
        if here and name in here.own:
            yield (module, name)
        elif here and name in here.parts:
            yield (module, here.parts[name])

    def named(self, here, text, at=None):
        """The definitions that a text names: a text of a file of definitions, or the text at an offset of a file of code."""
        for clause in re.split(r"\n(?=\S)", text):
            bound = bound_in(clause)
            for word in WORD.findall(clause) + ["◌>>=◌"] * (" = do\n" in clause) + ["◌▷◌"] * (" ▷ " in clause):
                first, _, rest = word.partition(".")
                if first == "Rattle":
                    yield from self.found(*word.rsplit(".", 1))
                elif rest and first in here.aliases:
                    yield from self.found(here.aliases[first], rest.split(".")[0])
                elif first not in bound:
                    if here.name:
                        yield from self.found(here.name, first)
                    brought = here.brought.get(first, [])
                    nearest = [it for it in brought if at is not None and it[0] <= at][-1:]
                    for _, module, name in nearest or brought:
                        yield from self.found(module, name)

    def closed(self, roots):
        """These definitions and all that they depend on."""
        seen, todo = set(), list(roots)
        while todo:
            module, name = it = todo.pop()
            if it not in seen:
                seen.add(it)
                todo += self.named(self.modules[module], self.modules[module].own[name])
        return seen

    def reached(self):
        """The definitions that the clauses of each of `INTERFACES` depend on."""
        return {interface: self.closed([it for path, only in places for it in self.clauses(path, only)]) for interface, places in INTERFACES.items()}

    def in_order(self, modules):
        """Files of definitions in an order to read: each after those that it imports, else in the order of crates.txt and the alphabet."""
        crates = named_crates()
        left, ordered = sorted(modules, key=lambda it: (crates.index(it.split(".")[1]), it)), []
        while left:
            ordered.append(next(it for it in left if not (self.modules[it].imports() - {it}) & {*left}))
            left.remove(ordered[-1])
        return ordered

    def exported(self, path):
        """The items of a file that other crates see: those that the crate's root exports, or all of a public module."""
        root = self.code.get(path.split("/")[0] + "/src/lib.rt")
        if root and re.search(rf"^pub mod {os.path.basename(path)[:-3]};", root.text, re.M):
            return set(re.findall(r"(?:fn|struct|enum) (\w+)", self.code[path].text))
        return set(re.findall(r"\w+", " ".join(re.findall(r"^pub use ([^;]*);", root.text, re.M)))) if root else set()

    def clauses(self, path, only=None):
        """The definitions named in the clauses of a file of code: of the items `only`, or of those that other crates see."""
        here, seen = self.code[path], only or self.exported(path)
        impl = (None, False)
        item = r"^impl(?:<.*>)? (?:(?:[\w:<>]+ (for) )?(\w+))|^( *)(pub )?(?:const )?fn (\w+)|ghost Value = ([^;]*)"
        for it in re.finditer(item, here.text, re.M):
            if it[2]:
                impl = (it[2], it[1])
            elif it[6] and impl[0] in seen:
                yield from self.named(here, it[6], it.start())
            elif it[5] and ((it[4] or it[3] and impl[1]) and (impl[0] if it[3] else it[5]) in seen):
                for clause in signature(here.text, it.end())[1]:
                    yield from self.named(here, " " + clause.replace("\n", " "), it.start())


def bound_in(clause):
    """The variables of a clause, which are no definitions: on its left, of a λ, of a `let`, in the brackets of a type."""
    left = re.match(r"(?!data|record|pub|abbrev|unfoldable)([^\s:][^:\n]*?) =(?=\s)", clause)
    bound = set(re.findall(r"(?<![.\w])[a-z_]['\w]*(?![.\w'-])", left[1])) if left else set()
    for names in re.findall(r"λ ([^.]*)\.|[({]([^\W\d][^:(){}]*) :|\blet (\w+) =", clause):
        bound |= set(re.findall(r"[^\W\d]['\w]*", " ".join(names)))
    return bound


def end_of(text, at):
    """The end of the brackets that open at `at`."""
    depth = 0
    for it in BRACE.finditer(text, at):
        depth += {"{": 1, "}": -1}.get(it[0], 0)
        if not depth:
            return it.end()
    return len(text)


def signature(text, at):
    """The end of the signature and clauses of the function whose name ends at `at`; and the clauses."""
    depth, clauses = 0, []
    while True:
        it = SIGNED.search(text, at)
        if not it or depth == 0 and it[0] in "{;":
            return it.start() if it else len(text), clauses
        at = it.end()
        if depth == 0 and it[0][0] in "re":
            at = end_of(text, at)
            clauses.append(text[it.end() + 1 : at - 1])
        else:
            depth += {"(": 1, "[": 1, ")": -1, "]": -1}.get(it[0], 0)


def named_crates():
    """The crates in the order of crates.txt."""
    return [row.split(":")[0].split()[0] for row in read(f"{TOP}/crates.txt").split("\n") if row.split("#")[0].strip()]


def grouped(definitions):
    files = defaultdict(set)
    for module, name in definitions:
        files[module].add(name)
    return files


def short(module):
    crate, inner = module[7:].split(".specs.")
    return f"{crate}/specs/{inner.replace('.', '/')}.antt"
