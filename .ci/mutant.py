"""Mutants, and the copies of a crate in which the prover checks them: finds the function that an edit changes, writes a copy of that
function next to it, and removes the bodies of the other functions.
"""
import os
import re
import shutil
from contextlib import contextmanager
from functools import cache

FUNCTION = re.compile(r"^( *)(?:pub(?:\([a-z]+\))? )?(?:const )?(?:unsafe )?(?:extern \"C\" )?fn (\w+)", re.M)
CYCLE = re.compile(r"^ *#\[cycle\((\w+)\)\]\n", re.M)
BLOCK = re.compile(r"^(?:impl(?:<[^\n]*?>)? (?:(\w+)(?:<[^\n]*>)? for )?|(?:pub(?:\([a-z]+\))? )?(trait) )(\w+)", re.M)


class Fault(Exception):
    """The reason why mutants can't be checked."""


class Function:
    """The place of a function: its file, its path in the crate, and the range of its text with the attributes above it."""

    def __init__(self, folder, path, text, match):
        self.path, self.indent, self.name = path, match[1], match[2]
        block = [*BLOCK.finditer(text, 0, match.start())][-1] if match[1] else None
        self.is_of_trait = bool(block and (block[1] or block[2]))
        self.block = block and block[3]
        self.type = f"{block[3]}{block[1] or ''}" if block else None
        self.home = declaring_file(folder, block[3]) or path if block else path
        self.start = match.start()
        while True:
            line = text.rfind("\n", 0, self.start - 1) + 1
            if not re.match(r" *(#\[|//)", text[line : self.start]):
                break
            self.start = line
        closing = re.compile(rf"^{self.indent}\{{?\}}\n", re.M).search(text, match.start())
        self.end = closing.end() if closing else len(text)

    def place(self):
        """The path of the function as the prover prints it, without the crate. The path of a method contains its type."""
        modules = [it for it in self.home[4:-3].split("/") if it not in ("lib", "main", "mod")]
        return [*modules, *([self.type] if self.type else []), self.name]

    def head(self, body):
        """The text before the body: attributes, signature and contract."""
        own_line = body.find(f"\n{self.indent}{{\n")
        return body[: own_line if own_line >= 0 else body.index("{\n")]

    def short(self):
        return "::".join(self.place()[-2:]) if self.type else "::".join(self.place())


@cache
def declaring_file(folder, name):
    """The file of a crate that declares a type."""
    for at, _, files in os.walk(f"{folder}/src"):
        for file in (f"{at}/{it}" for it in sorted(files)):
            if re.search(rf"^(?:pub(?:\([a-z]+\))? )?(?:struct|enum) {name}\b", read(file), re.M):
                return os.path.relpath(file, folder)
    return None


def read(file):
    with open(file, encoding="utf-8") as text:
        return text.read()


def write(file, text):
    with open(file, "w", encoding="utf-8") as it:
        it.write(text)


def functions_of(folder, path, text):
    return [Function(folder, path, text, it) for it in FUNCTION.finditer(text)]


@cache
def all_functions(folder):
    """The functions of a crate."""
    files = [os.path.relpath(f"{at}/{it}", folder) for at, _, files in os.walk(f"{folder}/src") for it in sorted(files) if it.endswith(".rt")]
    return [function for path in files for function in functions_of(folder, path, read(f"{folder}/{path}"))]


def edit_texts(file):
    """The mutants of a file: the name after each `# `, and the lines that follow it."""
    parts = re.split(r"^# (\w+)\n", read(file), flags=re.M)
    if parts[0].strip():
        raise Fault(f"{file}: text before the first name")
    return [*zip(parts[1::2], parts[2::2])]


class Edit:
    """A mutant: the function that it changes, and the changed text of that function."""

    def __init__(self, folder, name, text):
        self.name, self.texts, self.is_alone = name, {}, False
        path = within = old = None
        for line in text.split("\n"):
            word, _, rest = line.partition(": ")
            if line == "alone":
                self.is_alone = True
            elif word == "file":
                path, within = rest.strip(), None
            elif word == "in":
                within = rest.strip()
            elif word == "old":
                old = rest
            elif line.startswith("new:"):
                self.replace(folder, path, within, old, line[4:].removeprefix(" "))
        changed = []
        for path, (before, after) in self.texts.items():
            pairs = zip(functions_of(folder, path, before), functions_of(folder, path, after))
            changed += [(one, after[it.start : it.end]) for one, it in pairs if before[one.start : one.end] != after[it.start : it.end]]
        if len(changed) != 1:
            raise Fault(f"{self.name}: it changes {len(changed)} functions instead of one")
        self.function, self.body = changed[0]
        before, _ = self.texts[self.function.path]
        if self.function.is_of_trait and not self.is_alone:
            raise Fault(f"{self.name}: a method of a trait can't be copied: add a line `alone`")
        if self.function.head(self.body) != self.function.head(before[self.function.start : self.function.end]):
            raise Fault(f"{self.name}: it changes text outside of the body")

    def replace(self, folder, path, within, old, new):
        if path not in self.texts:
            self.texts[path] = (read(f"{folder}/{path}"),) * 2
        before, text = self.texts[path]
        start, end = 0, len(text)
        if within:
            found = [it for it in functions_of(folder, path, text) if within in (it.name, it.short())]
            if len(found) != 1:
                raise Fault(f"{self.name}: {path} has {len(found)} functions {within} instead of one")
            start, end = found[0].start, found[0].end
        if not path.startswith("src/") or not old or text.count(old, start, end) != 1:
            raise Fault(f"{self.name}: its text occurs {text.count(old or '', start, end)} times in {path} instead of once")
        place = text.index(old, start, end)
        self.texts[path] = (before, text[:place] + new + text[place + len(old) :])


class DefinitionEdit:
    """A mutant of a file of `specs`: the changed text, and the function whose proof must be rejected."""

    def __init__(self, folder, name, text):
        self.name = name
        lines = dict(re.findall(r"^(file|by|old|new): ?(.*)$", text, re.M))
        self.path, old = lines.get("file", ""), lines.get("old", "")
        self.before = read(f"{folder}/{self.path}")
        if not self.path.startswith("specs/") or not old or self.before.count(old) != 1:
            raise Fault(f"{name}: its text occurs {self.before.count(old)} times in {self.path} instead of once")
        self.after = self.before.replace(old, lines.get("new", ""))
        if self.after == self.before:
            raise Fault(f"{name}: it changes nothing")
        found = [it for it in all_functions(folder) if lines["by"] in (it.name, it.short())]
        if len(found) != 1:
            raise Fault(f"{name}: the crate has {len(found)} functions {lines['by']} instead of one")
        self.function = found[0]

    @contextmanager
    def written(self, folder):
        """Writes the edit into a copy of the crate, and afterwards takes it back."""
        write(f"{folder}/{self.path}", self.after)
        yield
        write(f"{folder}/{self.path}", self.before)


class Copy:
    """A copy of a function under another name: unchanged, or with an edit."""

    def __init__(self, function, body, ending, edit):
        self.function, self.edit, self.name = function, edit, f"{function.name}_{ending}"
        body = re.sub(r"^ *(///.*|#\[no_mangle\]|#\[unsafe\(no_mangle\)\])\n", "", body, flags=re.M)
        self.text = re.sub(rf"(?:extern \"C\" )?\bfn {function.name}\b", f"fn {self.name}", body, count=1)

    def place(self):
        return [*self.function.place()[:-1], self.name]

    def write_proofs(self, folder):
        """Writes a copy of the function's written proof."""
        old, new = self.function.place(), self.place()
        source = f"{folder}/proofs/{'/'.join(old)}"
        if not os.path.isdir(source):
            return
        os.makedirs(f"{folder}/proofs/{'/'.join(new)}")
        for file in (it for it in os.listdir(source) if it.endswith(".antt")):
            text = re.sub(rf"\bproofs\.{re.escape('.'.join(old))}\b", f"proofs.{'.'.join(new)}", read(f"{source}/{file}"))
            write(f"{folder}/proofs/{'/'.join(new)}/{file}", text)


def names_itself(function, body):
    """Whether the body of a function contains its own name."""
    return re.search(rf"\b{function.name}\(", body.partition("{\n")[2])


def is_called(function, text):
    """Whether the body in a function's text seems to call `function`: a method after a value or its type, any other by its bare name."""
    qualifier = rf"(?:\.|\bSelf::|\b{function.block}(?:::<[^()]*>)?::)" if function.block else r"(?<![.\w])"
    return re.search(rf"{qualifier}{function.name}\(", text.partition("{\n")[2])


def original(edit):
    """The unchanged text of the function that an edit changes."""
    before, _ = edit.texts[edit.function.path]
    return before[edit.function.start : edit.function.end]


def texts_with_bodies(folder):
    """The texts of the functions that keep their bodies in each copy of a crate: methods of traits, and `const fn`."""
    for at, _, files in os.walk(f"{folder}/src"):
        for path in (os.path.relpath(f"{at}/{it}", folder) for it in files if it.endswith(".rt")):
            text = read(f"{folder}/{path}")
            for function in functions_of(folder, path, text):
                whole = text[function.start : function.end]
                if function.is_of_trait or "const fn " in whole:
                    yield whole


def edits_in_place(folder, edits):
    """The edits to check in place: those with a line `alone`, and each whose function has a written proof, no other edit, and a name
    that no other checked body contains. In place the written proof needs no renaming, so no unchanged copy has to be proved too."""
    chosen = [it for it in edits if it.is_alone]
    tried = [(edit, text) for edit in edits for text in (edit.body, original(edit))]
    others = [(None, it) for it in texts_with_bodies(folder)]
    for edit in (it for it in edits if not it.is_alone):
        function = edit.function
        is_twice = any(it.function.place() == function.place() for it in edits if it is not edit)
        is_named = any(is_called(function, text) for it, text in [*tried, *others] if it is not edit)
        has_proof = os.path.isdir(f"{folder}/proofs/{'/'.join(function.place())}")
        if has_proof and not is_twice and not is_named and not names_itself(function, original(edit)):
            chosen.append(edit)
    return chosen


def can_be_copied(edit):
    """Whether the function of an edit can have another name: it is no method of a trait, and its body doesn't contain its name."""
    return not edit.function.is_of_trait and not names_itself(edit.function, original(edit))


@cache
def proofs_of(folder):
    """The texts of a crate's proofs by their paths."""
    files = [f"{at}/{it}" for at, _, files in os.walk(f"{folder}/proofs") for it in files]
    return {os.path.relpath(it, folder): read(it) for it in sorted(files) if it.endswith(".antt")}


def written_proof(folder, function):
    """The written proof of one function."""
    return "".join(text for path, text in proofs_of(folder).items() if path.startswith(f"proofs/{'/'.join(function.place())}/"))


def has_independent_proof(folder, function, whole):
    """Whether no other proof names the written proof of a function, and the function is in no cycle of calls. The proof of a copy then
    only has another name in it, and is valid if the original is."""
    named = re.compile(rf"\bproofs\.{re.escape('.'.join(function.place()))}\b")
    own = f"proofs/{'/'.join(function.place())}/"
    return not CYCLE.search(whole) and not any(named.search(text) for path, text in proofs_of(folder).items() if not path.startswith(own))


def copies_of(folder, edits, in_place):
    """Two lists. First a copy with each edit that is not in `in_place`, the edits to check in place. Then unchanged copies, which must be
    proved: of each edited function whose proof isn't independent, and of the one with the shortest independent proof, which shows that
    copies can be proved. Only functions with a written proof, or with an edit `alone` that can be copied, get an unchanged copy."""
    mutants, unchanged, independent = [], {}, {}
    for number, edit in enumerate(edits):
        function, place, whole = edit.function, edit.function.place(), original(edit)
        if edit not in in_place and os.path.isdir(f"{folder}/proofs/{'/'.join(place)}") or edit.is_alone and can_be_copied(edit):
            group = independent if has_independent_proof(folder, function, whole) else unchanged
            group[tuple(place)] = Copy(function, whole, "as_it_is", None)
        if edit not in in_place:
            mutants.append(Copy(function, edit.body, f"mutant_{number}", edit))
    sample = sorted(independent.values(), key=lambda it: (len(written_proof(folder, it.function)), len(it.text)))[:1]
    return mutants, [*unchanged.values(), *sample]


def write_bodies(folder, copies, edits):
    """Writes the copies after their functions, and the edits in place of theirs."""
    written = {}
    for copy in copies:
        copy.write_proofs(folder)
        function = copy.function
        written.setdefault(function.path, []).append((function.end, function.end, f"\n{copy.text}"))
    for edit in edits:
        function = edit.function
        written.setdefault(function.path, []).append((function.start, function.end, edit.body))
    for path, changes in written.items():
        text = read(f"{folder}/{path}")
        for start, end, body in sorted(changes, key=lambda it: (-it[0], -it[1])):
            text = f"{text[:start]}{body}{text[end:]}"
        write(f"{folder}/{path}", text)


# The proof of a removed body, with a hole in place of the proof that no call gets there.
HOLE = "use Rattle.{0}.Goals as goal\n\npub unreachable-requires : goal.unreachable-requires\nunreachable-requires c = ?\n"


def hole_name(path):
    """The name of the hole in the proof of a function whose body is removed."""
    crate, *place = path.split("::")
    return ".".join(["Rattle", crate, "proofs", *place, "Answers", "unreachable-requires"])


def without_bodies(folder, path):
    """The text of a file without the bodies of its functions, except of `const fn` and methods of traits."""
    text = read(f"{folder}/{path}")
    for function in reversed(functions_of(folder, path, text)):
        whole = text[function.start : function.end]
        if not (function.is_of_trait or "const fn " in whole or whole.endswith("{}\n")):
            text = f"{text[: function.start]}{function.head(whole)}{text[function.end :]}"
    return text


def remove_bodies(folder, crate, kept):
    """Removes the bodies of the functions of a copy of a crate, except of those in `kept`, `const fn` and methods of traits. Callers only
    need the contract, which was proved before. A function without a body calls nothing, so it is in no cycle of calls. Returns the
    paths of the functions without bodies."""
    removed = set()
    for at, _, files in os.walk(f"{folder}/src"):
        for path in (os.path.relpath(f"{at}/{it}", folder) for it in sorted(files) if it.endswith(".rt")):
            text = read(f"{folder}/{path}")
            for function in reversed(functions_of(folder, path, text)):
                place, whole = function.place(), text[function.start : function.end]
                if tuple(place) in kept or function.is_of_trait or "const fn " in whole or whole.endswith("{}\n"):
                    continue
                indent, head = function.indent, function.head(whole)
                for cycle in CYCLE.findall(head):
                    shutil.rmtree(f"{folder}/proofs/{'/'.join(place[:-1])}/+{cycle}", ignore_errors=True)
                text = f"{text[: function.start]}{CYCLE.sub('', head).rstrip()}\n{indent}{{\n{indent}    unreachable!()\n{indent}}}\n{text[function.end :]}"
                proof = f"{folder}/proofs/{'/'.join(place)}"
                os.makedirs(proof, exist_ok=True)
                for file in (it for it in os.listdir(proof) if it in ("Answers.antt", "Invariants.antt")):
                    os.remove(f"{proof}/{file}")
                write(f"{proof}/Answers.antt", HOLE.format(".".join([crate, "proofs", *place])))
                removed.add("::".join([crate, *place]))
            write(f"{folder}/{path}", text)
    return removed
