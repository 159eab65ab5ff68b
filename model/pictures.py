#!/usr/bin/env python3
"""Generates sessions, parses the program's pictures of them, and compares these with the rules of docs/REFERENCE.md ("Pictures") for the
events of the reference model.

pictures.py PROGRAM FIRST COUNT: COUNT pictures, each generated from its number, from FIRST on.
pictures.py --compare: the pictures of docs/pictures, with the sessions and arguments in .ci/files.

The contents of a picture are lines of text, such as `black: dot 001, '5 dup', title '001 5 run 18 dup'`. The coordinates of lines and rows
come from the picture: a node's line from its name, the rows from the first two, since the distance between rows is constant.
"""

import re
import subprocess
import sys
from itertools import zip_longest

from explore import Explorer
from exploring import Session
from files import answer, opened
from listing import NAMES
from machine import NODES, name
from node import SIDES, neighbour
from sessions import DEFAULT_LIMIT, EXPLORED_LIMIT, SECONDS

COLOURS = {"k": "black", "g": "grey", "r": "red"}
MARKS = {"fetch": "ring", "run": "dot", "wait": "bar", "stop": "cross", "many": "box"}
NUMBER = r"(-?\d+(?:\.\d+)?)"
SHAPES = {
    "ring": rf"<circle class='o' cx='{NUMBER}' cy='{NUMBER}' r='[\d.]+'/>",
    "dot": rf"<circle class='f' cx='{NUMBER}' cy='{NUMBER}' r='[\d.]+'/>",
    "bar": rf"<path d='M{NUMBER} {NUMBER}m-6 0h12'/>",
    "cross": rf"<path d='M{NUMBER} {NUMBER}m-5 -5l10 10m-10 0l10 -10'/>",
    "box": rf"<path class='f' d='M{NUMBER} {NUMBER}m-3 -6h6v12h-6z'/>",
    "dashed": rf"<path class='d' d='M{NUMBER} {NUMBER}H{NUMBER}'/>",
    "shaft": rf"<path d='M{NUMBER} {NUMBER}H{NUMBER}'/>",
    "head": rf"<path class='f' d='M{NUMBER} {NUMBER}l{NUMBER} -4v8z'/>",
    "beside": rf"<text x='{NUMBER}' y='{NUMBER}'>([^<]*)</text>",
    "middle": rf"<text class='m' x='{NUMBER}' y='{NUMBER}'>([^<]*)</text>",
    "before": rf"<text class='e' x='{NUMBER}' y='{NUMBER}'>([^<]*)</text>",
}
GROUP = re.compile(r"<g class='([kgr])'><title>([^<]*)</title>(.*)</g>")
# A race: a ring around the step, and the other word next to it.
RACE = re.compile(rf"<g class='c'><title>([^<]*)</title><circle cx='{NUMBER}' cy='{NUMBER}' r='[\d.]+'/><text( class='e')? x='{NUMBER}' y='{NUMBER}'>([^<]*)</text></g>")
NAMED = re.compile(rf"<text class='n' x='{NUMBER}' y='{NUMBER}'>(\d\d\d)</text><line class='l' x1='{NUMBER}' y1='{NUMBER}' x2='{NUMBER}' y2='{NUMBER}'/>")
TRACK = re.compile(rf"<path class='([tw])' d='M{NUMBER} {NUMBER}V{NUMBER}'/>")
FOOT = re.compile(rf"<text x='{NUMBER}' y='{NUMBER}'>(by itself: [^<]*)</text>")
# The maximum vertical distance of a text from its event.
NEAR = 8
# The number of the picture whose events are known without a replay, and the number of its events that are drawn.
MILLION, DRAWN = 99, 101000
USUAL_FOLD = 3
JUMPING = "ga144 1\nnode 000\np 000000\nram 00 010000\nend\nrun greedy 1000001\n"
# Every 25th number, from LONG on, is a session with a node that runs for long before each word that it sends, and a node that takes them.
LONG, FAR = 12, "node 000 : main 300 for . . unext right b! 5 !b main ;\nnode 001 : main right b! @b drop main ;\nend\nrun greedy 3000\n"


class Unread(Exception):
    """The reason why a picture can't be parsed."""


# The expected contents.


class Row:
    """A drawn event: its nodes, its text, whether it looked, its colour, and the number of events of its row."""

    def __init__(self, event, text, looked, colour):
        self.event, self.words, self.looked, self.colour, self.many, self.races = event, text.split(" "), looked, colour, 1, []

    def kind(self):
        return self.words[2] if len(self.event) == 1 else "pass"

    def text(self, lined):
        """Its line of contents, if these nodes have lines in the picture."""
        title = " ".join(self.words)
        if len(self.event) == 2:
            _, writer, step, reader, its, word = self.words
            return f"{self.colour}: arrow {writer} {step} to {reader} {its}, '{word}', title '{title}'"
        node, (_, step, kind, *more) = self.event[0], self.words
        if self.many > 1:
            last = int(step) + self.many - 1
            return f"{self.colour}: box {name(node)}, '{step} to {last}: {self.many}', title '{name(node)} {step} to {last}, {self.many} steps'"
        what, title = " ".join([kind, *more]), title
        if kind == "run":
            what = NAMES[int(more[0], 16)]
            title += f" {what}"
        beside = [neighbour(node, side) for side in SIDES] if self.looked else []
        dashed = "".join(f", dashed {name(it)}" for it in sorted(it for it in beside if it in lined))
        return f"{self.colour}: {MARKS[kind]} {name(node)}, '{step} {what}'{dashed}, title '{title}'"


def tracks_of(rows, node):
    """The rows between which a node runs or waits; `top` and `foot` are the ends of its line."""
    since, waits, last = None, False, None
    for place, row in enumerate(rows):
        if node not in row.event:
            continue
        if row.kind() == "pass":
            yield "dotted", "top" if since is None else since, place
            since, waits = place, False
        elif row.kind() == "wait":
            yield "solid", place if since is None else since, place
            since, waits = place, True
        elif since is None:
            since = place
        last = place
    yield ("dotted", since, "foot") if waits else ("solid", since, last)


def seen_of(rows, foot):
    """The contents of a picture of these events and this foot."""
    lined = sorted({node for row in rows for node in row.event})
    lines = ["lines " + " ".join(map(name, lined))]
    for node in lined:
        lines += sorted(f"{how} {name(node)} {start} to {end}" for how, start, end in tracks_of(rows, node) if start != end)
    races = sorted(f"race at {place}: {it}" for place, row in enumerate(rows) for it in row.races)
    return lines + foot + [f"{place} {row.text(lined)}" for place, row in enumerate(rows)] + races


def race_seen(line):
    """The contents for a line of `races`: the node with the ring, and the other word on the side of the neighbour that it comes from."""
    node = line[:3]
    word, beside = re.search(r", or (\w{6}) (?:from|before|behind) (\d{3})", line).groups()
    side = f"{'left' if beside < node else 'right'} {'next' if beside[0] == node[0] else 'behind'}"
    return f"{node}, {side} 'or {word}', title '{line}'"


# The parser.


def pieces_of(text):
    """The shapes in a text, each with its numbers and words."""
    while text:
        shape = next(((kind, it) for kind, form in SHAPES.items() if (it := re.match(form, text))), None)
        if not shape:
            raise Unread(f"unknown: {text[:60]}")
        yield shape[0], [float(it) if re.fullmatch(NUMBER, it) and at < 2 else it for at, it in enumerate(shape[1].groups())]
        text = text[shape[1].end() :]


class Picture:
    def __init__(self, text):
        head, style, body = re.fullmatch(r"(<svg [^>]*>)\n<style>\n(.*)</style>\n<rect [^>]*/>\n(.*)</svg>\n", text, re.S).groups()
        self.styled(style)
        self.bottom = 0.0
        self.width, self.height = map(float, re.fullmatch(rf"<svg .* viewBox='0 0 {NUMBER} {NUMBER}' .*>", head).groups())
        self.names, self.tracks, self.foot, self.groups, self.races = {}, [], [], [], []
        for line in body.splitlines():
            named, track, foot, group, race = (it.fullmatch(line) for it in (NAMED, TRACK, FOOT, GROUP, RACE))
            if named:
                self.line(*named.groups())
            elif track:
                self.tracks.append([track[1], *map(float, track.groups()[1:])])
            elif foot:
                self.foot.append((float(foot[1]), float(foot[2]), foot[3]))
            elif group and not self.races:
                self.groups.append((group[1], group[2], list(pieces_of(group[3]))))
            elif race:
                self.races.append((race[1], float(race[2]), float(race[3]), race[4], float(race[5]), float(race[6]), race[7]))
            else:
                raise Unread(f"unknown: {line[:60]}")
        lowest = self.bottom
        for x, y, text in self.foot:
            if not lowest + 9 <= y <= self.height - 4 or not 0 < x < x + 6.7 * len(text) <= self.width:
                raise Unread(f"the place of '{text}'")
            lowest = y
        heights = [pieces[0][1][1] for _, _, pieces in self.groups[:2]]
        self.first = heights[0] if heights else self.height
        self.apart = heights[1] - heights[0] if len(heights) > 1 else self.height

    def styled(self, style):
        """Checks the classes: dotted and dashed lines, and the colours, of which red has wider lines."""
        rules = dict(re.findall(r"^(.*)\{(.*)\}$", style, re.M))
        grey, red = (re.search("stroke:#([0-9a-f]+)", rules[f".{it} line,.{it} path,.{it} circle"])[1] for it in "gr")
        wide = [float(re.search("stroke-width:([0-9.]+)", rules[it])[1]) for it in ("line,path,circle", ".r line,.r path,.r circle")]
        violet = re.search("stroke:#([0-9a-f]{6})", rules[".c circle"])[1]
        if violet in (grey, red) or not (grey[0] == grey[-1] > "5" and red[:2] > "c0" and red[4:] < "40" and wide[0] < wide[1] and "dasharray" in rules[".w"] and "dasharray" in rules[".d"]):
            raise Unread("the classes of colours and lines")

    def line(self, x, y, node, start, top, end, bottom):
        if not x == start == end or not float(y) < float(top) < float(bottom) <= self.height or not 0 < float(x) < self.width:
            raise Unread(f"the line of {node}")
        if node in self.names.values() or self.names and float(x) <= max(self.names):
            raise Unread(f"the place of the line of {node}")
        self.names[float(x)], self.bottom = node, float(bottom)

    def row(self, y):
        """The row at a height; `top` is above the first one, `foot` below the last one."""
        place = (y - self.first) / self.apart
        return "top" if place < 0 else "foot" if place > len(self.groups) - 1 else int(place) if place == int(place) else f"height {y}"

    def seen(self):
        lines = ["lines " + " ".join(self.names.values())]
        for x, node in self.names.items():
            mine = [(it, self.row(start), self.row(end)) for it, at, start, end in self.tracks if at == x]
            lines += sorted(f"{'solid' if it == 't' else 'dotted'} {node} {start} to {end}" for it, start, end in mine)
        lines += [f"a track at {it[1]}" for it in self.tracks if it[1] not in self.names]
        lines += [text for _, _, text in self.foot]
        return lines + [self.group(*it) for it in self.groups] + sorted(self.race(*it) for it in self.races)

    def race(self, title, x, y, ends, at, base, label):
        apart = x - at if ends else at - x
        if not (0 < apart < 75 and 0 < base - y < self.apart):
            raise Unread(f"the place of '{label}'")
        return f"race at {self.row(y)}: {self.names[x]}, {'left' if ends else 'right'} {'next' if apart < 20 else 'behind'} '{label}', title '{title}'"

    def group(self, colour, title, pieces):
        x, y = pieces[-1][1][:2] if pieces[-1][0] in MARKS.values() else pieces[0][1][:2]
        kinds = [kind for kind, _ in pieces]
        own = next(((kind, of) for kind, of in pieces if kind in MARKS.values()), None)
        seen = self.own(*own, kinds, pieces) if own else self.arrow(kinds, pieces)
        row = self.row(own[1][1] if own else y)
        return f"{row} {COLOURS[colour]}: {seen}, title '{title}'"

    def own(self, mark, at, kinds, pieces):
        dashed = [of for kind, of in pieces if kind == "dashed"]
        labels = [of for kind, of in pieces if kind == "beside"]
        if len(kinds) != len(dashed) + 2 or len(labels) != 1 or any(of[:2] != at for of in dashed):
            raise Unread(f"the shapes {kinds}")
        (x, y, label), = labels
        if not 0 < x - at[0] < 20 or abs(y - at[1]) > NEAR:
            raise Unread(f"the place of '{label}'")
        to = "".join(f", dashed {it}" for it in sorted(self.names[float(of[2])] for of in dashed))
        return f"{mark} {self.names[at[0]]}, '{label}'{to}"

    def arrow(self, kinds, pieces):
        if kinds != ["shaft", "head", "middle", "before", "beside"]:
            raise Unread(f"the shapes {kinds}")
        (start, y, end), (tip, height, back), word, before, beside = (of for _, of in pieces)
        left, right = sorted((start, float(end)))
        placed = word[1] < y and y - word[1] <= NEAR and left < word[0] < right and 0 < left - before[0] < 20 and 0 < beside[0] - right < 20
        if not placed or tip != float(end) or height != y or (float(back) < 0) != (start < tip) or max(abs(it[1] - y) for it in (before, beside)) > NEAR:
            raise Unread("the places of an arrow's parts")
        steps = {left: before[2], right: beside[2]}
        return f"arrow {self.names[start]} {steps[start]} to {self.names[tip]} {steps[tip]}, '{word[2]}'"


# Sessions, and the options of their pictures.


def seen_by(machine, at):
    """The nodes that an event touches or observes by a look. It depends directly on an earlier event that touches one of these."""
    event = machine.events[at]
    return {*event, *(neighbour(event[0], side) for side in SIDES if machine.looked[at])}


def colours_of(machine, cause, rewind):
    """The colour of each event, for these steps of --cause and --rewind."""
    count = len(machine.events)
    leads, goes = [not cause] * count, [False] * count
    first, last = (machine.place(*it) if it else count for it in (rewind, cause))
    needed, gone = set(), set()
    for at in reversed(range(last + 1 if cause else 0)):
        if at == last or needed & {*machine.events[at]}:
            leads[at] = True
            needed |= seen_by(machine, at)
    for at in range(first, count):
        if at == first or gone & seen_by(machine, at):
            goes[at] = True
            gone |= {*machine.events[at]}
    return ["red" if goes[at] else "black" if leads[at] else "grey" for at in range(count)]


class View:
    """The options of a picture: the steps of --cause and --rewind; the first and the last event, numbered from 1; whether to draw idle nodes;
    whether to draw only causes and effects; the number of events of a run from which they are drawn as one, or 0 for never; and whether to
    mark races."""

    def __init__(self):
        self.cause, self.rewind, self.start, self.end, self.all, self.only, self.fold, self.races = None, None, 1, None, False, False, USUAL_FOLD, False


def rows_of(machine, view):
    """The drawn rows and the lines of the foot, or None if there is no such step."""
    steps = [it for it in (view.cause, view.rewind) if it]
    named = {machine.place(*it) for it in steps}
    if None in named:
        return None
    colours, idle = colours_of(machine, view.cause, view.rewind), Explorer.idle(machine)
    places = range(len(machine.events))[view.start - 1 : view.end]
    asked = ["red"] + ["black"] * bool(view.cause)
    rows, races = [], {}
    for line in Explorer.answer_races(machine, None).split("\n")[1:] if view.races else []:
        if line[:3].isdecimal():
            node, step, *_ = line.split(" ")
            races.setdefault(machine.place(number_of(node), int(step)), []).append(race_seen(line))
    for at in places:
        row = Row(machine.events[at], machine.told[at], machine.looked[at], colours[at])
        silent = row.event[0] in idle and not view.all or bool(steps) and view.only
        row.out = silent and row.colour not in asked
        row.plain = row.kind() in ("fetch", "run") and not (row.looked or at in named or row.out)
        row.sees, row.races = seen_by(machine, at), races.get(at, [])
        rows.append(row)
    lone = set() if view.all else lone_in([row for row in rows if not row.out], asked, view.races)
    steps = {node: 0 for node in sorted(lone)}
    for row in rows:
        if row.event[0] in lone and not row.out:
            steps[row.event[0]] += 1
            row.out, row.plain = True, False
    foot = [f"by itself: {name(node)}, {count} step{'s' * (count != 1)}" for node, count in steps.items()]
    return list(folded(rows, view.fold)), foot


def lone_in(rows, asked, races):
    """The independent nodes, if there are others: nothing connects them with another node or with the causes and effects."""
    nodes, tied = {node for row in rows for node in row.event}, set()
    for row in rows:
        if row.kind() in ("pass", "wait", "stop") or row.colour in asked or races and row.looked:
            tied |= {*row.event}
        beside = row.sees & nodes - {*row.event}
        if beside:
            tied |= beside | {*row.event}
    return nodes - tied if tied else set()


def folded(rows, fold):
    """The rows to draw. A run is a series of plain events of one node in one colour, with no event in between that touches or observes the
    node; of a run with at least `fold` events, only the first is drawn."""
    runs, last = [], {}
    for row in rows:
        run = last.get(row.event[0])
        if row.plain and run and run[-1].colour == row.colour:
            run.append(row)
            continue
        last.update((node, None) for node in row.sees)
        if not row.out:
            runs.append([row])
        if row.plain:
            last[row.event[0]] = runs[-1]
    shown = [[(run[0], len(run))] if fold and len(run) >= fold else [(row, 1) for row in run] for run in runs]
    for row, many in sorted(sum(shown, []), key=lambda it: rows.index(it[0])):
        row.many = many
        yield row


class Drawn:
    """A session, and the options of its picture."""

    def __init__(self, number):
        self.made = Session(number)
        self.draw, self.machine = self.made.random, self.made.machine
        self.machine.limit = EXPLORED_LIMIT
        self.text = self.made.front
        self.words, self.view = [], View()
        if number % 25 == LONG:
            self.begin_far()
        else:
            self.make_commands()
        self.choose(number % 25 == LONG)

    def make_commands(self):
        """Adds commands, and lines without effect."""
        pick = self.draw.choice
        for _ in range(self.draw.randint(1, 8)):
            node = self.made.node()
            line = pick((f"run {pick((1, 9, 60, 160))}", f"run greedy {pick((5, 40))}", f"run random {self.draw.randrange(99)} {pick((20, 150))}",
                "back", f"rewind {name(node)} {self.made.numbered_step(node)}", f"step {name(node)}", "foo", "trace 000", f"rewind {name(node)} 99999"))  # fmt: skip
            self.obey(line)
        if self.draw.random() < 0.2:
            self.text += "quit\nrun 5\n"

    def obey(self, line):
        self.text += f"{line}\n"
        verb, *words = line.split(" ")
        if verb == "run":
            self.machine.explored(line)
        elif verb == "back":
            self.machine.back()
        elif verb == "rewind":
            self.machine.rewind(number_of(words[0]), int(words[1]))
        elif verb == "step":
            self.machine.step(number_of(words[0]))

    def begin_far(self):
        self.made.begin_with_source(FAR.split("end\n")[0], self.draw)
        self.machine, self.text = self.made.machine, self.made.front
        self.machine.limit = EXPLORED_LIMIT
        self.obey(FAR.splitlines()[-1])

    def choose(self, is_far):
        count, pick, view = len(self.machine.events), self.draw.randint, self.view
        if not is_far and self.draw.random() < 0.5:
            view.cause = self.option("--cause")
        if not is_far and self.draw.random() < 0.5:
            view.rewind = self.option("--rewind")
        if is_far or self.draw.random() < 0.5:
            view.start = pick(max(count - 1200, 1), count) if is_far else pick(1, count + 2)
            self.words += ["--from", str(view.start)]
        if self.draw.random() < 0.5:
            view.end = pick(max(1, view.start - 2), count + 2)
            self.words += ["--to", str(view.end)]
        if self.draw.random() < 0.5:
            view.fold = self.draw.choice((0, 0, 1, 2, 4, 9))
            self.words += ["--fold", str(view.fold)]
        for word in ("all", "only", "races"):
            if self.draw.random() < 0.3 and not (is_far and word == "races"):
                setattr(view, word, True)
                self.words.append(f"--{word}")

    def option(self, word):
        node = self.made.node()
        step = "last" if self.draw.random() < 0.2 else str(self.made.numbered_step(node))
        self.words += [word, name(node), step]
        return node, step_of(self.machine, node, step)


def number_of(node):
    return 18 * int(node[0]) + int(node[1:])


def step_of(machine, node, word):
    """The number of a step that an option names; 0 for the last of a node that made none."""
    return sum(node in event for event in machine.events) if word == "last" else int(word)


def picture(number):
    """A session's text, the arguments of its picture, and the expected rows and foot, or None."""
    if number == MILLION:
        steps = range(DEFAULT_LIMIT - DRAWN + 1, DEFAULT_LIMIT + 1)
        return JUMPING, ["--limit", str(DEFAULT_LIMIT), "--fold", "0", "--from", str(steps[0])], ([Row((0,), f"000 {it} {'fetch' if it % 2 else 'run 02'}", False, "black") for it in steps], [])
    it = Drawn(number)
    return it.text, it.words, rows_of(it.machine, it.view)


def difference_of(wanted, text):
    """The first difference of a picture's contents from the expected ones, or None."""
    try:
        for line, (ours, its) in enumerate(zip_longest(seen_of(*wanted), Picture(text).seen()), 1):
            if ours != its:
                return f"line {line}: the picture has '{its}' instead of '{ours}'"
    except (Unread, AttributeError, KeyError) as error:
        return f"the picture can't be parsed: {error}"
    return None


def difference(program, number):
    """The number of rows of a picture, and a difference from the expected contents, or None."""
    text, words, wanted = picture(number)
    ran = subprocess.run([program, "draw", *words], input=text, capture_output=True, text=True, timeout=SECONDS)
    if wanted is None:
        return 0, None if (ran.returncode, ran.stdout) == (1, "no 6 nostep\n") else f"draw {' '.join(words)}: the program does not refuse it"
    if ran.returncode or ran.stderr:
        return 0, f"the program ended with status {ran.returncode} and the error '{ran.stderr.strip()}'"
    what = difference_of(wanted, ran.stdout)
    return len(wanted[0]), what and f"draw {' '.join(words)}: {what}"


def compared(row):
    """The difference of a picture of docs/pictures, with its row in .ci/files, from the expected contents, or None."""
    shown, session, *words = row.replace("=", " ").split()
    machine, commands = opened(session)
    for line in commands:
        if line.startswith(("step ", "back", "run")):
            answer(machine, line)
    view, options = View(), {it: words[at + 1 : at + 3] for at, it in enumerate(words) if it.startswith("--")}
    for word, given in options.items():
        if word in ("--cause", "--rewind"):
            node = number_of(given[0])
            setattr(view, word[2:], (node, step_of(machine, node, given[1])))
        elif word in ("--all", "--only", "--races"):
            setattr(view, word[2:], True)
        else:
            setattr(view, {"--from": "start", "--to": "end", "--fold": "fold"}[word], int(given[0]))
    with open(f"docs/pictures/{shown}.svg", encoding="utf-8") as file:
        return difference_of(rows_of(machine, view), file.read())


def main():
    if sys.argv[1:] == ["--compare"]:
        rows = [it for it in open(".ci/files", encoding="utf-8") if re.match(r"\w+ examples/", it)]
        wrong = [f"docs/pictures: {it.split()[0]}: {what}" for it in rows if (what := compared(it))]
        if wrong or not rows:
            sys.exit("\n".join(wrong or ["no rows"]))
        print(f"{len(rows)} pictures in files: all are right")
        return
    if len(sys.argv) != 4 or not all(it.isdecimal() for it in sys.argv[2:]) or int(sys.argv[3]) == 0:
        sys.exit("usage: pictures.py PROGRAM FIRST COUNT, with COUNT at least 1")
    program, first, count = sys.argv[1], int(sys.argv[2]), int(sys.argv[3])
    events = 0
    for number in range(first, first + count):
        made, what = difference(program, number)
        events += made
        if what:
            sys.exit(f"picture {number}: {what}")
    print(f"{count} pictures with {events} events: all are right")


if __name__ == "__main__":
    main()
