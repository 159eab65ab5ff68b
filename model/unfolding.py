#!/usr/bin/env python3
"""Unfolds the lines of `whence`.

unfolding.py FILE..: for steps of each session, the runs of all lines have exactly the values that went into that of the step, each once;
the steps of a run are equally far apart; and fewer lines are the first of all.
"""

import sys

import explore
import files
from whence import asked_of, lines_of

# the distance of the queried steps, and the lengths of the first lines
EVERY, FIRST = 7, (1, 3, 10, 50)
ALL = 1 << 30


def below(first, made):
    """The tags from which one was made, and itself."""
    told, todo = set(), [first]
    while todo:
        tag = todo.pop()
        if tag not in told:
            told.add(tag)
            todo += made[tag]
    return told


def wrong(first, made, deeds):
    """What is wrong with the lines of a tag, or None; and how many runs they have."""
    lines, whole = lines_of(first, made, deeds, ALL)
    listed = [tag for _, run in lines for tag in run]
    runs = [[before[1] - after[1] for before, after in zip(run, run[1:])] for _, run in lines if len(run) > 1]
    if not whole or len(listed) != len({*listed}) or {*listed} != below(first, made):
        return "other values", runs
    if any(len({*apart}) > 1 for apart in runs):
        return "a run with unequal steps", runs
    if any(lines_of(first, made, deeds, count) != (lines[:count], len(lines) <= count) for count in FIRST):
        return "other first lines", runs
    return None, runs


def main():
    trees = runs = 0
    for path in sys.argv[1:]:
        machine, commands = files.opened(path)
        for command in commands:
            if command.split(" ")[0] in ("run", "step"):
                files.answer(machine, command)
        passed, deeds, _ = machine.followed()
        asked, made = asked_of(passed, explore.NODES)
        for first in [tag for tag in asked.values() if tag][::EVERY]:
            what, found = wrong(first, made, deeds)
            if what:
                sys.exit(f"{path}: {first}: {what}")
            trees, runs = trees + 1, runs + len(found)
    print(f"{trees} listings with {runs} runs agree")


if __name__ == "__main__":
    main()
