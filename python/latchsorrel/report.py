"""Runs `ga144 check --json`, and reads its objects."""

from __future__ import annotations

import json
import os
import subprocess
from dataclasses import dataclass, fields
from typing import ClassVar

# The exit statuses with a report: each expectation holds, the program is refused, one is broken, one isn't known.
HOLDS, REFUSED, BROKEN, UNKNOWN = 0, 1, 5, 6


class CheckError(Exception):
    """The program gave no report: a stream failed, or the command line is refused."""


@dataclass(frozen=True)
class Event:
    """An event: `fetch`, `run` of an opcode, `wait` or `stop` of a node, or a `pass` of a word from it to a reader."""

    event: str
    node: str
    step: int
    opcode: int | None = None
    stop: int | None = None
    reader: str | None = None
    reader_step: int | None = None
    word: int | None = None

    def __str__(self):
        if self.event == "pass":
            return f"pass {self.node} {self.step} {self.reader} {self.reader_step} {self.word:06x}"
        number = f" {self.opcode:02x}" if self.event == "run" else f" {self.stop}" if self.event == "stop" else ""
        return f"{self.node} {self.step} {self.event}{number}"


@dataclass(frozen=True)
class Expectation:
    """An expectation of a source, with what is known of it: it `holds` in every order, is `broken`, or is `unknown`; and the event that decides that
    it is broken, with the other."""

    number: int
    line: int
    text: str | None
    outcome: str
    because: str | None = None
    session: int | None = None
    value: int | None = None
    sides: str | None = None
    stop: int | None = None
    event: Event | None = None
    ends: int | None = None
    place: int | None = None
    decision: tuple[Event, ...] = ()

    def found(self):
        """What was there, in the words of `ga144 check`."""
        words = {
            None: {"holds": "holds in every order", "unknown": "not known"}.get(self.outcome),
            "value": f"is {self.value or 0:06x}",
            "awaits code": "waits for code",
            "reads": f"waits to read {self.sides}",
            "writes": f"waits to write {self.sides}",
            "word": f"word {self.place} is {self.value or 0:06x}",
            "further word": f"a further word is {self.value or 0:06x}",
            "no word": f"word {self.place} never comes",
            "stop": f"stop {self.stop}",
            "event": str(self.event),
            "endless": "some order goes on for ever",
            "ends": f"{self.ends} ends",
        }
        return words.get(self.because, self.because)


@dataclass(frozen=True)
class NodeEnd:
    """What a node does at an end: it `goes on`, `reads`, `writes`, or is at a `stop`."""

    node: str
    does: str
    clean: bool
    stop: int | None = None


@dataclass(frozen=True)
class End:
    """A kind of end, with the nodes that aren't idle there, and the event that decides that it isn't clean, with the other."""

    number: int
    clean: bool
    ways: int
    nodes: tuple[NodeEnd, ...]
    decision: tuple[Event, ...] = ()


@dataclass(frozen=True)
class Never:
    """What is known of the conditions of `--never`; of a broken one its number, the number of events, and the last."""

    outcome: str
    condition: int | None = None
    events: int | None = None
    event: Event | None = None


@dataclass(frozen=True)
class Same:
    """What is known with `--same` of one end in every order, and the number of ends that were found."""

    outcome: str
    ends: int
    text: ClassVar[str] = "one end"
    session: ClassVar[None] = None

    def found(self):
        """What was found, in the words of `ga144 check`."""
        return {"holds": "holds in every order", "unknown": "not known"}.get(self.outcome, f"{self.ends} ends")


@dataclass(frozen=True)
class Refusal:
    """Why a program isn't checked, with the line of its source if it is a fault of one."""

    line: int | None
    text: str | None


@dataclass(frozen=True)
class Report:
    """What was found of the program of a file."""

    file: str
    status: int
    states: int | None = None
    explored: bool | None = None
    stopped: str | None = None
    endless: str | None = None
    expectations: tuple[Expectation, ...] = ()
    ends: tuple[End, ...] = ()
    never: Never | None = None
    same: Same | None = None
    refusals: tuple[Refusal, ...] = ()

    @property
    def holds(self):
        """Whether each expectation holds in every order, or each end is clean, or no event comes after which a condition holds; with `--same` also one
        end."""
        return self.status == HOLDS


def chosen(kind, it, **more):
    """A value of a class from the fields of an object that it has."""
    names = {field.name for field in fields(kind)} - set(more)
    return kind(**{name: it[name] for name in names if name in it}, **more)


def event_of(it):
    return chosen(Event, it) if "event" in it else None


def decision_of(objects, number):
    """What decides of the kind of end or the expectation of this number: the event that is taken, and the other."""
    return tuple(event_of(it) for it in objects if it["answer"] == "decision" and it["number"] == number)


def ends_of(objects):
    return tuple(
        chosen(End, it, nodes=tuple(chosen(NodeEnd, row) for row in it["rows"]), decision=decision_of(objects, it["number"]))
        for it in objects
        if it["answer"] == "end"
    )


def expectations_of(objects):
    return tuple(
        chosen(Expectation, it, event=event_of(it), decision=decision_of(objects, it["number"])) for it in objects if it["answer"] == "expectation"
    )


def report_of(objects, file, status):
    """The report of a file from its objects."""
    search = next((it for it in objects if it["answer"] in ("expectations", "ends", "never")), {})
    never = next((chosen(Never, it, event=event_of(it)) for it in objects if it["answer"] == "never"), None)
    return Report(
        file,
        status,
        **{name: search.get(name) for name in ("states", "explored", "stopped", "endless")},
        expectations=expectations_of(objects),
        ends=ends_of(objects),
        never=never,
        same=next((chosen(Same, it) for it in objects if it["answer"] == "same"), None),
        refusals=tuple(chosen(Refusal, it) for it in objects if it["answer"] == "refused"),
    )


def check(path, *options, program=None):
    """What `ga144 check --json` finds of the program of a file. The program is `ga144`, or the environment's GA144."""
    words = [program or os.environ.get("GA144", "ga144"), "check", "--json", *options, "--", os.fspath(path)]
    ran = subprocess.run(words, stdin=subprocess.DEVNULL, capture_output=True, check=False)
    if ran.returncode not in (HOLDS, REFUSED, BROKEN, UNKNOWN):
        raise CheckError(ran.stderr.decode(errors="replace").strip() or f"status {ran.returncode}")
    return report_of([json.loads(line) for line in ran.stdout.splitlines()], os.fspath(path), ran.returncode)
