"""A session of `ga144 explore --json`: a method for each command, answers as data (docs/JSON.md)."""

from __future__ import annotations

import json
import os
import subprocess
import tempfile
from types import TracebackType
from typing import Any

Answer = dict[str, Any]
"""An answer: the object that docs/JSON.md has for the command. Nodes are strings as "101", words and steps numbers."""


class SessionError(Exception):
    """There is no session, or no more: the source is refused, a stream failed, or the program has ended."""


class Refused(Exception):
    """A command was refused, and changed nothing: its line, the number and the word of the refusal, and what to change, if the answer has it."""

    def __init__(self, line: str, number: int, word: str, cure: str | None = None):
        super().__init__(f"{line}: no {number} {word}" + (f": {cure}" if cure else ""))
        self.line, self.number, self.word, self.cure = line, number, word, cure


class Session:
    """A program of a file, an image or source, whose nodes make steps by commands.

    The program is `ga144`, or the environment's GA144; the options are those of `ga144 explore`. Ends with a `with` statement, or by `close`.
    Each method raises Refused if the command is refused. Commands that the file has after its line `end`, as a saved session has, are carried out first.
    """

    def __init__(self, path: str | os.PathLike[str], *options: str, program: str | None = None):
        self.path = os.fspath(path)
        if self.path == "-":
            raise ValueError("a session reads commands from its standard input: give the program in a file")
        words = [program or os.environ.get("GA144", "ga144"), "explore", "--json", *options, "--", self.path]
        self._errors = tempfile.TemporaryFile()
        self._process = subprocess.Popen(words, stdin=subprocess.PIPE, stdout=subprocess.PIPE, stderr=self._errors)
        assert self._process.stdin and self._process.stdout
        self._input, self._output = self._process.stdin, self._process.stdout
        self._begin()

    def __enter__(self) -> Session:
        return self

    def __exit__(self, kind: type[BaseException] | None, value: BaseException | None, trace: TracebackType | None) -> None:
        self.close()

    def close(self) -> None:
        """Ends the session."""
        if self._input.closed:
            return
        try:
            self._input.close()
        except BrokenPipeError:
            pass
        self._output.close()
        self._process.wait()
        self._errors.close()

    # ---- lines

    def _begin(self) -> None:
        """Reads that the session is ready, or why it isn't."""
        try:
            answer = self._read()
            if answer["answer"] != "ready":
                raise SessionError("\n".join(_reason(it) for it in (answer, *map(json.loads, self._output))))
            self._answer_file()
        except BaseException:
            self.close()
            raise

    def _answer_file(self) -> None:
        """Reads the answers to the lines that the file has after its line `end`, up to `quit`."""
        with open(self.path, "rb") as file:
            lines = file.read().split(b"\n")
        commands = lines[lines.index(b"end") + 1 :] if b"end" in lines else []
        if commands and not commands[-1]:
            commands.pop()
        for line in commands[: commands.index(b"quit")] if b"quit" in commands else commands:
            self._answer(line.decode(errors="replace"))

    def _read(self) -> Answer:
        line = self._output.readline()
        if not line.endswith(b"\n"):
            status = self._process.wait()
            self._errors.seek(0)
            raise SessionError(self._errors.read().decode(errors="replace").strip() or f"ga144 ended with status {status}")
        return json.loads(line)

    def command(self, line: str) -> Answer:
        """The answer to a line of a session, as it is typed."""
        if "\n" in line:
            raise ValueError("a command is one line")
        if self._input.closed:
            raise SessionError("the session is closed")
        self._send(line.encode())
        return self._answer(line)

    def _send(self, line: bytes) -> None:
        try:
            self._input.write(line + b"\n")
            self._input.flush()
        except BrokenPipeError:
            pass

    def _answer(self, line: str) -> Answer:
        answer = self._read()
        if "refused" in answer:
            raise Refused(line, answer["refused"], answer["why"], answer.get("hint"))
        return answer

    def _spelled(self, *words: object) -> Answer:
        return self.command(" ".join(str(word) for word in words if word is not None))

    # ---- commands that change the chip

    def step(self, node: str) -> Answer:
        """Makes the next event of a node."""
        return self._spelled("step", node)

    def run(self, events: int | None = None, *, until: str | None = None, order: str | None = None) -> Answer:
        """Makes events, at most `events`, until a condition holds, as "stop" or "001 t = 5 or wait 000"; in rounds, or in the order "greedy" or "random 7"."""
        return self._spelled("run", order, events, *_until(until))

    def back(self, *, until: str | None = None, node: str | None = None) -> Answer:
        """Undoes the newest event; or all from the newest on after which a condition held; of a node, rolls back its newest such step."""
        return self._spelled("back", node, *_until(until))

    def rewind(self, node: str, step: int) -> Answer:
        """Rolls back a step of a node, with all that depends on it."""
        return self._spelled("rewind", node, step)

    # ---- queries

    def node(self, node: str) -> Answer:
        """A node; beside what the answer has, `t`, `s` and `r`, and the words of its stacks, the top first, as `data` and `returns`."""
        answer = self._spelled("node", node)
        words = {kind: [row["value"] for row in answer["rows"] if row["part"] in kind] for kind in ("tsd", "r")}
        data, returns = words["tsd"], words["r"]
        del answer["rows"]
        return {**answer, "t": data[0], "s": data[1], "r": returns[0], "data": data, "returns": returns}

    def mem(self, node: str, address: int) -> int:
        """The word at an address of a node's memory."""
        return self._spelled("mem", node, f"{address:02x}")["word"]

    def count(self) -> Answer:
        """How many events are `kept`, how many were `made`, and the `limit`."""
        return self._spelled("count")

    def trace(self, node: str) -> Answer:
        """The steps of a node."""
        return self._spelled("trace", node)

    def why(self, node: str, step: int, later_node: str, later_step: int) -> Answer:
        """By which events a step led to a later one of another node."""
        return self._spelled("why", node, step, later_node, later_step)

    def words(self, writer: str, reader: str) -> Answer:
        """The words transferred from one node to another."""
        return self._spelled("words", writer, reader)

    def writes(self, node: str, address: int) -> Answer:
        """The steps of a node that wrote at an address, the newest first."""
        return self._spelled("writes", node, f"{address:02x}")

    def effects(self, node: str, step: int | str = "last") -> Answer:
        """What a rollback of a step would remove."""
        return self._spelled("effects", node, step)

    def at(self, node: str, step: int | str = "last", around: int | None = None) -> Answer:
        """The steps of a node around one, each with the registers after it."""
        return self._spelled("at", node, step, around)

    def whence(self, node: str, step: int | str = "last", value: str | None = None, *, first: int | None = None) -> Answer:
        """The steps whose values went into that of a step, or into a value after it, as "t" or "[20]"; from a line on."""
        return self._spelled("whence", node, step, value, *(() if first is None else ("from", first)))

    def because(self, node: str, step: int | str = "last", count: int | None = None) -> Answer:
        """The last steps of a node before one at which a value decided where it continued, the newest first."""
        return self._spelled("because", node, step, count)

    def races(self, node: str | None = None) -> Answer:
        """The races of all nodes, or of one."""
        return self._spelled("races", node)

    def who(self) -> Answer:
        """The nodes that wait, and for which neighbours."""
        return self._spelled("who")

    def expectations(self) -> Answer:
        """The status of each expectation of the source: a row each, whose `outcome` is "held", "broken" or "pending"."""
        return self._spelled("expectations")

    def chip(self) -> str:
        """The whole chip, as text."""
        return self._spelled("chip")["text"]

    def save(self) -> str:
        """The lines that make the history again."""
        return self._spelled("save")["text"]

    def dump(self) -> str:
        """The chip as an image."""
        return self._spelled("dump")["text"]


def _reason(refusal: Answer) -> str:
    return refusal["text"] if refusal["line"] is None else f"line {refusal['line']}: {refusal['text']}"


def _until(condition: str | None) -> tuple[str, ...]:
    return () if condition is None else ("until", condition)
