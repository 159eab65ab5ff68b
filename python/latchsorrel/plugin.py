"""Collects source with lines `expect ..` for pytest: each expectation is a test."""

from __future__ import annotations

import os
import shlex

import pytest

from .report import CheckError, check


def pytest_addoption(parser):
    parser.addini("ga144", "the program ga144", default="")
    parser.addini("ga144_options", "options of ga144 check, as --most 1000000", type="args", default=[])


def has_expectations(path):
    with open(path, "rb") as source:
        return any(line.split()[:1] == [b"expect"] for line in source)


def pytest_collect_file(file_path, parent):
    if file_path.suffix == ".f18" and has_expectations(file_path):
        return SourceFile.from_parent(parent, path=file_path)
    return None


class SourceFile(pytest.File):
    """A source. It is checked when its tests are collected."""

    def collect(self):
        options = self.config.getini("ga144_options")
        program = self.config.getini("ga144") or os.environ.get("GA144", "ga144")
        try:
            report = check(self.path, *options, program=program)
        except (CheckError, OSError) as why:
            raise self.CollectError(f"{program}: {why}") from why
        for refusal in report.refusals:
            place = f"{self.path}:{refusal.line}" if refusal.line else str(self.path)
            raise self.CollectError(f"{place}: {refusal.text}")
        for one in report.expectations:
            yield ExpectationItem.from_parent(self, name=f"{one.line}: {one.text}", report=report, one=one)
        if report.same:
            yield OneEndItem.from_parent(self, name=report.same.text, report=report, one=report.same)


class NotMet(Exception):
    """An expectation that is broken, or isn't known."""


class ExpectationItem(pytest.Item):
    """An expectation, as a test."""

    def __init__(self, *, report, one, **more):
        super().__init__(**more)
        self.report, self.one = report, one

    def runtest(self):
        if self.one.outcome != "holds":
            raise NotMet(self.one)

    def source_line(self):
        with open(self.path, encoding="utf-8", errors="replace") as source:
            return next((line.strip() for at, line in enumerate(source, 1) if at == self.one.line), "")

    def title(self):
        return f"{self.path}:{self.one.line}: {self.source_line()}"

    def session_command(self):
        options = [it for it in self.config.getini("ga144_options") if it != "--same"]
        return shlex.join(["ga144", "check", *options, "--session", str(self.one.session), str(self.path)])

    def repr_failure(self, excinfo, style=None):
        if not isinstance(excinfo.value, NotMet):
            return super().repr_failure(excinfo, style)
        lines = [self.title()]
        if self.one.outcome == "broken":
            lines.append(f"{self.one.text}: broken, {self.one.found()}")
        else:
            lines.append(f"{self.one.text}: not known, stopped by {self.report.stopped} after {self.report.states} states")
        if self.one.session:
            lines.append(f"its session: {self.session_command()}")
        return "\n".join(lines)

    def reportinfo(self):
        return self.path, self.one.line - 1, f"{self.path.name}:{self.name}"


class OneEndItem(ExpectationItem):
    """One end in every order, as a test, if the options have `--same`."""

    def title(self):
        return str(self.path)

    def reportinfo(self):
        return self.path, 0, f"{self.path.name}:{self.name}"
