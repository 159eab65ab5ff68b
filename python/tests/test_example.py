"""The example of python/example: it passes, and with a fault in its program it fails. That of docs/TESTING-PROGRAMS.md passes."""

import os
import re
import shutil

import pytest

ROOT = os.path.dirname(os.path.dirname(os.path.dirname(os.path.abspath(__file__))))
EXAMPLE = os.path.join(ROOT, "python", "example")


@pytest.fixture
def run(pytester):
    """Runs pytest on a copy of the example, after an edit of its program."""

    def run_on(old, new):
        for name in ("doubling.f18", "test_doubling.py"):
            shutil.copy(os.path.join(EXAMPLE, name), pytester.path)
        program = pytester.path.joinpath("doubling.f18")
        text = program.read_text()
        assert old in text
        program.write_text(text.replace(old, new, 1))
        return pytester.runpytest_subprocess("test_doubling.py")

    return run_on


def test_it_passes(run):
    run("main", "main").assert_outcomes(passed=5)


@pytest.mark.parametrize("old, new, failed", [("2*", "2/", 1), ("7 !b", "", 3), ("0x22", "0x21", 2)])
def test_it_fails_with_a_fault_in_its_program(run, old, new, failed):
    run(old, new).assert_outcomes(passed=5 - failed, failed=failed)


def test_a_fault_of_source_is_an_error(run):
    ran = run("2*", "twice")
    ran.assert_outcomes(errors=5)
    ran.stdout.fnmatch_lines(["*SessionError: line 9: what is twice"])


def test_that_of_the_document_passes(pytester):
    with open(os.path.join(ROOT, "docs", "TESTING-PROGRAMS.md"), encoding="utf-8") as document:
        pytester.makepyfile(re.search(r"```python\n(.*?)```", document.read(), re.DOTALL)[1])
    pytester.mkdir("examples")
    shutil.copy(os.path.join(ROOT, "examples", "transfer.f18"), pytester.path / "examples")
    pytester.runpytest_subprocess().assert_outcomes(passed=1)
