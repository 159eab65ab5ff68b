"""pytest with the plugin, on a copy of a program that is right, and of the same with a fault."""

import os
import shutil

import pytest


@pytest.fixture
def run(pytester, examples):
    """Runs pytest on a copy of an example."""

    def run_on(name, *words):
        shutil.copy(os.path.join(examples, name), pytester.path)
        return pytester.runpytest("-p", "latchsorrel.plugin", *words)

    return run_on


def test_a_right_program_passes(run):
    run("lock.f18").assert_outcomes(passed=8)


def test_a_broken_expectation_fails_with_its_line(run):
    ran = run("status-5/lock_asked_with_a_wrong_port.f18")
    ran.assert_outcomes(passed=4, failed=4)
    ran.stdout.fnmatch_lines(
        [
            "*lock_asked_with_a_wrong_port.f18:5: expect t = rounds",
            "101 t = 61: broken, is 000000",
            "its session: ga144 check --session 1 */lock_asked_with_a_wrong_port.f18",
        ]
    )


def test_an_expectation_that_is_not_known_fails(run):
    ran = run("lock.f18", "-o", "ga144_options=--most 400")
    assert ran.ret == 1
    ran.stdout.fnmatch_lines(["*not known, stopped by states after * states"])


def test_one_end_is_a_test_if_it_is_asked_for(run):
    run("ring.f18", "-o", "ga144_options=--same").assert_outcomes(passed=6)


def test_two_ends_fail(pytester, examples):
    shutil.copy(os.path.join(examples, "..", "check", "expectations_that_hold"), pytester.path / "two_ends.f18")
    ran = pytester.runpytest("-p", "latchsorrel.plugin", "-o", "ga144_options=--same")
    ran.assert_outcomes(passed=7, failed=1)
    ran.stdout.fnmatch_lines(["*/two_ends.f18", "one end: broken, 2 ends"])


def test_a_session_is_asked_for_without_one_end(run):
    ran = run("status-5/lock_asked_with_a_wrong_port.f18", "-o", "ga144_options=--same")
    ran.stdout.fnmatch_lines(["its session: ga144 check --session 1 */lock_asked_with_a_wrong_port.f18"])


def test_a_fault_of_source_is_an_error(pytester):
    pytester.path.joinpath("fault.f18").write_text("node 101\nexpect t = 1\nfoo\n")
    ran = pytester.runpytest("-p", "latchsorrel.plugin")
    ran.assert_outcomes(errors=1)
    ran.stdout.fnmatch_lines(["*fault.f18:3: what is foo"])


def test_source_without_expectations_is_no_test(pytester):
    pytester.path.joinpath("plain.f18").write_text("node 101\ndup\n")
    pytester.runpytest("-p", "latchsorrel.plugin").assert_outcomes()


def test_each_expectation_is_in_the_junit_file(run, pytester):
    run("status-5/lock_asked_with_a_wrong_port.f18", "--junitxml", "found.xml")
    written = pytester.path.joinpath("found.xml").read_text()
    assert 'failures="4"' in written and 'tests="8"' in written and "101 t = 61: broken, is 000000" in written
