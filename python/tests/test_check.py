"""What `check` reads of programs that are right, and of the same with a fault."""

import os

import pytest

from latchsorrel import CheckError, Event, check


def test_each_expectation_of_a_right_program_holds(examples):
    report = check(os.path.join(examples, "lock.f18"))
    assert report.holds and report.explored and report.stopped is None and report.status == 0
    assert [(one.line, one.text) for one in report.expectations][:2] == [(5, "101 t = 61"), (6, "101 awaits code")]
    assert {one.outcome for one in report.expectations} == {"holds"}


def test_what_is_there_instead(examples):
    report = check(os.path.join(examples, "status-5", "lock_asked_with_a_wrong_port.f18"))
    broken = [one for one in report.expectations if one.outcome == "broken"]
    assert [one.found() for one in broken] == ["is 000000", "waits to write up", "waits to read left", "word 1 never comes"]
    assert [one.session for one in broken] == [1, 2, 6, 8] and (broken[0].because, broken[0].value) == ("value", 0)
    assert not report.holds and report.status == 5
    # 102 asks first with the wrong port; 100 could have
    assert [str(it) for it in broken[0].decision] == ["pass 102 9 101 12 000145", "pass 100 9 101 12 0001d5"]
    assert report.expectations[2].decision == ()


def test_words_over_a_link(examples):
    one = check(os.path.join(examples, "status-5", "filter_a_step_short.f18")).expectations[-1]
    assert (one.because, one.place, one.value, one.session) == ("word", 10, 56, 18) and one.found() == "word 10 is 000038"
    one = check(os.path.join(examples, "status-5", "ring_without_a_token.f18")).expectations[-1]
    assert (one.because, one.place, one.value) == ("no word", 7, None) and one.found() == "word 7 never comes"


def test_a_word_too_many(tmp_path):
    path = tmp_path / "further.f18"
    path.write_text("node 000\nexpect pass 000 001 = 1\n: main 1 right b! !b 7 !b right push ;\nnode 001\n: main right b! @b @b right push ;\n")
    one = check(path).expectations[0]
    assert (one.because, one.place, one.value) == ("further word", 2, 7) and one.found() == "a further word is 000007"


def test_an_event_that_never_should_come(examples):
    one = check(os.path.join(examples, "status-5", "ring_without_a_token.f18")).expectations[2]
    assert one.because == "event" and one.event == Event("wait", "100", 134) and str(one.event) == "100 134 wait"


def test_a_bound(examples):
    report = check(os.path.join(examples, "lock.f18"), "--most", "400")
    assert (report.status, report.explored, report.stopped) == (6, False, "states")
    assert "unknown" in {one.outcome for one in report.expectations}


def test_the_ends(examples):
    report = check(os.path.join(examples, "status-5", "lock_asked_with_a_wrong_port.f18"), "--ends")
    assert report.status == 5 and not all(end.clean for end in report.ends)
    assert all(node.does in ("goes on", "reads", "writes", "stop") for end in report.ends for node in end.nodes)


def test_conditions_that_never_hold(examples):
    report = check(os.path.join(examples, "lock.f18"), "--never", "stop")
    assert report.never.outcome == "holds" and report.holds


def test_one_end(examples):
    report = check(os.path.join(examples, "ring.f18"), "--same")
    assert report.holds and (report.same.outcome, report.same.ends) == ("holds", 1)
    assert check(os.path.join(examples, "ring.f18")).same is None
    # 101 stores 11 or 13, hexadecimal, and each expectation of it holds
    report = check(os.path.join(examples, "..", "check", "expectations_that_hold"), "--same")
    assert (report.status, report.same.outcome, report.same.ends) == (5, "broken", 2)
    assert {one.outcome for one in report.expectations} == {"holds"}


def test_a_fault_of_source(tmp_path):
    path = tmp_path / "fault.f18"
    path.write_text("node 101\nfoo\n")
    report = check(path)
    assert report.status == 1 and [(it.line, it.text) for it in report.refusals] == [(2, "what is foo")]


def test_a_file_that_is_missing(tmp_path):
    with pytest.raises(CheckError, match="No such file"):
        check(tmp_path / "none.f18")
