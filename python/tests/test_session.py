"""Sessions of programs in examples/. What is wanted is what docs/TUTORIAL.md, docs/FINDING.md and docs/TESTING-PROGRAMS.md have of the same commands."""

import os
import re

import pytest

from latchsorrel import Refused, Session, SessionError

ROOT = os.path.dirname(os.path.dirname(os.path.dirname(os.path.abspath(__file__))))


@pytest.fixture
def session():
    """Begins a session of a program of examples/."""
    begun = []

    def session_of(name, *options):
        begun.append(Session(os.path.join(ROOT, "examples", name), *options))
        return begun[-1]

    yield session_of
    for it in begun:
        it.close()


def test_from_a_stop_back_to_the_fault(session):
    fault = session("fault.f18")
    ran = fault.run(until="stop")
    assert (ran["events"], ran["end"], ran["node"], ran["step"], ran["what"], ran["stop"]) == (175, "reached", "001", 10, "stop", 2)
    found = fault.whence("001", 10)
    assert (found["part"], found["value"]) == ("a", 0x150)
    assert [(row["number"], row["user"], row["node"], row["step"]) for row in found["rows"]][:2] == [(1, 0, "001", 5), (2, 1, "000", 7)]
    assert (found["rows"][1]["opcode"], found["rows"][1]["value"]) == ("2*", 0x150)
    assert [row["number"] for row in fault.whence("001", 10, "a", first=3)["rows"]] == [3, 4]
    assert [row["what"] for row in fault.trace("001")["rows"]][-1] == "stop"
    assert fault.why("000", 7, "001", 10)["leads"] and not fault.why("000", 9, "000", 7)["leads"]
    assert fault.effects("000", 7)["events"] == 12
    rolled_back = fault.rewind("000", 7)
    assert (rolled_back["removed"], rolled_back["kept"]) == (12, 163)
    assert fault.count()["kept"] == 163
    with pytest.raises(Refused) as refusal:
        fault.rewind("000", 7)
    assert (refusal.value.line, refusal.value.number, refusal.value.word) == ("rewind 000 7", 6, "nostep")


def test_steps_and_a_node(session):
    first = session("first.f18")
    made = [first.step("000") for _ in range(4)]
    assert [it["what"] for it in made] == ["fetch", "run", "run", "run"] and [it.get("opcode") for it in made] == [None, "@p", "dup", "+"]
    node = first.node("000")
    assert (node["t"], node["s"], node["r"], node["p"], node["does"]) == (6, 0x15555, 0x15555, 2, "runs")
    assert node["data"] == [6] + 9 * [0x15555] and node["returns"] == 9 * [0x15555]
    assert first.mem("000", 1) == 3 and first.back()["kept"] == 3
    assert first.save().splitlines() == 3 * ["step 000"]
    assert first.dump().startswith("ga144 2\nnode 000\n") and first.chip().splitlines()[-1].startswith("0  *")


def test_words_and_conditions(session):
    transfer = session("transfer.f18")
    assert transfer.run(100, until="pass 000 001 = 42", order="greedy")["end"] == "reached"
    assert [row["word"] for row in transfer.words("000", "001")["rows"]] == [42]
    assert transfer.back(until="wait 000")["removed"] > 0 and transfer.words("000", "001")["rows"] == []
    with pytest.raises(Refused) as refusal:
        transfer.words("000", "002")
    assert (refusal.value.number, refusal.value.word) == (34, "nolink")


def test_races_and_who(session):
    first_come = session("first_come.f18")
    first_come.run()
    (race,) = first_come.races()["rows"]
    assert (race["node"], race["step"], race["word"], race["from"], race["other_word"], race["other_from"]) == ("101", 5, 5, "100", 7, "102")
    assert first_come.races("100")["rows"] == []
    transfer = session("transfer.f18")
    transfer.run(until="wait 000", order="greedy")
    (row,) = transfer.who()["rows"]
    assert (row["node"], row["does"], row["right"], row["right_does"], row["deadlocked"]) == ("000", "writes", "001", "runs", False)


def test_what_is_asked_of_a_step(session):
    pipeline = session("pipeline.f18")
    pipeline.run(until="stop")
    assert pipeline.effects("004", 75)["nodes"] == 8
    (decision,) = pipeline.because("007", "last", 1)["rows"]
    assert (decision["step"], decision["opcode"], decision["part"], decision["value"]) == (148, "if", "t", 16)
    assert [row["step"] for row in pipeline.at("007", 150, 1)["rows"]] == [149, 150, 151]
    assert pipeline.writes("007", 0)["rows"] == [] and pipeline.count()["limit"] == 20000000


def test_a_value_that_nobody_set(session, tmp_path):
    source = tmp_path / "unset.f18"
    source.write_text("node 000\n: main 5 over +\n", encoding="utf-8")
    unset = session(str(source))
    assert [unset.step("000").get("opcode") for _ in range(4)] == [None, "@p", "over", "+"]
    found = unset.whence("000", 4)
    assert [(row["what"], row["part"], row["value"]) for row in found["rows"] if row["never_set"]] == [("load", "t", 0x15555)]
    assert (found["opcode"], found["line"], found["column"], found["source"]) == ("+", 2, 15, "000 main 2: : main 5 over +")


def test_options(session):
    limited = session("first.f18", "--limit", "2")
    assert limited.run()["end"] == "full"


def test_each_command_has_a_method(session):
    names = re.findall("^[a-z]+", session("first.f18").command("help")["text"], re.MULTILINE)
    assert [it for it in names if not hasattr(Session, it)] == ["help", "quit"]


def test_commands_in_the_file(session, tmp_path):
    with open(os.path.join(ROOT, "examples", "fault.f18"), encoding="utf-8") as file:
        program = file.read()
    for ending in ("", "\n", "\nquit\nback\n"):
        saved = tmp_path / "saved"
        saved.write_text(f"{program}end\nrun until stop\nrewind 000 7{ending}")
        begun = session(saved)
        if "quit" in ending:
            with pytest.raises(SessionError):
                begun.count()
        else:
            assert begun.count()["kept"] == 163 and begun.mem("000", 2) == 0xA8
    saved.write_text(f"{program}end\nrun\nrewind 000 1000\ncount\n")
    with pytest.raises(Refused) as refusal:
        session(saved)
    assert (refusal.value.line, refusal.value.word) == ("rewind 000 1000", "nostep")


def test_a_program_on_standard_input():
    with pytest.raises(ValueError):
        Session("-")


def test_expectations(session):
    program = session(os.path.join("expect", "status-5", "filter_a_step_short.f18"))
    ran = program.run(until="broken")
    assert (ran["events"], ran["what"], ran["from"], ran["to"], ran["word"]) == (2986, "pass", "006", "007", 0x38)
    *others, word = program.expectations()["rows"]
    assert (word["line"], word["outcome"], word["because"], word["place"], word["value"]) == (49, "broken", "word", 10, 0x38)
    assert {row["outcome"] for row in others} == {"pending"}
    program.back(until="broken")
    assert {row["outcome"] for row in program.expectations()["rows"]} == {"pending"}
    assert session("first.f18").expectations()["rows"] == []
    with pytest.raises(Refused) as refusal:
        session("first.f18").run(until="broken")
    assert (refusal.value.number, refusal.value.word) == (35, "noexpect")


def test_a_word_that_is_no_command(session):
    with pytest.raises(Refused) as refusal:
        session("first.f18").command("foo")
    assert (refusal.value.number, refusal.value.word, refusal.value.cure) == (31, "syntax", "help")
    with pytest.raises(ValueError):
        session("first.f18").command("count\ncount")


def test_a_closed_session(session):
    ended = session("first.f18")
    ended.close()
    ended.close()
    with pytest.raises(SessionError, match="closed"):
        ended.count()


def test_a_session_that_quits(session):
    ended = session("first.f18")
    with pytest.raises(SessionError, match="ended with status 0"):
        ended.command("quit")


def test_a_file_without_a_program(tmp_path):
    with pytest.raises(SessionError, match="No such file"):
        Session(tmp_path / "none.f18")
    path = tmp_path / "fault.f18"
    path.write_text("node 101\nfoo\n")
    with pytest.raises(SessionError, match="line 2: what is foo"):
        Session(path)
