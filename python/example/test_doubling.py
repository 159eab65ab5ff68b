"""Tests of doubling.f18, a program of two nodes. Run them by `pytest python/example`."""

import pytest

from latchsorrel import Refused, Session


@pytest.fixture
def chip(request):
    with Session(request.path.with_name("doubling.f18")) as session:
        yield session


def test_each_number_is_doubled(chip):
    assert chip.run()["end"] == "quiet"
    assert [chip.mem("001", cell) for cell in (0x20, 0x21, 0x22)] == [6, 10, 14]


def test_three_words_are_sent(chip):
    chip.run()
    assert [row["word"] for row in chip.words("000", "001")["rows"]] == [3, 5, 7]


def test_the_order_of_the_nodes_changes_nothing(chip):
    chip.run(order="random 7")
    assert chip.mem("001", 0x22) == 14


def test_without_the_first_word_nothing_is_stored(chip):
    chip.run()
    chip.rewind("000", chip.words("000", "001")["rows"][0]["from_step"])
    assert chip.mem("001", 0x20) == 0 and chip.writes("001", 0x20)["rows"] == []


def test_a_node_without_the_step_is_refused(chip):
    with pytest.raises(Refused) as refusal:
        chip.rewind("001", 1000)
    assert (refusal.value.number, refusal.value.word) == (6, "nostep")
