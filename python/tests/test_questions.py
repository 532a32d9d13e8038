"""How often the program is asked: that decides how long a judgement takes."""
from __future__ import annotations

from collections.abc import Sequence
from dataclasses import dataclass, field

import pytest

from pertxogai.drawing import read_drawing
from pertxogai.judging import Then, judge
from pertxogai.judging.measure import Limit
from pertxogai.judging.surplus import without
from pertxogai.program import Answer, Solver
from pertxogai.program.reports import Verdict


@dataclass
class Counts:
    """A program, and what it was asked."""

    program: Solver
    asked: list[str] = field(default_factory=list)

    def ask(self, words: Sequence[str], text: str) -> Answer:
        self.asked.append(words[0])
        return self.program.ask(words, text)


def rectangles(count: int) -> str:
    """Rectangles in a row, each with a top that is told as 41 over a bottom of 40."""
    shapes = "".join(f"rectangle R{k} {70 * k} 0 {70 * k + 40} 30\n" for k in range(count))
    words = "coincident R0Bottom.start Origin\n" + "".join(
        f"x R{k}Bottom.start {70 * k}\ny R{k}Bottom.start 0\n" for k in range(1, count))
    return shapes + words + "".join(
        f"length R{k}Bottom 40\nlength R{k}Right 30\nlength R{k}Top 41\n" for k in range(count))


def test_what_contradicts_in_two_places_is_found_by_few_questions(program):
    """Each of two rectangles has a bottom, a top and two upright sides that contradict by 1 mm."""
    counts = Counts(program)
    found = judge(read_drawing(rectangles(2)), counts)
    assert found.verdict is Verdict.OVER
    off = {each.name.partition("(")[2].rstrip(")"): each.off.amount for each in found.surplus}
    for name in ("length R0Bottom 40", "length R0Top 41", "length R1Bottom 40", "length R1Top 41",
                 "vertical R0Right", "vertical R1Right"):
        assert off[name] == 1_000_000
    assert not any("length R0Right" in name or "length R1Right" in name for name in off)
    assert len(counts.asked) <= 40


@dataclass
class Texts:
    """A program, and the sketches that it was asked about, in order."""

    program: Solver
    asked: list[str] = field(default_factory=list)

    def ask(self, words: Sequence[str], text: str) -> Answer:
        self.asked.append(text)
        return self.program.ask(words, text)


def test_that_the_rest_is_over_still_is_asked_and_not_concluded_from_the_rank(program):
    """By rank one dimension of each rectangle is too many, so none is enough by itself. The rest
    without each is told to be over since the program was asked about it and said so."""
    texts = Texts(program)
    drawing = read_drawing(rectangles(2))
    over = [each for each in judge(drawing, texts).surplus if each.then is Then.OVER]
    assert len(over) >= 6
    for each in over:
        rest = Texts(program)
        assert judge(without(drawing, {each.number}), rest).verdict is Verdict.OVER
        assert rest.asked[0] in texts.asked


@dataclass
class Keys:
    """A program, and the keys that it was asked with."""

    program: Solver
    asked: set[str] = field(default_factory=set)

    def ask(self, words: Sequence[str], text: str) -> Answer:
        self.asked.update(words[1:])
        return self.program.ask(words, text)


@pytest.mark.parametrize("amount, key", [(10, 1000), (1000, 1000), (5000, 5000),
                                         (1_000_000, 1_000_000)])
def test_a_limit_that_is_wider_is_that_of_the_places_too(amount, key, program):
    keys = Keys(program)
    judge(read_drawing("segment A 0 0 9 0\nlength A 9\n"), keys, limit=Limit(amount))
    assert f"within={key}" in keys.asked
    assert sum(each.startswith("within=") for each in keys.asked) == 1


def test_no_limit_is_wider_than_the_program_takes(program):
    keys = Keys(program)
    judge(read_drawing("segment A 0 0 9 0\nlength A 9.0000625\n"), keys, limit=Limit(500_000))
    assert {each for each in keys.asked if each.startswith("within=")} == {"within=1000000"}


def test_the_program_is_not_asked_the_same_twice(program):
    """Points by their distances alone have one text in all styles."""
    said: list[tuple[tuple[str, ...], str]] = []

    class Notes:
        def ask(self, words: Sequence[str], text: str) -> Answer:
            said.append((tuple(words), text))
            return program.ask(words, text)

    lengths = [("A", "B", 4), ("A", "C", 5), ("A", "D", 3), ("B", "C", 3), ("B", "D", 5),
               ("C", "D", 4.5)]
    text = "point A 0 0\npoint B 4 0\npoint C 4 3\npoint D 0 3\n" + "".join(
        f"distance {one} {other} {length}\n" for one, other, length in lengths)
    assert judge(read_drawing(text), Notes()).verdict is Verdict.OVER
    assert len(said) == len(set(said)) > 1


def test_lines_that_stand_there_twenty_times_are_weighed_by_few_questions(program):
    """A bar of 40, told 21 times; without 20 of these nothing is said twice."""
    counts = Counts(program)
    text = "point A 0 0\npoint B 40 0\ncoincident A Origin\non B XAxis\n" + 21 * "distance A B 40\n"
    found = judge(read_drawing(text), counts)
    assert found.verdict is Verdict.OVER
    assert [each.number for each in found.surplus] == list(range(3, 24))
    assert all(each.repeats() and each.then is Then.OVER for each in found.surplus)
    assert len(counts.asked) <= 40
