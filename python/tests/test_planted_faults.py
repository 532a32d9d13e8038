"""Faults planted in the spelled sketch, one by one: the measure sees each.

A drawing is spelled and asked about. Then one line of the sketch is changed as a slip of the
spelling would change it, the program places the changed sketch, and the designer's constraints
are measured on these places."""

from __future__ import annotations

import re
from collections.abc import Callable
from dataclasses import dataclass
from fractions import Fraction
from pathlib import Path

import pytest

from pertxogai.drawing import Drawing, read_drawing
from pertxogai.judging import Question, Trial, first_good
from pertxogai.judging.measure import Unit, greatest, measure
from pertxogai.judging.settled import solution_of
from pertxogai.program import Status
from pertxogai.program.reports import Solved, read_solve

DRAWINGS = Path(__file__).parent / "drawings"
SEEN_NM = 2

SHOWN = ["bracket", "slotted-plate", "dovetail", "gear-blank", "keyhole", "cam", "four-bar",
         "bent-sheet", "triangle-by-height", "trapezoid", "egg", "mirrored-holes",
         "coins-in-a-ring", "ring-sector", "arm"]


@dataclass(frozen=True)
class Slip:
    """A slip of the spelling: lines that match the pattern, and what they become."""

    name: str
    pattern: str
    becomes: str | Callable[[re.Match[str]], str]


def halved(found: re.Match[str]) -> str:
    """A distance's line with half the value."""
    return f"{found[1]} {float(Fraction(found[2]) / 2):.3f}"


SLIPS = [
    Slip("another length", r"distance (\w+) (\w+) \S+", r"distance \1 \2 3.17"),
    Slip("half a length", r"(distance \w+ \w+) (\S+)", halved),
    Slip("the other axis", r"(distance|on) (\w+) Y( \S+)?", r"\1 \2 X\3"),
    Slip("the one axis", r"(distance|on) (\w+) X( \S+)?", r"\1 \2 Y\3"),
    Slip("an angle's sign", r"angle (\w+) (\w+) ([1-9]\d*)/([1-9]\d*)", r"angle \1 \2 -\3/\4"),
    Slip("a slanted right angle", r"angle (\w+) (\w+) 1/0", r"angle \1 \2 1000/1"),
    Slip("another radius", r"circle (\w+) (\S+) (\S+) \S+", r"circle \1 \2 \3 3.17"),
]


@dataclass(frozen=True)
class Case:
    """A drawing that is well, and what the program was asked of it."""

    drawing: Drawing
    asked: Trial

    def seen(self, program, text: str) -> int | None:
        """The greatest deviation in nm where this text is placed; None where it isn't, or
        where it is placed as the drawing's own text is, but for rounding."""
        answer = program.ask(["solve"], text)
        if answer.status is not Status.DONE:
            return None
        solution = solution_of(self.drawing, self.asked, read_solve(answer.text))
        own = solution_of(self.drawing, self.asked, self.asked.solved)
        if solution.radii == own.radii and all(
                abs(solution.spot(ref)[axis] - spot[axis]) <= SEEN_NM
                for ref, spot in own.points.items() for axis in (0, 1)):
            return None
        return greatest(measure(self.drawing, solution), Unit.NM).amount


@pytest.fixture(scope="module", params=SHOWN)
def case(request, program):
    drawing = read_drawing((DRAWINGS / f"{request.param}.drawing").read_text())
    asked = first_good(Question(drawing, program))
    assert isinstance(asked.solved, Solved)
    return Case(drawing, asked)


def changed(text: str, slip: Slip):
    """The text with the slip in one line, for each line that it can come in."""
    lines = text.splitlines()
    for place, line in enumerate(lines):
        if re.fullmatch(slip.pattern, line):
            other = re.sub(slip.pattern, slip.becomes, line)
            yield line, "\n".join([*lines[:place], other, *lines[place + 1:]]) + "\n"


@pytest.mark.parametrize("slip", SLIPS, ids=lambda slip: slip.name)
def test_slip_is_seen(case, slip, program):
    for line, text in changed(case.asked.spelled.sketch.text(), slip):
        seen = case.seen(program, text)
        assert seen is None or seen > SEEN_NM, line


def exchanged(line: str, first: str, second: str) -> str:
    """A constraint's line with two names exchanged; any other line as it is."""
    if line.split()[0] in ("sketch", "point", "line", "circle", "end"):
        return line
    return re.sub(rf"\b({first}|{second})\b",
                  lambda found: second if found[0] == first else first, line)


def test_exchanged_names_are_seen(case, program):
    text = case.asked.spelled.sketch.text()
    points = re.findall(r"^point (\w+)", text, re.M)
    for first, second in zip(points, points[1:]):
        lines = [exchanged(line, first, second) for line in text.splitlines()]
        seen = case.seen(program, "\n".join(lines) + "\n")
        assert seen is None or seen > SEEN_NM, (first, second)


def test_an_end_on_the_circle_of_another_centre_is_seen(case, program):
    lines = case.asked.spelled.sketch.text().splitlines()
    points = re.findall(r"^point (\w+)", "\n".join(lines), re.M)
    for place, line in enumerate(lines):
        word, *names = line.split()
        if word == "distance" and {*names[:2]} <= {*points}:
            other = next(each for each in points if each not in names)
            told = [*lines[:place], f"distance {other} {names[1]} {names[2]}", *lines[place + 1:]]
            seen = case.seen(program, "\n".join(told) + "\n")
            assert seen is None or seen > SEEN_NM, line
