"""The hundred drawings, each judged as its notes expect.

A drawing says in notes what was worked out by hand: its verdict (`expect`), where points lie
(`place A 10 20`), how far apart two are (`span A B 5`), how large rims are (`radius Hole 2.5`),
all in millimetres and within 2 nm, or as many as `within` says. One that is well is good, but for
what its note says is off, or without a size; or it has no places as it is drawn (`unplaced`), but
with the named choices turned over. Of one that is over a note says what may go (`spare`),
how far it is off in millimetres and what the rest is then (`goes A by 5 then open`), and what may
not (`stays`)."""

from __future__ import annotations

from dataclasses import dataclass
from fractions import Fraction
from math import isqrt
from pathlib import Path

import pytest

from pertxogai.drawing import (
    Coincident, Drawing, PointRef, Which, constraints, read_drawing, um_of_mm, write_drawing)
from pertxogai.judging import Then, judge
from pertxogai.judging.good import Lack, reasons_against
from pertxogai.judging.judged_drawing import JudgedDrawing
from pertxogai.judging.measure import Unit
from pertxogai.program.reports import Verdict

DRAWINGS = sorted((Path(__file__).parent / "drawings").glob("*.drawing"))
WITHIN_NM = 2


@dataclass(frozen=True)
class Said:
    """One note, by its words, and within how many nanometres it holds."""

    words: tuple[str, ...]
    within_nm: int

    def nm(self, place: int) -> Fraction:
        return um_of_mm(self.words[place]) * 1000


def said(drawing: Drawing, word: str) -> list[Said]:
    """The notes of a drawing that begin with a word, without it."""
    found = []
    for note in drawing.notes:
        first, *words = note.text.split()
        if first == word:
            within = int(words[words.index("within") + 1]) if "within" in words else WITHIN_NM
            found.append(Said(tuple(words), within))
    return found


def ref_of(word: str) -> PointRef:
    name, _, which = word.partition(".")
    return PointRef(name, Which(which or "at"))


def names_of(words: tuple[str, ...]) -> set[str]:
    return {name.strip() for name in " ".join(words).split(",")}


@pytest.fixture(params=DRAWINGS, ids=[path.stem for path in DRAWINGS])
def drawing(request):
    return read_drawing(request.param.read_text())


def test_drawing_is_judged_as_expected(drawing, program):
    expected, = said(drawing, "expect")
    found = judge(drawing, program)
    assert found.verdict is Verdict(expected.words[0])
    match expected.words:
        case ("well", "off", *names):
            assert lacks(drawing, found, Lack.OFF) == [" ".join(names)]
        case ("well", "unplaced", *flips):
            assert found.solution is None and found.failure is not None
            assert found.tried.found.flip() == " ".join(flips)
        case ("well", *rest):
            assert_placed(drawing, found)
            assert_told(found, tuple(rest))
            assert bool(reasons(drawing, found)) == ("undimensioned" in rest)
        case ("open", "missing", count):
            assert found.missing.count == int(count)
        case ("over", "spare", *spare):
            assert names_of(tuple(spare)) <= {each.name for each in found.surplus}
            assert_goes(drawing, found)
        case _:
            pytest.fail(f"no expectation: {expected.words}")


def reasons(drawing, found):
    """Why a drawing isn't good."""
    return reasons_against(JudgedDrawing("it", drawing, found))


def lacks(drawing, found, lack):
    """What is off, by the names of the constraints."""
    return [drawing.called(each.constraint) for each in reasons(drawing, found)
            if each.lack is lack]


def assert_goes(drawing, found):
    """What may go, by how much it is off, and what may not go."""
    surplus = {each.name: each for each in found.surplus}
    for each in said(drawing, "goes"):
        place = each.words.index("by")
        gone = surplus[" ".join(each.words[:place])]
        assert abs(gone.off.amount - each.nm(place + 1)) <= each.within_nm, each.words
        assert gone.then is Then(" ".join(each.words[place + 3:])), each.words
    for each in said(drawing, "stays"):
        assert not names_of(each.words) & surplus.keys()


def assert_told(found, words):
    """What a drawing that is well tells beside its places."""
    match words:
        case ("repeats", *names):
            assert names_of(tuple(names)) & set(found.repeats)
        case ("undimensioned", *names):
            assert names_of(tuple(names)) == set(found.undimensioned)
        case ("within", _):
            pass
        case _:
            assert not words


def assert_placed(drawing, found):
    solution = found.solution
    assert solution is not None, found.failure
    limit, = {each.within_nm for each in said(drawing, "expect")}
    for each in found.deviations:
        assert each.unit is not Unit.NM or each.amount <= limit, each.called(drawing)
    for each in said(drawing, "place"):
        x, y = solution.spot(ref_of(each.words[0]))
        assert abs(x - each.nm(1)) <= each.within_nm, each.words
        assert abs(y - each.nm(2)) <= each.within_nm, each.words
    for each in said(drawing, "radius"):
        assert abs(solution.radius(each.words[0]) - each.nm(1)) <= each.within_nm, each.words
    for each in said(drawing, "span"):
        first, second = (solution.spot(ref_of(word)) for word in each.words[:2])
        square = (first[0] - second[0]) ** 2 + (first[1] - second[1]) ** 2
        assert abs(isqrt(int(square)) - each.nm(2)) <= each.within_nm, each.words


def test_drawing_is_written_and_read_again(drawing):
    assert read_drawing(write_drawing(drawing)) == drawing


def test_there_are_a_hundred():
    assert len(DRAWINGS) >= 100
    verdicts = [said(read_drawing(path.read_text()), "expect")[0].words[0] for path in DRAWINGS]
    assert verdicts.count("well") >= 80
    assert verdicts.count("over") >= 7
    assert verdicts.count("open") >= 8


def test_every_constraint_is_asked_for_in_some():
    asked = {type(each) for path in DRAWINGS
             for each in read_drawing(path.read_text()).constraints}
    assert asked == {each for each in vars(constraints).values()
                     if isinstance(each, type) and each.__module__ == Coincident.__module__
                     and "name" in getattr(each, "__dataclass_fields__", ())}
