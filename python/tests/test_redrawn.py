"""What an edit has drawn elsewhere is spelled as if it were spelled anew, and the program is asked
once for each spelling. PERTXOGAI_MOVES=100 tries every point of every drawing of the gallery, which
takes some minutes."""
from __future__ import annotations

import os
from collections.abc import Iterator, Sequence
from dataclasses import dataclass, field, replace
from fractions import Fraction
from pathlib import Path
from random import Random

import pytest

from pertxogai.board.edits import Move
from pertxogai.drawing import (
    Circle, Drawing, DrawingUnsound, Place, PointRef, Which, checked, read_drawing, write_drawing)
from pertxogai.judging import judge, judge_at_once, with_counts
from pertxogai.judging.edited import EditedDrawing
from pertxogai.judging.judgement import judge_edited
from pertxogai.program import Answer, Solver, Status
from pertxogai.program.reports import NotAReport, Verdict, read_check
from pertxogai.spelling import Interpretation, Style, readings
from pertxogai.spelling.facts import Stays
from pertxogai.spelling.lowering import lowered

DRAWINGS = sorted((Path(__file__).parent / "drawings").glob("*.drawing"))
WAYS = [(Fraction(1), Fraction(2)), (Fraction(-70_000), Fraction(40_000))]
"""A move of a few micrometres, and one that changes sides."""
TIMES = (Fraction(1, 2), Fraction(5))
MOST_MOVES = int(os.environ.get("PERTXOGAI_MOVES", "6"))
"""How many moves of a drawing are tried, those of the same points each time."""


def spelled(edited: EditedDrawing) -> list[dict[str, object]]:
    """All that a drawing is spelled as."""
    return [_shown(each.spelled(style)) for each in edited.readings() for style in Style]


def spelled_anew(drawing: Drawing) -> list[dict[str, object]]:
    """All that a drawing is spelled as by itself, as its text reads."""
    return spelled(EditedDrawing(read_drawing(write_drawing(drawing))))


def known(drawing: Drawing) -> EditedDrawing:
    """A drawing that was spelled."""
    edited = EditedDrawing(drawing)
    assert spelled(edited)
    return edited


def _shown(each) -> dict[str, object]:
    return {**{name: value for name, value in vars(each).items() if name not in ("said", "sheet")},
            "owners": each.owners, "drawn": (each.sheet.points, each.sheet.lines),
            "values": [draft.value_um for draft in each.sheet.drafts]}


def moves(drawing: Drawing) -> Iterator[Move]:
    """One point after the other drawn elsewhere, and one circle after the other drawn smaller and
    larger."""
    for ref in drawing.points():
        at = drawing.drawn(ref)
        yield from (Move(((ref, Place(at.x_um + dx, at.y_um + dy)),)) for dx, dy in WAYS)
    for shape in drawing.geometry:
        if isinstance(shape, Circle):
            yield from (Move((), ((shape.name, shape.radius_um * times),)) for times in TIMES)


def moved(drawing: Drawing) -> Iterator[Drawing]:
    """The drawing after some of these moves, where it allows them."""
    found = list(moves(drawing))
    for move in Random(0).sample(found, min(len(found), MOST_MOVES)):
        try:
            yield checked(move.on(drawing), drawing)
        except DrawingUnsound:
            continue


@pytest.mark.parametrize("path", DRAWINGS, ids=lambda path: path.stem)
def test_what_is_drawn_elsewhere(path: Path) -> None:
    drawing = read_drawing(path.read_text(encoding="utf-8"))
    before = known(drawing)
    for each in moved(drawing):
        assert spelled(EditedDrawing(each, before)) == spelled_anew(each)


PLATE = """rectangle R 0 0 100 60
circle H 40 30 5
coincident RBottom.start Origin
length RBottom 100
length RRight 60
diameter H 20
x H.centre 40
y H.centre 30
"""


def test_what_is_left_is_taken_over(monkeypatch) -> None:
    drawing = read_drawing(PLATE)
    before = known(drawing)
    made = []
    monkeypatch.setattr(Interpretation, "of", lambda said: made.append(said))
    circle = drawing.shape("H")
    at = Place(Fraction(41_000), Fraction(33_500))
    shapes = (*drawing.geometry[:-1], replace(circle, centre=at))
    assert spelled(EditedDrawing(replace(drawing, geometry=shapes), before)) and not made


def test_what_says_another_thing_is_spelled_anew() -> None:
    """The hole is drawn to the left of the origin, so that its x is -40."""
    drawing = read_drawing(PLATE)
    before = known(drawing)
    there = read_drawing(PLATE.replace("H 40 30 5", "H -40 30 5"))
    kept = EditedDrawing(replace(there, constraints=drawing.constraints), before)
    assert spelled(kept) == spelled(EditedDrawing(there))
    assert spelled(kept) != spelled(before)


RIMS = """segment D 5 0 9 9
segment A 0 0 5 0
arc C 0 0 A.end 0 5
circle E 20 0 4
coincident D.start A.end
tangent C E
"""
"""The arc begins at the end of A, which is told to be the start of D, drawn before it."""


def test_what_shares_a_point_that_is_drawn_elsewhere() -> None:
    """The arc is drawn larger with A, so that the circle touches it from within."""
    drawing = read_drawing(RIMS)
    there = Place(Fraction(24_000), Fraction(0))
    larger = checked(Move(((PointRef("A", Which.END), there),)).on(drawing), drawing)
    edited = EditedDrawing(larger, known(drawing))
    assert edited.facts == lowered(read_drawing(write_drawing(larger)))
    assert edited.facts.facts != lowered(drawing).facts
    assert spelled(edited) == spelled_anew(larger)


@pytest.mark.parametrize("text, x_um", [
    ("segment A 0 0 40 0\nouter segment B A.end 40 30\n", 50_000),
    ("segment A 0 0 40 0\nouter segment B 40 0 40 30\ncoincident A.end B.start\n", 40_000),
], ids=["shared", "coincident"])
def test_what_is_given_from_outside_stays_where_it_is_drawn_then(text: str, x_um: int) -> None:
    """The end of another moves, where its point is drawn; a point that is drawn by itself and
    joined to that end stays."""
    drawing = read_drawing(text)
    there = Place(Fraction(50_000), Fraction(0))
    longer = checked(Move(((PointRef("A", Which.END), there),)).on(drawing), drawing)
    edited = EditedDrawing(longer, known(drawing))
    found = edited.facts
    start = found.refs[PointRef("B", Which.START)]
    assert [fact.place for fact in found.facts
            if isinstance(fact, Stays) and fact.point == start] == [
                Place(Fraction(x_um), Fraction(0))]
    assert found == lowered(read_drawing(write_drawing(longer)))
    assert spelled(edited) == spelled_anew(longer)


def test_the_sides_of_all_axes_count(monkeypatch) -> None:
    """Also of those by which it was found what follows."""
    path = next(each for each in DRAWINGS if each.stem == "slot-on-the-datum")
    slot = next(readings(read_drawing(path.read_text(encoding="utf-8"))))
    assert len(slot.made) > 1 and slot.redrawn(slot.said) is not None
    monkeypatch.setattr(slot.made[0], "redrawn", lambda facts: None)
    assert slot.redrawn(slot.said) is None


@pytest.mark.parametrize("y_um", [(Fraction(-1, 2), -30_000), (-30_000, Fraction(-1, 2))])
def test_a_line_of_the_datum_that_goes_comes_again(y_um: tuple[Fraction, Fraction]) -> None:
    """The triangle's last corner is told to lie 3 mm below the x axis. Half a micrometre below it,
    it is drawn on neither side, and the axis is no line of the sketch."""
    then, now = (read_drawing(
        f"segment A 0 0 40 2\nsegment B A.end 38 {float(each) / 1000:.4f}\n"
        "segment C B.end A.start\nlength A 40\nlength B 30\nlength C 45\n"
        "coincident A.start Origin\ny B.end -3\n") for each in y_um)
    assert spelled(EditedDrawing(now, known(then))) == spelled_anew(now)


def test_readings_that_are_read_again_are_the_same() -> None:
    """What was spelled of a drawing before doesn't pile up."""
    edited = EditedDrawing(read_drawing(PLATE))
    assert [len(list(edited.readings())) for _ in range(3)] == [1, 1, 1]
    assert len(edited.analysis.interpretations) == 1
    assert spelled(edited) == spelled(edited)


def test_a_chain_of_edits_is_judged_as_each_drawing_by_itself(program) -> None:
    """The hole is dragged: each time the program's sketch, the places and what is measured there
    are those of the drawing as its text reads."""
    edited = EditedDrawing(read_drawing(PLATE))
    for x_um in (41_000, 60_000, 20_000):
        judge_edited(edited, program)
        there = Place(Fraction(x_um), Fraction(31_000))
        drawing = checked(Move(((PointRef("H", Which.CENTRE), there),)).on(edited.drawing))
        edited = EditedDrawing(drawing, edited)
        found = judge_edited(edited, program)
        alone = judge_at_once(read_drawing(write_drawing(drawing)), program)
        assert found.asked.spelled.sketch == alone.asked.spelled.sketch
        assert (found.solution, found.deviations) == (alone.solution, alone.deviations)
        assert found.verdict is alone.verdict is Verdict.WELL


@dataclass
class Counts:
    """A program, and what it was asked."""

    program: Solver
    asked: list[tuple[str, ...]] = field(default_factory=list)

    def ask(self, words: Sequence[str], text: str) -> Answer:
        self.asked.append(tuple(words))
        return self.program.ask(words, text)


@dataclass(frozen=True)
class Says:
    """A program that gives one answer to all that it is asked."""

    text: str

    def ask(self, words: Sequence[str], text: str) -> Answer:
        return Answer(Status.DONE, self.text)


SOLVE = "solve", "place=boxes", "within=1000"


def test_the_limit_grows_with_the_sketch(program) -> None:
    """60.0005 mm is told twice as large, 60.0000625 mm 16 times: so is what has to be met."""
    for value, key in (("60.0005", "within=2000"), ("60.0000625", "within=16000")):
        counts = Counts(program)
        judged = judge_at_once(read_drawing(PLATE.replace("60", value)), counts)
        assert f"within={1000 * judged.asked.spelled.scale}" == key
        assert counts.asked == [("solve", "place=boxes", key)]
        assert judged.length_tolerance_nm <= 1


def test_of_what_is_well_the_program_is_asked_once(program) -> None:
    counts = Counts(program)
    judged = judge_at_once(read_drawing(PLATE), counts)
    assert judged.verdict is Verdict.WELL and counts.asked == [SOLVE]
    assert judged.asked.check is None and judged.asked.parts == ()


def test_its_counts_are_the_programs(program) -> None:
    counts = Counts(program)
    judged = judge(read_drawing(PLATE), counts)
    assert counts.asked == [SOLVE, ("check",)]
    text = judged.asked.spelled.sketch.text()
    assert judged.asked.check == read_check(program.ask(["check"], text).text)


def test_counts_of_what_is_not_well_are_no_counts_of_what_is(program) -> None:
    open_report = "verdict open\nelements 2\nconstraints 0\nparts 2\n" + "".join(
        f"part {number} sound elements 1 held 0 due 0 : {name}\n"
        for number, name in enumerate("AB", 1))
    judged = judge_at_once(read_drawing(PLATE), program)
    with pytest.raises(NotAReport, match="checks as not well"):
        with_counts(judged, Says(open_report))


@pytest.mark.parametrize("path", DRAWINGS, ids=lambda path: path.stem)
def test_what_solve_says_is_what_check_says(path: Path, program) -> None:
    asked = judge_at_once(read_drawing(path.read_text(encoding="utf-8")), program).asked
    said = program.ask(["check"], asked.spelled.sketch.text()).text
    assert asked.verdict is read_check(said).verdict
    assert asked.check is None or asked.check.text() == said
