"""Each constraint on each geometry that it takes, spelled in every style.

Each drawing is fixed but for what its last line asks for. Styles that are well are placed and
measured; a style in which a constraint of linear values is told by what it follows from need
not be well by itself."""

from __future__ import annotations

import pytest

from pertxogai.drawing import read_drawing
from pertxogai.judging.measure import Unit, measure
from pertxogai.judging.settled import solution_of
from pertxogai.judging.trials import Question, ask
from pertxogai.program import Status
from pertxogai.program.reports import Verdict, read_solve
from pertxogai.spelling import Style, axes_of

BAR = "segment S 0 0 40 1; "
CORNER = BAR + "segment T S.start 1 30; length S 40; length T 30; "
LEANING = "segment S 0 0 34 21; coincident S.start Origin; length S 40; "
AWAY = BAR + "segment T 0 20 41 22; length S 40; length T 41; distance S.start T.start 25; "

CASES = [
    BAR + "segment T 41 2 40 30; length S 40; length T 30; distance S.start T.end 50; "
    "coincident S.end T.start",
    BAR + "horizontal S; length S 40; coincident S.start Origin",
    BAR + "point P 20 1; length S 40; distance S.start P 15; on P S",
    "point P 20 1; x P 20; on P XAxis",
    "point P 1 20; y P 20; on P YAxis",
    "circle C 0 0 10; point P 9 4; point Q 20 0; radius C 10; distance C Q 20; "
    "distance P Q 15; on P C",
    "arc A 0 0 10 0 0 10; point P 7 7; radius A 10; distance A.start A.end 14; "
    "distance P A.start 8; on P A",
    BAR + "coincident S.start Origin; length S 40; horizontal S",
    "point P 0 0; point Q 40 1; coincident P Origin; distance P Q 40; horizontal P Q",
    "circle C 0 0 5; circle D 40 1 5; coincident C Origin; radius C D 5; distance C D 40; "
    "horizontal C D",
    "segment S 0 0 1 40; coincident S.start Origin; length S 40; vertical S",
    "point P 0 0; point Q 1 40; coincident P Origin; distance P Q 40; vertical P Q",
    AWAY + "distance T.start S 20; parallel S T",
    BAR + "coincident S.start Origin; length S 40; parallel S XAxis",
    CORNER + "perpendicular S T",
    BAR + "segment T 1 1 1 30; length S 40; length T 30; perpendicular S.start T.start",
    "segment S 1 0 1 40; coincident S.start Origin; length S 40; perpendicular S XAxis",
    BAR + "segment T 50 1 80 2; length S 40; length T 30; distance S.end T.start 10; "
    "collinear S T",
    "segment S 10 1 40 1; x S.start 10; length S 30; collinear S XAxis",
    CORNER + "angle S T 70deg",
    CORNER + "angle S T 3/1",
    CORNER + "angle S T +70deg",
    CORNER + "angle T S -70deg",
    LEANING + "angle S 30deg",
    LEANING + "angle S YAxis 60deg",
    LEANING + "angle S +3/4",
    CORNER.replace("length S 40; ", "perpendicular S T; ") + "length S 40",
    "point P 0 0; point Q 40 1; coincident P Origin; on Q XAxis; distance P Q 40",
    "point P 0 1; point Q 40 1; horizontal P Q; x P 0; y P 0; distance P Q 40",
    "point P 40 20; on P XAxis; distance Origin P 40",
    BAR + "point P 20 15; length S 40; distance P S.start 25; distance P S 15",
    "point P 20 15; x P 20; distance P XAxis 15",
    "circle C 20 15 5; radius C 5; y C 15; distance YAxis C 20",
    AWAY + "parallel S T; distance S T 20",
    "segment S 10 20 40 21; horizontal S; length S 30; x S.start 10; distance S XAxis 20",
    "point P 20 15; y P 15; x P 20",
    "point P 20 15; point Q -20 10; coincident P Origin; y P Q 10; x P Q -30",
    "point P 20 15; point Q -20 10; coincident P Origin; x P Q -30; y P Q +10",
    "circle C 20 15 5; x C 20; y C 15; radius C 5",
    "arc A 0 0 10 0 0 10; distance A.start A.end 14; radius A 10",
    "circle C 20 15 5; x C 20; y C 15; diameter C 10",
    "arc A 0 0 10 0 0 10; distance A.start A.end 14; diameter A 20",
    BAR + "circle C 20 10 10; length S 40; radius C 10; distance S.start C 25; tangent S C",
    "circle C 20 10 10; radius C 10; x C 20; tangent C XAxis",
    BAR + "arc A 40 10 S.end 50 10; length S 40; radius A 10; distance A.start A.end 14; "
    "tangent S A",
    BAR + "arc A 40 10 41 1 50 10; length S 40; radius A 10; distance A.start A.end 14; "
    "tangent S.end A.start",
    BAR + "circle C 40 10 10; on S.end C; length S 40; radius C 10; tangent S C",
    BAR + "arc A 40 10 41 1 50 10; on A.start S; distance S.start A.start 30; length S 40; "
    "radius A 10; distance A.start A.end 14; tangent A S",
    "circle C 0 0 10; circle D 15 0 5; radius C 10; radius D 5; tangent C D",
    "circle C 0 0 10; circle D 6 0 5; radius C 10; radius D 5; tangent C D",
    "arc A 0 0 10 0 0 10; arc B 0 20 A.end 10 20; radius A 10; radius B 10; "
    "distance A.start A.end 14; distance B.start B.end 14; tangent A B",
    BAR + "segment T S.end 41 38; length S 40; perpendicular S T; equal S T",
    "circle C 0 0 10; circle D 25 0 9; distance C D 25; radius C 10; equal C D",
    "circle C 20 0 10; arc A 0 0 10 0 0 10; distance A.start A.end 14; distance C A 20; "
    "distance C A.start 12; radius A 10; equal A C",
    "circle C 0 0 10; circle D 1 1 5; point P 30 0; radius C 10; radius D 5; "
    "distance C P 30; concentric C D",
    "circle C 0 1 5; arc A 0 0 10 0 0 10; radius A 10; radius C 5; distance A.start A.end 14; "
    "concentric A C",
    "segment S 0 0 0 40; point P -20 10; point Q 21 11; length S 40; distance P S 20; "
    "distance P S.start 25; symmetric P Q about S",
    "point P -20 10; point Q 21 11; x P -20; y P 10; symmetric P Q about YAxis",
    "point P -20 10; point Q 21 11; point M 1 13; x P -20; y P 10; y M 13; x P M 21; "
    "symmetric P Q about M",
    "point P 20 10; point Q -21 11; x P 20; y P 10; symmetric P Q about Origin",
    BAR + "point M 21 1; length S 40; midpoint M S",
    "segment S -20 0 21 1; horizontal S; length S 40; midpoint Origin S",
    "point P 20 10; fixed P",
    "segment S 10 10 40 20; fixed S",
    "segment S 10 10 40 20; length S 30; horizontal S; fixed S.start",
    "circle C 20 10 5; fixed C",
    "outer segment S 10 10 40 10; point P 20 21; x P 20; distance P S 10",
    "outer circle C 10 10 5; point P 20 21; x P 10; distance P C 10",
]


def drawing_of(case: str):
    return read_drawing("\n".join(case.split("; ")))


@pytest.mark.parametrize("case", CASES)
def test_constraint_in_each_style(case, program):
    drawing = drawing_of(case)
    well = [style for style in Style if measured(drawing, style, program)]
    assert len(well) >= 3, well


def measured(drawing, style: Style, program) -> bool:
    """Whether the style is well and placed; what is placed is within 2 nm of all constraints."""
    asked = ask(Question(drawing, program), axes_of(drawing), style)
    answer = program.ask(["solve"], asked.spelled.sketch.text())
    if asked.verdict is not Verdict.WELL or answer.status is not Status.DONE:
        return False
    solution = solution_of(drawing, asked, read_solve(answer.text))
    off = {each.called(drawing): each.amount for each in measure(drawing, solution)
           if each.unit is Unit.NM and each.amount > 2}
    assert not off, style
    return not asked.spelled.left_out


def test_each_word_is_asked_for():
    words = {case.split("; ")[-1].split()[0] for case in CASES}
    assert len(words) == 20
