"""A drawing of which only values of lengths are others than before is spelled as if it were read
anew: the same sketches, with the same owners, in each reading and each style."""
from __future__ import annotations

from collections.abc import Iterator
from fractions import Fraction
from pathlib import Path
from random import Random

import pytest

from pertxogai.drawing import VALUED, AngleBetween, Drawing, DrawingUnsound, read_drawing
from pertxogai.fitting.toleranced import moved
from pertxogai.judging.edited import EditedDrawing
from pertxogai.spelling import Style
from toleranced_drawings import toleranced

TESTS = Path(__file__).parent
DRAWINGS = sorted([*TESTS.glob("fits/*.drawing"), *TESTS.glob("drawings/*.drawing")])


def spelled(edited: EditedDrawing) -> list[dict[str, object]]:
    """All that the program would be told of a drawing, and who says it."""
    found = [each.spelled(style) for each in edited.readings() for style in Style]
    return [{**{name: value for name, value in vars(each).items() if name not in ("said", "sheet")},
             "owners": each.owners, "drawn": (each.sheet.points, each.sheet.lines),
             "values": [draft.value_um for draft in each.sheet.drafts]} for each in found]


def otherwise(drawing: Drawing, random: Random) -> Iterator[Drawing]:
    """The drawing with a length, some, or all of them a little more or less."""
    numbers = [number for number, each in enumerate(drawing.constraints, 1)
               if isinstance(each, VALUED) and not isinstance(each, AngleBetween)]
    for count in (1, 2, len(numbers)) if numbers else ():
        some = random.sample(numbers, min(count, len(numbers)))
        offs = {number: Fraction(random.randint(-90, 90)) for number in some}
        try:
            yield moved(drawing, offs)
        except DrawingUnsound:
            continue


def check(drawing: Drawing, seed: int) -> None:
    """Compares the drawing with other values, as edited and as read anew."""
    known = EditedDrawing(drawing)
    spelled(known)
    for other in otherwise(drawing, Random(seed)):
        assert spelled(EditedDrawing(other, known)) == spelled(EditedDrawing(other))


@pytest.mark.parametrize("path", DRAWINGS, ids=lambda path: path.stem)
def test_other_values_are_spelled_as_if_they_were_read_anew(path: Path) -> None:
    check(read_drawing(path.read_text()), 1)


@pytest.mark.parametrize("seed", range(1, 25))
def test_other_values_of_drawings_by_chance_are(seed: int) -> None:
    drawing = toleranced(seed)
    if drawing is not None:
        check(drawing, seed)


def test_two_heights_that_are_alike_by_their_values_alone_are_not_later() -> None:
    # Two points at 20 have one y, so the way between them is level; at 20 and 20.05 it isn't, and
    # their distance is no equation.
    drawing = read_drawing("point P 10 20\npoint Q 40 20\nx P 10\ny P 20\ny Q 20\n"
                           "distance P Q 30\n")
    known = EditedDrawing(drawing)
    assert spelled(known)
    anew = moved(drawing, {3: Fraction(50)})
    (first, *_), (other, *_) = (spelled(each) for each in (
        EditedDrawing(anew, known), EditedDrawing(anew)))
    assert first == other
    assert "distance" in first["sketch"].text() != spelled(known)[0]["sketch"].text()


def test_two_points_that_are_one_by_their_values_alone_are_not_later() -> None:
    # Q is drawn to the right of P, and told to be at the same place: a distance of 3 contradicts
    # that. With Q 3 to the left of P it only repeats it.
    drawing = read_drawing("point P 10 20\npoint Q 14 20\nhorizontal P Q\nx P 10\nx Q 10\n"
                           "y P 20\ndistance P Q 3\n")
    known, anew = EditedDrawing(drawing), moved(drawing, {3: Fraction(-3000)})
    assert amounts(known) == [-3000]
    edited = EditedDrawing(anew, known)
    assert amounts(edited) == [0]
    assert spelled(edited) == spelled(EditedDrawing(anew))


def amounts(edited: EditedDrawing) -> list[object]:
    """By how much what follows from the rest is off that, in the first reading."""
    return [told.amount for _, told in next(edited.readings()).axes.told]


PLATE = """segment South {} {}
segment East South.end {}
segment North East.end {}
segment West North.end South.start
point Q {}
perpendicular South East
perpendicular East North
perpendicular North West
length South {}
length East 20
distance South.start Q 21
distance North.end Q 6
"""
FLAT = "0 0", "28.8 8.4", "23.2 27.6", "-5.6 19.2", "-10.4 17.8"
STEEP = "0 0", "8.4 28.8", "-10.8 34.4", "-19.2 5.6", "-20.6 0.8"
"""A plate of 30 by 20, turned by the angle of the sides 7, 24 and 25, and by the rest to 90
degrees; Q is beside its left edge, outside."""


def test_what_is_drawn_elsewhere_after_other_values_were_tried() -> None:
    first = EditedDrawing(read_drawing(PLATE.format(*FLAT, 30)))
    drawing = read_drawing(PLATE.format(*FLAT, 31))
    assert spelled(first) != spelled(EditedDrawing(drawing, first))
    turned = EditedDrawing(read_drawing(PLATE.format(*STEEP, 30)), first)
    assert spelled(turned) == spelled(EditedDrawing(turned.drawing))
    lines = {each.axes.lines for edited in (first, turned)
             for each in edited.analysis.interpretations}
    assert len(lines) == 1, "they were taken over"
    longer = read_drawing(PLATE.format(*STEEP, 31))
    assert spelled(EditedDrawing(longer, turned)) == spelled(EditedDrawing(longer))
