"""How `fit` asks for a drawing with dimensions off: by the sketch of the drawing itself with other
lengths where that will do, which is the sketch that encoding it anew gives; and where it won't."""
from __future__ import annotations

from collections.abc import Iterator, Sequence
from fractions import Fraction
from math import cos, radians, sin
from pathlib import Path
from random import Random

import pytest
from pytest import approx

from pertxogai.drawing import VALUED, AngleBetween, Drawing, read_drawing
from pertxogai.fitting.affine import Affine, Probe
from pertxogai.fitting.asking import Asking
from pertxogai.fitting.toleranced import Moving, moved
from pertxogai.judging import judge_at_once
from pertxogai.judging.measure import Limit
from pertxogai.program import Answer

FITS = sorted((Path(__file__).parent / "fits").glob("*.drawing"))
PLATE = """rectangle P 0 0 80 60
coincident PBottom.start Origin
length PBottom 80
length PRight 60
circle H 30 20 5
x H.centre 30
y H.centre 20
diameter H 10
"""


class Listening:
    """A program, and the texts that it was asked about."""

    def __init__(self, program) -> None:
        self._program = program
        self.texts: list[str] = []

    def ask(self, words: Sequence[str], text: str) -> Answer:
        """Asks the program."""
        self.texts.append(text)
        return self._program.ask(words, text)


def lengths(drawing: Drawing) -> list[int]:
    """The places of the dimensions that are lengths, from 1."""
    return [number for number, each in enumerate(drawing.constraints, 1)
            if isinstance(each, VALUED) and not isinstance(each, AngleBetween)]


def cases(drawing: Drawing) -> Iterator[dict[int, Fraction]]:
    """A length, two, and all of them a little off."""
    random, numbers = Random(3), lengths(drawing)
    for count in sorted({1, min(2, len(numbers)), len(numbers)}):
        yield {number: Fraction(random.randint(-40, 40) or 7)
               for number in random.sample(numbers, count)}


# -- numbers that change evenly

def test_the_parts_of_a_sum_are_read_off_its_value() -> None:
    # 12.5 - 3 a + b / 2 with three dimensions, the last of which isn't in it.
    probe = Probe([4, 7, 9])
    offs = probe.offs()
    assert probe.affine(Fraction(25, 2), Fraction(25, 2) - 3 * offs[4] + offs[7] / 2) == Affine(
        Fraction(25, 2), {4: Fraction(-3), 7: Fraction(1, 2)})
    assert Affine(Fraction(25, 2), {4: Fraction(-3), 7: Fraction(1, 2)}).value(
        {4: Fraction(2), 9: Fraction(5)}) == Fraction(13, 2)


def test_what_isnt_such_a_sum_is_told() -> None:
    probe = Probe([4, 7])
    offs = probe.offs()
    assert probe.affine(Fraction(0), offs[4] * offs[7] / 11) is None
    assert probe.affine(Fraction(0), offs[4] * offs[4]) != Affine(Fraction(0), {4: offs[4]})
    assert probe.affine(Fraction(0), Fraction(1)) is None


# -- the sketch of the drawing itself

@pytest.mark.parametrize("path", FITS, ids=lambda path: path.stem)
def test_other_lengths_are_asked_for_as_if_the_drawing_were_read_anew(path, program) -> None:
    drawing, heard = read_drawing(path.read_text()), Listening(program)
    asking = Asking(drawing, heard, Limit())
    asking.begin(lengths(drawing))
    for offs in cases(drawing):
        anew = Listening(program)
        heard.texts.clear()
        lying, judged = asking.lying(offs), judge_at_once(moved(drawing, offs), anew)
        if len(anew.texts) == 1:
            assert heard.texts == anew.texts and lying.solution == judged.solution
        else:  # It is asked for by near ratios first, and then by finer ones.
            assert all(abs(here - there) <= 1 for ref, spot in lying.solution.points.items()
                       for here, there in zip(spot, judged.solution.points[ref]))


@pytest.mark.parametrize("path", FITS, ids=lambda path: path.stem)
def test_parts_of_micrometres_are_asked_for_by_that_sketch_at_a_larger_scale(path, program,
                                                                             monkeypatch) -> None:
    drawing, heard = read_drawing(path.read_text()), Listening(program)
    asking, numbers = Asking(drawing, heard, Limit()), lengths(drawing)
    asking.begin(numbers)
    asking.lying({numbers[0]: Fraction(1)})
    monkeypatch.setattr("pertxogai.fitting.asking.written", None)
    monkeypatch.setattr("pertxogai.fitting.asking.first_good", None)
    for off in (Fraction(5, 2), Fraction(-9, 8), Fraction(3)):
        anew, offs = Listening(program), {numbers[0]: off, numbers[-1]: 3 * off}
        heard.texts.clear()
        lying, judged = asking.lying(offs), judge_at_once(moved(drawing, offs), anew)
        if len(anew.texts) == 1:
            assert heard.texts == anew.texts and lying.solution == judged.solution
        else:  # It is asked for by near ratios first, and then by finer ones.
            assert all(abs(here - there) <= 1 for ref, spot in lying.solution.points.items()
                       for here, there in zip(spot, judged.solution.points[ref]))


def test_a_plate_of_other_sizes_is_not_encoded_anew(program, monkeypatch) -> None:
    # The hole is 31 by 19 from the corner then, and of a radius of 5.5.
    drawing = read_drawing(PLATE)
    asking = Asking(drawing, program, Limit())
    numbers = lengths(drawing)
    asking.begin(numbers)
    monkeypatch.setattr("pertxogai.fitting.asking.first_good", None)
    offs = {number: Fraction(off) for number, off in zip(numbers, (2000, -1000, 1000, -1000, 1000))}
    there = asking.lying(offs)
    places = {str(ref): spot for ref, spot in there.solution.points.items()}
    assert places["H.centre"] == (31_000_000, 19_000_000)
    assert places["PTop.start"] == (82_000_000, 59_000_000)
    assert there.solution.radii == {"H": 5_500_000} and there.off_nm == 0


def test_what_is_in_line_by_values_alone_is_asked_for_anew_where_it_is_not(program) -> None:
    # P and Q both stand 20 high, by dimensions of their own; 0.05 more of one lifts it alone.
    drawing = read_drawing("point P 10 20\npoint Q 40 20\nx P 10\ny P 20\nx Q 40\ny Q 20\n")
    asking = Asking(drawing, program, Limit())
    asking.begin(lengths(drawing))
    for number, spots in ((2, {"P": 20_050_000, "Q": 20_000_000}),
                          (4, {"P": 20_000_000, "Q": 20_050_000})):
        offs = {number: Fraction(50)}
        there = asking.lying(offs)
        assert {str(ref): spot[1] for ref, spot in there.solution.points.items()} == spots


# -- angles

def test_fine_angles_are_asked_for_at_once(program) -> None:
    # A bar of 100 at 30 degrees, of which the tangent is no ratio: the end is at 86.602540 50. The
    # first call for the drawing is by a near ratio, which leaves it 139 nm off.
    drawing = read_drawing("segment A 0 0 86.6 50\ncoincident A.start Origin\nlength A 100\n"
                           "angle A +30deg\n")
    heard = Listening(program)
    asking = Asking(drawing, heard, Limit())
    asking.begin(lengths(drawing))
    heard.texts.clear()
    offs = {2: Fraction(1000)}
    there = asking.lying(offs)
    (x, y), = (spot for ref, spot in there.solution.points.items() if str(ref) == "A.end")
    assert (abs(x - 87_468_566) <= 1, abs(y - 50_500_000) <= 1) == (True, True)
    assert len(heard.texts) == 1 and there.off_nm <= 2
    heard.texts.clear()
    offs = {3: Fraction(1, 2)}
    asking.lying(offs)
    assert len(heard.texts) == 1


def test_angles_are_told_finely_also_where_a_drawing_is_asked_for_as_any(program,
                                                                         monkeypatch) -> None:
    # A bar of 10 along x, and one of 1000 at 20 degrees to it, which ends at 10 + 1000 cos 20 and
    # 1000 sin 20, or 949.692620786 342.020143326. By the near ratio of 20 degrees it ends 18 nm
    # aside; the angle is measured at the end of the short bar, where that is rounding.
    drawing = read_drawing("segment A 0 0 10 0\nsegment B A.end 949.69 342.02\n"
                           "coincident A.start Origin\nhorizontal A\nlength A 10\nlength B 1000\n"
                           "angle A B +20deg\n")
    monkeypatch.setattr(Asking, "_finely", lambda asking, edited: None)
    asking = Asking(drawing, program, Limit())
    asking.begin(lengths(drawing), (5,))
    there = asking.lying({})
    (x, y), = (spot for ref, spot in there.solution.points.items() if str(ref) == "B.end")
    assert (abs(x - 949_692_621) <= 1, abs(y - 342_020_143) <= 1) == (True, True)


def test_an_angle_that_is_off_a_right_angle_is_asked_for_at_once(program) -> None:
    # A bar of 100 along x, and one of 100 square to it from its end; at 90.5 degrees that one ends
    # at 100 - 100 sin 0.5 and 100 cos 0.5. A right angle has a ratio, 90.5 degrees have none.
    drawing = read_drawing("segment A 0 0 100 0\nsegment B A.end 100 100\n"
                           "coincident A.start Origin\nhorizontal A\nlength A 100\nlength B 100\n"
                           "angle A B +90deg\n")
    heard = Listening(program)
    asking = Asking(drawing, heard, Limit())
    asking.begin(lengths(drawing), (5,))
    heard.texts.clear()
    offs = {5: Fraction(1, 2)}
    there = asking.lying(offs)
    (x, y), = (spot for ref, spot in there.solution.points.items() if str(ref) == "B.end")
    assert (abs(x - 99_127_346) <= 1, abs(y - 99_996_192) <= 1) == (True, True)
    assert len(heard.texts) == 1 and there.off_nm <= 2


def test_other_lengths_at_the_same_other_angle_are_asked_for_by_one_sketch(program,
                                                                           monkeypatch) -> None:
    # A bar of 100 at 30 degrees, and one of 50 from its end at 20 more; here at 30.5, and the bars
    # 101 and 49: they end at 101 cos 30.5 + 49 cos 50.5 and 101 sin 30.5 + 49 sin 50.5.
    drawing = read_drawing("segment A 0 0 86.6 50\nsegment B A.end 118.7 88.3\n"
                           "coincident A.start Origin\nlength A 100\nangle A +30deg\nlength B 50\n"
                           "angle A B +20deg\n")
    asking = Asking(drawing, program, Limit())
    asking.begin(lengths(drawing))
    ends = [{3: Fraction(1, 2), 2: Fraction(off)} for off in (-1000, 500)]
    for offs in ends:
        asking.lying(offs)
    encoded = []
    monkeypatch.setattr("pertxogai.fitting.asking.written", encoded.append)
    monkeypatch.setattr("pertxogai.fitting.asking.first_good", encoded.append)
    offs = {3: Fraction(1, 2), 2: Fraction(1000), 4: Fraction(-1000)}
    there = asking.lying(offs)
    (spot,) = (spot for ref, spot in there.solution.points.items() if str(ref) == "B.end")
    x = 101 * cos(radians(30.5)) + 49 * cos(radians(50.5))
    y = 101 * sin(radians(30.5)) + 49 * sin(radians(50.5))
    assert spot == (approx(x * 1e6, abs=2), approx(y * 1e6, abs=2)) and not encoded


ZIGZAG = """segment A 0 0 98.5 17.4
segment B A.end 197 0
segment C B.end 295.4 17.4
coincident A.start Origin
length A 100
angle A +10deg
length B 100
angle A B -20deg
length C 100
angle B C +20deg
"""
"""Three bars at 10, -10 and 10 degrees: the last one is parallel to the first."""


TURNED = [(Fraction(1, 20), Fraction(-1, 20), Fraction(1, 10)),  # None is parallel to another.
          (Fraction(1, 20), Fraction(-1, 20), Fraction(1, 20)),  # The first and the last still are.
          (Fraction(0), Fraction(0), Fraction(-1, 3))]
"""How many degrees these angles are off."""


def off_by(turned: tuple[Fraction, ...]) -> dict[int, Fraction]:
    """The zigzag with the first bar a millimetre longer, the last one half a millimetre shorter,
    and its angles off."""
    return {2: Fraction(1000), 6: Fraction(-500)} | {
        number: off for number, off in zip((3, 5, 7), turned) if off}


@pytest.mark.parametrize("turned", TURNED)
def test_other_angles_are_asked_for_by_the_sketch_of_the_drawing(turned, program,
                                                                 monkeypatch) -> None:
    drawing = read_drawing(ZIGZAG)
    asking = Asking(drawing, program, Limit())
    asking.begin((2, 4, 6), (3, 5, 7))
    monkeypatch.setattr("pertxogai.fitting.asking.written", None)
    monkeypatch.setattr("pertxogai.fitting.asking.first_good", None)
    offs = off_by(turned)
    there = asking.lying(offs)
    first, second = 10 + turned[0], -20 + turned[1]
    bars = (101, first), (100, first + second), (99.5, first + second + 20 + turned[2])
    places = {str(ref): spot for ref, spot in there.solution.points.items()}
    assert places["C.end"] == (approx(sum(a * cos(radians(way)) for a, way in bars) * 1e6, abs=3),
                               approx(sum(a * sin(radians(way)) for a, way in bars) * 1e6, abs=3))
    assert there.off_nm <= 3


@pytest.mark.parametrize("turned", TURNED)
def test_that_sketch_is_the_one_that_encoding_anew_gives(turned, program) -> None:
    drawing, offs = read_drawing(ZIGZAG), off_by(turned)
    asked = []
    for angles in ((3, 5, 7), ()):  # Of angles that aren't named each set is encoded anew.
        heard = Listening(program)
        asking = Asking(drawing, heard, Limit())
        asking.begin((2, 4, 6), angles)
        heard.texts.clear()
        asking.lying(offs)
        asked.append(heard.texts)
    assert asked[0] == asked[1] and len(asked[0]) == 1


def test_a_bar_that_comes_to_lie_level_is_encoded_anew(program) -> None:
    # B at 0 degrees is a level line, which is another sketch; C runs at 20 then.
    drawing = read_drawing(ZIGZAG)
    asking = Asking(drawing, program, Limit())
    asking.begin((2, 4, 6), (3, 5, 7))
    offs = {5: Fraction(10)}
    there = asking.lying(offs)
    places = {str(ref): spot for ref, spot in there.solution.points.items()}
    bars = (10, 0, 20)
    assert places["C.end"] == (approx(sum(cos(radians(way)) for way in bars) * 1e8, abs=3),
                               approx(sum(sin(radians(way)) for way in bars) * 1e8, abs=3))


def test_a_dimension_that_is_off_as_before_is_the_same_constraint() -> None:
    moving = Moving(read_drawing(PLATE))
    one, other = (moving.moved({6: Fraction(100), 7: Fraction(off)}) for off in (200, 300))
    assert one.constraints[5] is other.constraints[5]
    assert [each.constraints[6].value_um for each in (one, other)] == [60_200, 60_300]
