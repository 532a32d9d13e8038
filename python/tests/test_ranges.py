"""Ranges: how far values and dimensions go, and why no further, each worked out by hand."""
from __future__ import annotations

import json
import re
import subprocess
import sys
from fractions import Fraction

import pytest

from conftest import TOP
from pertxogai import search
from pertxogai.commands import main
from pertxogai.drawing import PointRef, Which, read_drawing
from pertxogai.exits import MissingLibrary
from pertxogai.judging import Failure, Names
from pertxogai.language.clusters import ClusterName
from pertxogai.program import Program
from pertxogai.program.library import quickest
from pertxogai.program.reports import (
    Cause, ConstraintFault, FrameFault, LineFault, NumberFault, Phase, RangeFault, StepAt,
    TurnedFault)
from pertxogai.program.reports.faults import Unit
from pertxogai.ranging import FaultKind, NoRange, Ranging
from pertxogai.ranging.faults import of_failure
from pertxogai.ranging.search import MOST_TRIED, ROUGH, Search
from pertxogai.spelling import Style, axes_of, spell
from shared_drawings import LINK

DRAWINGS = TOP / "python" / "tests" / "drawings"
PLATE = """segment Bottom 0 0 118 0
segment Right Bottom.end 118 79
segment Top Right.end 0 79
segment Left Top.end Bottom.start
circle Hole 47 28 5
coincident Bottom.start Origin
horizontal Bottom Top
vertical Right Left
Width: length Bottom 120
Height: length Right 80
x Hole 45
y Hole 30
Bore: diameter Hole 12
"""
TRIANGLE = """point A 0 0
point B 40 0
point C 14 20
coincident A Origin
horizontal A B
Base: x A B 40
First: distance A C 30
Second: distance B C 35
"""


@pytest.fixture(scope="module")
def program():
    """The library, which is quicker, where it is there; else the program."""
    return quickest()


def range_of(text, name, program):
    ranging = Ranging.of(read_drawing(text), program)
    of = next(each for each in ranging.parameters() if each.called(ranging.drawing) == name)
    return ranging.range_of(of)


@pytest.mark.parametrize(("name", "low", "why_low", "high", "why_high"), [
    # The hole's right side lies at 45 + 6 = 51; a cut of a micrometre is a touch.
    ("Width", "50.999", "Right and Hole cross, but are drawn apart",
     "1000000", "no length goes beyond 1,000,000 mm"),
    ("Height", "35.999", "Top and Hole cross, but are drawn apart",
     "1000000", "no length goes beyond 1,000,000 mm"),
    # Its centre stays 6 from each side.
    ("constraint 8 (x Hole.centre 45)", "5.999", "Left and Hole cross, but are drawn apart",
     "114.001", "Right and Hole cross, but are drawn apart"),
    ("constraint 9 (y Hole.centre 30)", "5.999", "Bottom and Hole cross, but are drawn apart",
     "74.001", "Top and Hole cross, but are drawn apart"),
    # It touches the bottom with a radius of 30.
    ("Bore", "0.001", "no length is below 0.001 mm",
     "60.002", "Bottom and Hole cross, but are drawn apart"),
])
def test_a_hole_stays_in_its_plate(program, name, low, why_low, high, why_high):
    found = range_of(PLATE, name, program)
    assert (found.low.at, found.high.at) == (Fraction(low), Fraction(high))
    assert (found.low.fault.text, found.high.fault.text) == (why_low, why_high)


@pytest.mark.parametrize(("name", "low", "high"), [
    # Three sides make a triangle where each is less than the others together.
    ("Base", 5, 65), ("First", 5, 75), ("Second", 10, 70)])
def test_a_triangle_goes_as_far_as_its_sides_reach(program, name, low, high):
    found = range_of(TRIANGLE, name, program)
    assert (found.low.at, found.high.at) == (low + Fraction(1, 1000), high - Fraction(1, 1000))
    for end in (found.low, found.high):
        assert end.fault.kind is FaultKind.NO_PLACES
        assert {"'Base'", "'First'", "'Second'"} <= set(end.fault.text.replace(",", " ").split())


def test_a_reason_names_the_numbers_of_the_drawing(program):
    plain = TRIANGLE.replace("Base: ", "").replace("First: ", "").replace("Second: ", "")
    found = range_of(plain, "constraint 3 (x A B 40)", program)
    for end in (found.low, found.high):
        assert end.fault.text.endswith(
            "constraint 3 (x A B 40), constraint 4 (distance A C 30), constraint 5 "
            "(distance B C 35)")


def test_an_angle_is_told_to_a_ten_thousandth_of_a_degree(program):
    text = ("segment Base 0 0 40 0\nsegment Arm Base.start 20 30\ncoincident Base.start Origin\n"
            "horizontal Base\nlength Base 40\nlength Arm 30\nTilt: angle Base Arm 60deg\n")
    found = range_of(text, "Tilt", program)
    # The arm is drawn at 56.30993 degrees, the arc tangent of 30/20, and a line runs the way that is
    # nearer to its drawn one: from a right angle away from that on, so 146.30993 degrees, the arm
    # would lie below the base.
    assert found.low.at == Fraction(1, 10_000)
    assert found.low.fault.kind is FaultKind.LIMIT
    assert found.high.at == Fraction("146.3099")
    assert found.high.fault.kind is FaultKind.DEPARTURE


def test_a_value_goes_as_far_as_all_that_follows_from_it(program):
    # Height and Margin follow from Width: the holes are Margin = max(Width/8, 12) wide, and touch
    # where Width - 2 * 12 = 12.
    text = (DRAWINGS / "plate-by-values.drawing").read_text()
    found = range_of(text, "Width", program)
    assert found.low.at == Fraction("35.999")
    assert found.low.fault.text == "West and East cross, but are drawn apart"
    ranging = Ranging.of(read_drawing(text), program)
    assert [each.called(ranging.drawing) for each in ranging.parameters()] == ["Width"]


def test_a_value_ends_where_a_length_of_it_goes_beyond_the_language(program):
    text = (DRAWINGS / "plate-by-values.drawing").read_text()
    found = range_of(text, "Width", program)
    assert found.high.at == 1_000_000
    assert found.high.fault.text == (
        "constraint 6 (length PlateBottom Width): 'Width' comes to 1000000.001 mm, and that is a "
        "length beyond 1000000 mm: change a value in it")


def test_a_value_ends_where_a_length_of_it_is_gone(program):
    text = "value Gap 4\n" + PLATE.replace("length Right 80", "length Right 90 - 2*Gap")
    found = range_of(text.replace("y Hole 30", "y Hole 20"), "Gap", program)
    # The hole reaches to 26: 90 - 2 * 32 = 26.
    assert found.high.at == Fraction("32")
    assert found.high.fault.text == "Top and Hole cross, but are drawn apart"


def test_what_is_not_good_has_no_range(program):
    with pytest.raises(NoRange, match="the drawing isn't good: it is open"):
        Ranging.of(read_drawing(PLATE.replace("Width: length Bottom 120\n", "")), program)


@pytest.mark.parametrize("name", ["plate-by-values", "angle-signs", "slotted-plate", "four-bar",
                                  "crank-and-slider"])
def test_samples_within_are_good_and_the_next_beyond_is_not(program, name):
    ranging = Ranging.of(read_drawing((DRAWINGS / f"{name}.drawing").read_text()), program)
    for each in ranging.ranges():
        low, high = each.low.at, each.high.at
        steps = [low + (high - low) * part / 8 for part in range(9)]
        within = [Fraction(int(step / each.step)) * each.step for step in steps[1:-1]]
        assert [ranging.fault(each.of, it) for it in within] == [None] * 7
        for end, way in ((each.low, -1), (each.high, 1)):
            if end.fault.kind is not FaultKind.LIMIT:
                assert ranging.fault(each.of, end.at + way * each.step) == end.fault


ARM = """segment S 0 0 40 0
segment T S.start 20 34
coincident S.start Origin
horizontal S
length S 40
length T 40
"""


@pytest.mark.parametrize(("text", "name", "low", "high"), [
    # T is drawn at 59.5345 degrees, and lies that way which is nearer: up to 149.5345. So Turn goes
    # from 0 to six times that, Tilt from -60 to 89.5345.
    ("value Turn 360deg\nvalue Holes 6\n" + ARM + "angle S T Turn/Holes\n", "Turn", 0, 897.2067),
    ("value Tilt 0deg\n" + ARM + "angle S T 60deg+Tilt\n", "Tilt", -60, 89.5345),
    # T is drawn at 97.1250 degrees: half of Far goes from 7.1250 to 180.
    ("value Far 200deg\n" + ARM.replace("20 34", "-5 40") + "angle S T Far/2\n", "Far",
     14.25, 360)])
def test_a_value_in_degrees_goes_as_far_as_the_angle_of_it(program, text, name, low, high):
    found = range_of(text, name, program)
    assert found.low.at <= found.of.present <= found.high.at
    # Directions hold within 1000 ppb, which is 0.00006 degrees.
    assert abs(found.low.at - Fraction(low)) < Fraction("0.001")
    assert abs(found.high.at - Fraction(high)) < Fraction("0.001")


def test_construction_lines_that_would_lie_mirrored_end_a_range(program):
    text = ("construction segment AB 0 0 40 0\nconstruction segment AC 0 0 20 15\n"
            "construction segment CB AC.end 40 0\npoint Hole 10 35\ncoincident AB.start Origin\n"
            "coincident AC.start Origin\ncoincident CB.end AB.end\nhorizontal AB\nlength AB 40\n"
            "x Hole 10\nHigh: y Hole 35\nx AC.end 20\ny Hole AC.end 20\n")
    # AC.end lies 20 below the hole, so it is on AB where High is 20, and mirrored below.
    assert range_of(text, "High", program).low.at == 20


def test_a_hole_goes_on_over_the_chord_of_a_rounded_end(program):
    found = range_of(LINK + "on Hole XAxis\nSlide: x Hole 36\n", "Slide", program)
    # The end is rounded by 10 about 60, and the hole's radius is 4.
    assert (found.low.at, found.high.at) == (0, Fraction("66.001"))
    assert found.high.fault.text == "East and Hole cross, but are drawn apart"


SMALL_HOLES = """rectangle Plate 0 0 118 79
circle Hole 47 28 1
circle Other 70 28 1
coincident PlateBottom.start Origin
length PlateBottom 120
length PlateRight 80
Slide: x Hole 45
y Hole 30
diameter Hole 2
x Other 72
Aside: y Other 30
diameter Other 2
"""


@pytest.mark.parametrize(("aside", "low", "high"), [
    # The two holes touch where their centres are 2 apart, by a micrometre's cut: at 70.
    ("30", "0.999", "70.001"),
    # 1.2 beside each other they touch where they are 1.6 apart: 1.2, 1.6, 2.
    ("31.2", "0.999", "70.401"),
    # 2 beside each other they touch alone, so it goes on to the edge of the plate.
    ("32", "0.999", "119.001")])
def test_a_small_hole_that_another_would_pass_ends_the_range(program, aside, low, high):
    text = SMALL_HOLES.replace("Aside: y Other 30", f"y Other {aside}")
    found = range_of(text, "Slide", program)
    assert found.is_clear
    assert found.low.at == Fraction(low)
    assert abs(found.high.at - Fraction(high)) <= Fraction("0.001")
    told = "PlateRight and Hole" if aside == "32" else "Hole and Other"
    assert found.high.fault.text == f"{told} cross, but are drawn apart"


def test_a_small_hole_that_an_arm_would_sweep_over_ends_the_range(program):
    text = ("segment Base 0 0 40 0\nsegment Arm Base.start 34 20\ncircle Hole 15 26 0.5\n"
            "coincident Base.start Origin\nhorizontal Base\nlength Base 40\nlength Arm 40\n"
            "Tilt: angle Base Arm 30deg\nx Hole 15\ny Hole 26\nradius Hole 0.5\n")
    found = range_of(text, "Tilt", program)
    # The hole lies at atan(26/15) = 60.018 degrees, 30.017 away; it is seen under
    # asin(0.5/30.017) = 0.954 to each side, and 0.002 of it are a micrometre's cut.
    assert abs(found.high.at - Fraction("59.066")) < Fraction("0.002")
    assert found.high.fault.text == "Arm and Hole cross, but are drawn apart"


BAR = """rectangle Plate 0 0 118 79
coincident PlateBottom.start Origin
length PlateBottom 120
length PlateRight 80
segment Bar 30 20 50 20
horizontal Bar
x Bar.start 30
Up: y Bar.start 20
length Bar 20
circle Dot 40 60 0.5
x Dot 40
y Dot 60
radius Dot 0.5
"""
PIN = """segment Arm Origin 39 7
length Arm 40
Turn: angle XAxis Arm +10deg
circle Pin 20 20 0.05
x Pin 20
y Pin 20
radius Pin 0.05
"""
CUBE = """value V 20
circle Hole 20 30 1
x Hole +V*V*V/400
y Hole 30
radius Hole 1
circle Pin 72 30 0.1
x Pin 72
y Pin 30
radius Pin 0.1
"""
KINK = """value V 40
circle Hole 40 30 1
x Hole min(V,100-V)
y Hole 30
radius Hole 1
circle Pin 51.05 30 0.1
x Pin 51.05
y Pin 30
radius Pin 0.1
"""
POLE = """value V 45
circle Hole 20 30 1
x Hole +100/(50-V)
y Hole 30
radius Hole 1
circle Pin 72 30 1
x Pin 72
y Pin 30
radius Pin 1
"""


@pytest.mark.parametrize(("text", "name", "high", "off"), [
    # The bar comes to the dot at 60 - 0.5, and cuts it by a micrometre.
    (BAR, "Up", "59.501", "0"),
    # The pin lies at 45 degrees, 28.284 away, and is seen under asin(0.049/28.284) to each side.
    (PIN, "Turn", "44.9007", "0.0002"),
    # They touch where V*V*V/400 is 72 - 1.1 + 0.001: 30.4962 by a cube root.
    (CUBE, "V", "30.495", "0.0015"),
    # At 50 the hole turns back, and there it is 0.05 in the pin; they touch at 51.05 - 1.1 + 0.001.
    (KINK, "V", "49.951", "0"),
    # They touch where 100/(50-V) is 70.001: at 48.57145.
    (POLE, "V", "48.571", "0.0005")])
def test_a_small_thing_far_away_ends_a_range(program, text, name, high, off):
    found = range_of(text, name, program)
    assert abs(found.high.at - Fraction(high)) <= Fraction(off)
    assert found.is_clear and found.tried < 140
    assert found.high.fault.kind is FaultKind.DEPARTURE


def test_what_is_over_beside_the_present_number_is_asked_of_the_program(program):
    text = ("circle Hole 20 30 5\nx Hole 20\ny Hole 30\nRad: radius Hole 5\n"
            "Dia: diameter Hole 10\n")
    found = range_of(text, "Rad", program)
    assert found.low.at == found.high.at == 5
    assert {found.low.fault.text, found.high.fault.text} == {
        "it is over (over-constrained): remove one of 'Rad', 'Dia'"}
    assert found.low.fault.kind is FaultKind.VERDICT


def test_a_small_value_without_a_unit_is_told_to_a_part_of_itself(program):
    text = "value K 0.0004\n" + ARM.replace("length S 40", "length S K*100000") + "angle S T 60deg\n"
    found = range_of(text, "K", program)
    # A ten-millionth gives a length of 0.01 mm, 10 gives the greatest length.
    assert (found.low.at, found.high.at) == (Fraction(1, 10_000_000), 10)


def test_a_present_number_between_two_steps_is_one_of_its_range(program):
    text = PLATE.replace("x Hole 45", "Place: x Hole 45.0004")
    found = range_of(text, "Place", program)
    # All numbers are whole micrometres away from it.
    assert (found.low.at, found.high.at) == (Fraction("5.9994"), Fraction("114.0004"))


@pytest.mark.parametrize(("good", "low", "high"), [
    (lambda it: 0 <= it <= 70_000, 0, 70_000),
    (lambda it: -123_456 <= it <= 1_234_567, -123_456, 1_234_567),
    (lambda it: abs(it - 40_000) < 2, 39_999, 40_001),
    (lambda it: it == 40_000, 40_000, 40_000),
    (lambda it: True, -10 ** 9, 10 ** 9),
    (lambda it: not 50_000 < it < 60_000, -10 ** 9, 50_000),  # A hole, behind which all is good.
])
def test_borders_are_found(good, low, high):
    search = Search(lambda it: None if good(it) else "bad", 40_000, -10 ** 9, 10 ** 9,
                    lambda it: "beyond", lambda numbers: True, lambda it: "bad")
    assert (search.border(False).good, search.border(True).good) == (low, high)


def test_a_small_hole_of_a_range_is_found_where_the_way_is_not_clear():
    def fault(number):
        return "bad" if number in range(777_001, 777_004) else None

    def is_clear(numbers):
        return not min(numbers) <= 777_002 <= max(numbers)

    search = Search(fault, 40_000, 0, 10 ** 6, lambda it: "beyond", is_clear, lambda it: "bad")
    assert search.border(False).good == 0
    border = search.border(True)
    assert (border.good, border.is_clear) == (777_000, True)
    assert len(search.known) < 100


def test_a_number_that_is_good_in_another_way_is_no_end():
    ways = [range(-60_000, 60_001)]

    def at_end(number):
        if number > 60_000 and number <= 90_000:
            ways.append(range(90_001))
            return None
        return "bad by all"

    search = Search(lambda it: None if any(it in way for way in ways) else "bad", 40_000, -10 ** 9,
                    10 ** 9, lambda it: "beyond", lambda numbers: True, at_end)
    assert (search.border(False).good, search.border(True).good) == (-60_000, 90_000)
    assert search.border(True).fault == "bad by all"


def test_a_way_that_is_never_clear_is_given_up_and_told_so():
    search = Search(lambda it: None, 40_000, 0, 10 ** 6, lambda it: "beyond", lambda numbers: False,
                    lambda it: "bad")
    border = search.border(True)
    assert (border.good, border.is_clear, search.asked) == (10 ** 6, False, MOST_TRIED + ROUGH)


def rounded(off_by, limit=1_000):
    """A fault and a rounding, as of a constraint that is off by that at a number."""
    def fault(number):
        return "off" if off_by(number) > limit else None

    def rounding(number):
        return f"off at {number}" if off_by(number) > limit / 2 else None

    return fault, rounding


def searched(fault, rounding, low=1, high=10 ** 9):
    return Search(fault, 60_000, low, high, lambda it: "beyond", lambda numbers: True, fault,
                  rounding)


def test_a_range_ends_before_rounding_breaks_what_is_odd_alone():
    # As a half of an odd number of micrometres, which no sketch beyond 125 m can hold.
    border = searched(*rounded(lambda it: 1_001 if it > 125_000_000 and it % 2 else 1)).border(True)
    assert 125_000_000 * 15 // 16 <= border.good <= 125_000_000
    assert border.fault.startswith("off at ") and int(border.fault.split()[-1]) % 2


def test_a_range_ends_where_the_error_of_rounding_may_pass_the_half_of_the_limit():
    # An error that grows with the size, and jumps about below that: at 100 m it may be 1,000.
    def off_by(number):
        return number * (number * 7919 % 1_000) // 100_000_000

    border = searched(*rounded(off_by)).border(True)
    assert 50_000_000 * 15 // 16 <= border.good <= 60_000_000
    # Nothing up to it is off by more than the limit.
    assert 1_000 >= max(off_by(each) for each in range(border.good - 10_000, border.good + 1))


def test_a_range_ends_before_rounding_breaks_what_is_small():
    border = searched(*rounded(lambda it: (it * 7919 % 97) * 200 // it)).border(False)
    assert 20 <= border.good <= 60  # At 19 it may be off by 1,010.


@pytest.mark.parametrize("odd", [12, 13, 15, 16, 19, 26])
def test_before_a_small_number_each_of_the_nearest_is_tried(odd):
    border = searched(*rounded(lambda it: 1_001 if it in (*range(11), odd) else 1)).border(False)
    assert border.good == odd + 1


@pytest.mark.parametrize("size", [113, 197, 299])
def test_what_rounding_breaks_is_told_beyond_the_end(size):
    border = searched(*rounded(lambda it: (it * 7919 % size) * 20_000 // size // it)).border(False)
    assert int(border.fault.split()[-1]) < border.good


def test_an_end_at_which_nothing_is_rounded_stays():
    border = searched(*rounded(lambda it: 0 if it <= 70_000 else 5_000)).border(True)
    assert (border.good, border.fault) == (70_000, "off")


def test_a_gap_that_is_found_on_the_way_to_what_rounding_breaks_ends_the_range():
    fault, rounding = rounded(lambda it: 1_001 if it > 125_000_000 and it % 2 else 1)
    gap = range(110_000_000, 120_000_000)
    border = searched(lambda it: "gap" if it in gap else fault(it), rounding).border(True)
    assert (border.good, border.fault) == (109_999_999, "gap")


def test_each_failure_is_told_in_the_designers_names():
    drawing = read_drawing(TRIANGLE)
    spelled, refs = spell(drawing, Style.VALUES), axes_of(drawing).facts.refs
    names = Names(drawing, spelled, refs)
    corner = spelled.points[refs[PointRef("C", Which.AT)]]

    def told(fault, at=(), dimensions=("First",)):
        found = of_failure(names, Failure(fault, fault.text(), dimensions, at, None))
        assert found.kind is FaultKind.NO_PLACES
        return found.text

    def stopped(quantity, cause, element):
        return NumberFault(StepAt(3, Phase.BUILD, quantity, element), cause, -1, 1, 38)

    assert told(stopped("height", Cause.GAP, corner), ("A", "B", "C")) == (
        "C can't be placed: the distances make no triangle (step 3, height gap), by 'First'")
    assert told(stopped("rise", Cause.GAP, "Help"), ("A", "B")) == (
        "a construction line at A, B can't be placed: no line lies at these distances from both "
        "points (step 3, rise gap), by 'First'")
    assert told(stopped("tx", Cause.FLAT, "Help"), dimensions=()) == (
        "a construction line can't be placed: step 3, tx flat")
    assert told(RangeFault(StepAt(1, Phase.BUILD, "height", corner), 38)) == (
        "C can't be placed: the numbers grow too large to compute with (step 1, height range), "
        "by 'First'")
    assert told(FrameFault("x", corner, 38), ("C",), ()) == (
        "C can't be placed: the numbers grow too large to compute with")
    # A sketch is so many times larger than its drawing; a millionth of a turn is 0.000057 degrees.
    assert told(ConstraintFault(1, 2_000_000 * spelled.scale, Unit.NM, 1000 * spelled.scale)) == (
        "'First' is met only within 2 mm, not 0.001 mm")
    assert told(LineFault("Help", 2158, 1000), ("Up",), ()) == (
        "the direction of Up is met only within 0.000124 degrees, not 0.000057 degrees")
    assert told(TurnedFault(ClusterName(True, 1), True, -1), ("A", "B", "C")) == (
        "A, B, C would lie mirrored")
    assert told(TurnedFault(ClusterName(False, 1), True, -1)) == "'First' would lie mirrored"


@pytest.fixture
def asked(monkeypatch):
    monkeypatch.setenv("PERTXOGAI_SKETCH", Program.find().path)


def test_the_range_of_a_value_without_a_unit_says_so(asked, tmp_path, capsys):
    path = tmp_path / "edge.drawing"
    path.write_text("segment Edge 0 0 60 0\nvalue Width 60\nlength Edge Width\n")
    assert main(["range", str(path)]) == 0
    assert "  Width: from 0.001 to 1000000 (no unit), now 60, " in capsys.readouterr().out


def test_a_dimension_with_a_name_goes_by_its_number_too(asked, tmp_path, capsys):
    path = tmp_path / "edge.drawing"
    path.write_text("segment Edge 0 0 60 0\nWidth: length Edge 60\n")
    for name in ("Width", "1", "constraint 1"):
        assert main(["range", str(path), name]) == 0
        assert "  Width: from 0.001 to 1000000 mm, now 60, " in capsys.readouterr().out


def test_ranges_are_told_in_lines_and_as_json(asked, tmp_path, capsys):
    path = tmp_path / "plate.drawing"
    path.write_text(PLATE)
    assert main(["range", str(path), "Bore", "8"]) == 0
    told = re.sub(r"(?<=sampled at )[1-9][0-9]*", "N", capsys.readouterr().out)
    assert told == (
        "plate: 2 ranges\n"
        "  Bore: from 0.001 to 60.002 mm, now 12, sampled at N values; by numbers no two shapes "
        "that are drawn apart and share no end come to cross, and none turns about, between them\n"
        "    below: no length is below 0.001 mm\n"
        "    above: Bottom and Hole cross, but are drawn apart\n"
        "  constraint 8 (x Hole.centre 45): from 5.999 to 114.001 mm, now 45, sampled at "
        "N values; by numbers no two shapes that are drawn apart and share no end come to cross, "
        "and none turns about, between them\n"
        "    below: Left and Hole cross, but are drawn apart\n"
        "    above: Right and Hole cross, but are drawn apart\n")
    assert main(["range", str(path), "Bore", "--json"]) == 0
    found = json.loads(capsys.readouterr().out)
    assert found["sketches"][0]["ranges"][0].pop("sampled") > 10
    assert found == {"sketches": [{"name": "plate", "ranges": [{
        "of": "Bore", "present": 12.0, "unit": "mm", "low": 0.001,
        "low_why": "no length is below 0.001 mm", "high": 60.002,
        "high_why": "Bottom and Hole cross, but are drawn apart", "clear_by_numbers": True}]}]}


def test_on_a_terminal_it_is_told_how_many_ranges_are_found(asked, tmp_path, capsys, monkeypatch):
    path = tmp_path / "edge.drawing"
    path.write_text("segment Edge 0 0 60 40\ncoincident Edge.start Origin\n"
                    "x Edge.end 60\ny Edge.end 40\n")
    assert main(["range", str(path)]) == 0
    assert capsys.readouterr().err == ""
    monkeypatch.setattr(sys.stderr, "isatty", lambda: True)
    assert main(["range", str(path)]) == 0
    assert capsys.readouterr().err == "0 of 2\r1 of 2\r2 of 2\r\033[K"


def test_what_has_no_range_is_told(asked, tmp_path, capsys):
    path = tmp_path / "plate.drawing"
    path.write_text(PLATE)
    assert main(["range", str(path), "Depth"]) == 2
    assert capsys.readouterr().err.startswith(
        "pertxogai: 'Depth' isn't a value or a dimension with a range: write one of Width, Height, ")
    plate = str(DRAWINGS / "plate-by-values.drawing")
    for name in ("Height", "7"):
        assert main(["range", plate, name]) == 2
        assert f"'{name}' has no range of its own: it follows from " in capsys.readouterr().err
    path.write_text(PLATE.replace("Width: length Bottom 120\n", ""))
    assert main(["range", str(path)]) == 1
    assert "plate: no ranges: the drawing isn't good: it is open" in capsys.readouterr().out
    sketch = TOP / "examples" / "plate.sketch"
    assert main(["range", str(sketch)]) == 2
    assert "a sketch of the language has no ranges" in capsys.readouterr().err


def test_without_numpy_the_package_is_imported_and_a_range_says_what_is_missing() -> None:
    text = ("import sys; sys.modules['numpy'] = None\n"
            "from pertxogai.ranging import NoRange, Range, Ranging\n"
            "assert 'pertxogai.ranging.way' not in sys.modules")
    done = subprocess.run([sys.executable, "-c", text], cwd=TOP / "python", capture_output=True,
                          text=True, check=False)
    assert (done.returncode, done.stderr) == (0, "")


def test_a_missing_library_is_named(program: Program, monkeypatch: pytest.MonkeyPatch) -> None:
    monkeypatch.setattr(search, "find_spec", lambda name: None if name == "numpy" else name)
    plate = read_drawing("rectangle P 0 0 9 9\nlength PBottom 9\nlength PRight 9\n")
    with pytest.raises(MissingLibrary, match="apt-get install python3-numpy"):
        Ranging.of(plate, program)
