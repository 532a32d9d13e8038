"""Chains of tolerances of which each printed digit was worked out by hand: where points meet, where
bars lie in one line, where nothing is left between two walls, where both deviations lie on one
side; chains of radii and of holes on a circle; values that are expressions; general tolerances."""
from __future__ import annotations

from fractions import Fraction
from math import atan, cos, degrees, radians, sin, sqrt

import pytest

from pertxogai.drawing import read_drawing
from pertxogai.fitting import Answer, CheckedFit, Fit, UnknownFit, fit
from pertxogai.fitting.offs import Offs
from pertxogai.fitting.placing import Placer
from pertxogai.fitting.toleranced import Toleranced
from pertxogai.judging.measure import Limit
from pertxogai.output.fit_text import fit_lines


def checks(text: str, program) -> list[CheckedFit]:
    """What comes of the checks of a drawing, all of which are known."""
    found = fit(read_drawing(text), program)
    assert isinstance(found, Fit), found
    assert len(found.known) == len(found.checks), found.checks
    return list(found.known)


def worst(found: CheckedFit) -> tuple[float, float]:
    """The worst case in millimetres or degrees, to the last printed digit."""
    return tuple(round(each / 1_000_000, 4) for each in (found.worst.least, found.worst.greatest))


def squares(found: CheckedFit) -> tuple[float, float]:
    """The root of the sum of squares, likewise."""
    by_squares = found.by_squares
    return tuple(round(each / 1_000_000, 4) for each in (by_squares.least, by_squares.greatest))


def rounded(*values: float) -> tuple[float, ...]:
    return tuple(round(each, 4) for each in values)


POSITION = """check Off distance P B.end .. 0.1803
point P 30 20
x P 30 +-0.1
y P 20 +-0.05
segment A 0 0 30 0
segment B A.end 30 20.5
coincident A.start Origin
horizontal A
vertical B
length A 30 +-0.05
length B 20 +-0.05
"""


def test_a_true_position_by_two_chains(program) -> None:
    # As all is given the two points are one. In x they come apart by 0.1 + 0.05, in y by
    # 0.05 + 0.05: by the root of 0.15^2 + 0.1^2 = 0.18028, and no case is further.
    (off,) = checks(POSITION, program)
    assert worst(off) == rounded(0, sqrt(0.15 ** 2 + 0.1 ** 2)) == (0, 0.1803)
    assert off.answer is Answer.FITS and len(off.turning_numbers) == 4
    (off,) = checks(POSITION.replace("0.1803", "0.18"), program)
    assert off.answer is Answer.BEYOND


UPRIGHT = """check Slider y Rod.end 179.7 .. 180.3
segment Crank 0 0 0.5 50
segment Rod Crank.end 0 180
coincident Crank.start Origin
on Rod.end YAxis
angle Crank +89.5deg +-2deg
length Crank 50 +-0.1
length Rod 130 +-0.1
"""
ASLANT = """check Slider distance Origin Rod.end 179.7 .. 180.3
construction segment Guide 0 0 173.2 100
segment Crank 0 0 43 25.4
segment Rod Crank.end 155.9 90
coincident Guide.start Origin
coincident Crank.start Origin
on Rod.end Guide
angle Guide Crank +0.5deg +-2deg
length Guide 200
angle Guide +30deg
length Crank 50 +-0.1
length Rod 130 +-0.1
"""


@pytest.mark.parametrize("text, number, is_between", [
    pytest.param(UPRIGHT, 3, False, id="upright"),
    # No angle of 0 can be asked for; on both sides of it the bars are placed.
    pytest.param(ASLANT, 4, True, id="aslant")])
def test_a_crank_that_comes_past_its_dead_point(text, number, is_between, program) -> None:
    # The slider stands at r cos d + root(l^2 - (r sin d)^2), d from where both bars lie in one
    # line: 2.5 degrees off at one end of the angle, 1.5 at the other, 0 between them.
    def slider(r: float, rod: float, d: float) -> float:
        return r * cos(radians(d)) + sqrt(rod ** 2 - (r * sin(radians(d))) ** 2)

    fits = fit(read_drawing(text), program)
    (found,) = fits.checks
    assert fits.answer is Answer.FITS and not fits.unplaced and bool(fits.between) == is_between
    assert worst(found) == rounded(slider(49.9, 129.9, 2.5), 180.2) == (179.7343, 180.2)
    assert found.turning_numbers == (number,) and found.answer is Answer.FITS


@pytest.mark.parametrize("side", [1, -1])
@pytest.mark.parametrize("first, last", [(-5, 5), (5, -5)])
def test_a_gap_that_may_close_whichever_way_the_wall_is_drawn(side, first, last, program) -> None:
    # 20 to 20.1 less 19.9 to 20: 0 to 0.2, on either side of the datum.
    (gap,) = checks(f"check Gap distance A.end Wall 0 .. 0.2\nsegment A 0 0 {19.5 * side} 0\n"
                    f"segment Wall {20 * side} {first} {20 * side} {last}\nvertical Wall\n"
                    "y Wall.start 5\nlength Wall 10\ncoincident A.start Origin\nhorizontal A\n"
                    "length A 20 +0-0.1\nx Wall.start 20 +0.1-0\n", program)
    assert worst(gap) == (0, 0.2) and gap.answer is Answer.FITS


def test_a_hole_and_a_shaft(program) -> None:
    # H7 and g6 of 20: 20 to 20.021 less 19.98 to 19.993, so 0.007 to 0.041. The middles are 20.0105
    # and 19.9865, 0.024 apart; half of the fields are 0.0105 and 0.0065.
    (clear,) = checks("check Clear x Shaft.end Hole.end 0.007 .. 0.041\nsegment Shaft 0 0 19.9 0\n"
                      "segment Hole Shaft.start 20 0\ncoincident Shaft.start Origin\n"
                      "horizontal Shaft Hole\nlength Shaft 20 -0.007-0.02\n"
                      "length Hole 20 +0.021-0\n", program)
    off = sqrt(0.0105 ** 2 + 0.0065 ** 2)
    assert worst(clear) == (0.007, 0.041) and clear.answer is Answer.FITS
    assert squares(clear) == rounded(0.024 - off, 0.024 + off) == (0.0117, 0.0363)


def test_a_turn_beyond_half_of_one(program) -> None:
    # 179.9 within 0.3 is 179.6 to 180.2, and doesn't leap to -179.8.
    (turn,) = checks("check Turn angle A B +179.5deg .. +180.5deg\nsegment A 0 0 40 0\n"
                     "segment B A.end 0 0.07\ncoincident A.start Origin\nhorizontal A\n"
                     "length A 40\nlength B 40\nangle A B +179.9deg +-0.3deg\n", program)
    assert worst(turn) == (179.6, 180.2) and turn.answer is Answer.FITS


@pytest.mark.parametrize("limits, ends", [("+179.5deg .. +180.5deg", (179.8, 180.4)),
                                          ("-180.5deg .. -179.5deg", (-180.2, -179.6))])
def test_a_turn_counts_whole_turns_by_its_limits(limits, ends, program) -> None:
    # 180.1 within 0.3; the same turn to the right is 179.9.
    (turn,) = checks(f"check Turn angle A B {limits}\nsegment A 0 0 40 0\n"
                     "segment B A.end 0 -0.07\ncoincident A.start Origin\nhorizontal A\n"
                     "length A 40\nlength B 40\nangle A B +180.1deg +-0.3deg\n", program)
    assert worst(turn) == ends and turn.answer is Answer.FITS


@pytest.mark.parametrize("tilt", [30, 37.123])
def test_limits_that_are_just_reached_in_a_slanted_frame(tilt, program) -> None:
    # 60 - 20 = 40 within 0.1, and the limits are 39.9 and 40.1.
    x, y = cos(radians(tilt)), sin(radians(tilt))
    (gap,) = checks("check Gap distance A.end B.end 39.9 .. 40.1\n"
                    f"segment A 0 0 {20 * x:.4f} {20 * y:.4f}\n"
                    f"segment B A.start {60 * x:.4f} {60 * y:.4f}\ncoincident A.start Origin\n"
                    f"angle A +{tilt}deg\nangle B +{tilt}deg\nlength A 20 +-0.1\nlength B 60\n",
                    program)
    assert worst(gap) == (39.9, 40.1) and gap.answer is Answer.FITS


@pytest.mark.parametrize("tilt", [20, 37.123, 61.5])
def test_limits_that_are_just_reached_by_an_angle_of_short_segments(tilt, program) -> None:
    # Segments of half a millimetre: a nanometre at an end turns them by a ten-thousandth of a
    # degree.
    x, y = cos(radians(tilt)), sin(radians(tilt))
    (turn,) = checks("check Turn angle A B +44.5deg .. +45.5deg\n"
                     f"segment A 0 0 {x / 2:.4f} {y / 2:.4f}\nsegment B A.end 0.2 1\n"
                     f"coincident A.start Origin\nangle A +{tilt}deg\nlength A 0.5\n"
                     "length B 0.5\nangle A B +45deg +-0.5deg\n", program)
    assert worst(turn) == pytest.approx((44.5, 45.5), abs=0.0002)
    assert turn.answer is Answer.FITS and turn.worst.is_one_way


def test_a_chain_of_radii(program) -> None:
    # Three circles in a row: 20 + 2 * 10 + 5 = 45, within 0.1 + 0.1 + 0.02; the middle one by its
    # diameter.
    (last,) = checks("check Last x Three.centre 44.8 .. 45.2\ncircle One 0 0 20\n"
                     "circle Two 30 0 10\ncircle Three 45 0 5\ncoincident One.centre Origin\n"
                     "on Two.centre XAxis\non Three.centre XAxis\ntangent One Two\n"
                     "tangent Two Three\nradius One 20 +-0.1\ndiameter Two 20 +-0.1\n"
                     "radius Three 5 +-0.02\n", program)
    off = sqrt(0.1 ** 2 + 0.1 ** 2 + 0.02 ** 2)
    assert worst(last) == (44.78, 45.22) and last.answer is Answer.BEYOND
    assert squares(last) == rounded(45 - off, 45 + off)
    # 0.2 is left for it and two of 0.02 and 0.1.
    assert last.tightened == 80


def test_holes_on_a_pitch_circle(program) -> None:
    # They are 2 R sin(a/2) apart: R 39.9 to 40.1, a 59.9 to 60.1.
    (chord,) = checks("check Chord distance One.centre Two.centre 39.8 .. 40.2\n"
                      "circle Pitch 0 0 40\ncoincident Pitch.centre Origin\n"
                      "radius Pitch 40 +-0.1\ncircle One 40 0 3\ncircle Two 20 34.64 3\n"
                      "radius One 3\nradius Two 3\non One.centre Pitch\non One.centre XAxis\n"
                      "segment Ray Origin Two.centre\non Two.centre Pitch\n"
                      "angle Ray 60deg +-0.1deg\n", program)

    def apart(radius: float, angle: float) -> float:
        return 2 * radius * sin(radians(angle / 2))

    assert worst(chord) == rounded(apart(39.9, 59.9), apart(40.1, 60.1)) == (39.8397, 40.1606)
    off = sqrt(0.1 ** 2 + ((apart(40, 60.1) - apart(40, 59.9)) / 2) ** 2)
    middle = 40 + (apart(40, 60.1) + apart(40, 59.9)) / 2 - 40
    assert squares(chord) == rounded(middle - off, middle + off)


def test_tolerances_of_expressions_and_of_a_ratio(program) -> None:
    # 60/2 + 60*2/3 = 70, 0.1 less or 0.1 + 0.2 more. The bar of 50 rises 3 in 4: 36.87 degrees.
    row, height = checks(
        "value Width 60\ncheck Row x B.end 69.9 .. 70.3\ncheck Height y S.end 29 .. 31\n"
        "segment A 0 0 30 0\nsegment B A.end 70 0\ncoincident A.start Origin\nhorizontal A B\n"
        "length A Width/2 +-0.1\nlength B Width*2/3 +0.2-0\nsegment S A.start 40 30\n"
        "length S 50\nangle S 3/4 +-0.2deg\n", program)
    assert worst(row) == (69.9, 70.3) and row.answer is Answer.FITS
    rise = degrees(atan(3 / 4))
    assert worst(height) == rounded(
        *(50 * sin(radians(rise + off)) for off in (-0.2, 0.2))) == (29.8602, 30.1394)


def test_a_general_tolerance_beside_own_ones(program) -> None:
    # ISO 2768-m: 0.2 for 20, 0.3 for 100; 5 has 0.01 of its own.
    (row,) = checks("tolerances ISO2768-m\ncheck Row x C.end 124.49 .. 125.51\n"
                    "segment A 0 0 20 0\nsegment B A.end 120 0\nsegment C B.end 125 0\n"
                    "coincident A.start Origin\nhorizontal A B C\nlength A 20\nlength B 100\n"
                    "length C 5 +-0.01\n", program)
    off = sqrt(0.2 ** 2 + 0.3 ** 2 + 0.01 ** 2)
    assert worst(row) == (124.49, 125.51) and row.answer is Answer.FITS
    assert squares(row) == rounded(125 - off, 125 + off)
    assert [each.dimension.is_general for each in row.shares] == [True, True, False]


def test_the_end_of_a_slot_is_no_rounded_edge(program) -> None:
    # Half a turn of radius 5 is a feature: 0.1 by ISO 2768-m, table 1. A quarter is the rounding of
    # an edge: 0.5 by table 2.
    slot = ("segment Lower 0 -5 30 -5\narc East 30 0 Lower.end 30 5\n"
            "segment Upper East.end 0 5\narc West 0 0 Upper.end Lower.start\n"
            "coincident West.centre Origin\nhorizontal Lower Upper\ntangent Lower East\n"
            "tangent East Upper\ntangent Upper West\ntangent West Lower\nlength Lower 30\n"
            "radius West 5\n")
    edge = ("segment H 0 0 20 0\narc F 20 5 H.end 25 5\nsegment V F.end 25 20\n"
            "coincident H.start Origin\nhorizontal H\nvertical V\ntangent H F\ntangent F V\n"
            "length H 20\nlength V 15\nradius F 5\n")
    (end,) = checks(f"tolerances ISO2768-m\ncheck End radius West 4.9 .. 5.1\n{slot}", program)
    (corner,) = checks(f"tolerances ISO2768-m\ncheck Edge radius F 4.5 .. 5.5\n{edge}", program)
    assert worst(end) == (4.9, 5.1) and worst(corner) == (4.5, 5.5)


def test_a_bar_that_tilts_counts_by_its_nearer_and_its_further_end(program) -> None:
    # Both ends stand 10 above the floor, each within 0.1 by itself: the nearer may come to 9.9, the
    # further to 10.1, though the other end stays at 10.
    (gap,) = checks("check Gap distance Floor Bar 9.9 .. 10.05\nsegment Floor 0 0 40 0\n"
                    "coincident Floor.start Origin\nhorizontal Floor\nlength Floor 40\n"
                    "segment Bar 5 10 35 10\nx Bar.start 5\nx Bar.end 35\ny Bar.start 10 +-0.1\n"
                    "y Bar.end 10 +-0.1\n", program)
    assert worst(gap) == (9.9, 10.1)
    assert gap.answer is Answer.BEYOND and gap.by_squares is None


def test_a_check_that_turns_only_where_two_angles_are_off_together(program) -> None:
    # An arm of 1000 at 30 + 59 = 89 degrees. Each angle alone leaves it below 90; together they
    # take it to 90.4, and on the way it stands upright.
    (high,) = checks("check High y Arm.end .. 999.99\nsegment First 0 0 86.6 50\n"
                     "coincident First.start Origin\nlength First 100\n"
                     "angle First +30deg +-0.5deg\nsegment Arm First.start 17 1000\n"
                     "length Arm 1000\nangle First Arm +59deg +-0.9deg\n", program)
    assert worst(high) == rounded(1000 * sin(radians(87.6)), 1000)
    assert high.answer is Answer.BEYOND and high.worst.turning


def test_what_is_worst_where_one_dimension_alone_is_off_is_told(program) -> None:
    # A crank of 100 at 1 - 1.5 = -0.5 degrees and a rod of 50. With one angle half a degree more it
    # lies level, which is its furthest; with both at their turn it is beyond that.
    (reach,) = checks("check Reach x Rod.end .. 149.999\nsegment Base 0 0 100 1.75\n"
                      "coincident Base.start Origin\nlength Base 100\n"
                      "angle Base +1deg +-0.6deg\nsegment Crank Base.start 100 -0.87\n"
                      "length Crank 100\nangle Base Crank -1.5deg +-0.6deg\n"
                      "segment Rod Crank.end 150 0\non Rod.end XAxis\nlength Rod 50\n", program)
    assert worst(reach)[1] == 150 and reach.answer is Answer.BEYOND


def test_more_of_a_coordinate_of_nothing_is_to_the_drawn_side(program) -> None:
    (gap,) = checks("check Gap x P 0 .. 0.3\npoint P -5 10\nx P 0 +0.2-0\ny P 10\n", program)
    assert worst(gap) == (0, 0.2) and gap.answer is Answer.FITS


def test_a_dead_point_that_only_two_angles_together_reach(program) -> None:
    # The slider stands 1800 high where crank and rod lie in one line, at 90 degrees. Each angle
    # alone leaves the crank short of 90, 89.4 or 89.6; together they take it to 90.3, where the
    # slider is at 1799.9905. At 90, within both tolerances, it is 0.005 beyond the limit.
    found = fit(read_drawing(
        "check Slider y Rod.end .. 1799.995\nsegment Arm 0 0 433 250\n"
        "coincident Arm.start Origin\nlength Arm 500\nangle Arm +30deg +-0.7deg\n"
        "segment Crank Arm.start 11.3 499.9\nlength Crank 500\n"
        "angle Arm Crank +58.7deg +-0.9deg\nsegment Rod Crank.end 0 1799.8\n"
        "on Rod.end YAxis\nlength Rod 1300\n"), program)
    (slider,) = found.checks
    assert worst(slider)[1] == 1800 and slider.answer is Answer.BEYOND
    assert slider.worst.turning


def test_fifty_dimensions_and_five_checks_take_few_placements(program) -> None:
    # A row of fifty blocks of 10, within 0.01 to 0.09 each: behind ten, twenty and so on their
    # tolerances add up. Each is placed at both ends, and the corners besides.
    offs = [1 + number % 9 for number in range(50)]
    blocks = "".join(
        f"segment B{number} {f'B{number - 1}.end' if number else '0 0'} {10 * number + 10} 0\n"
        f"horizontal B{number}\nlength B{number} 10 +-0.0{off}\n"
        for number, off in enumerate(offs))
    text = "".join(f"check Row{count} x B{count - 1}.end 0 .. 1000\n"
                   for count in (10, 20, 30, 40, 50))
    found = fit(read_drawing(f"{text}{blocks}coincident B0.start Origin\n"), program)
    assert [worst(each) for each in found.checks] == [
        rounded(10 * count - sum(offs[:count]) / 100, 10 * count + sum(offs[:count]) / 100)
        for count in (10, 20, 30, 40, 50)]
    assert found.placements <= 150


# -- what isn't sure, and what isn't known

def test_what_cannot_be_placed_between_the_ends_is_not_known_to_fit(program) -> None:
    # The pin of the crank stands 99.81 to 100 above the axis, and at 90 degrees the rod of 99.998
    # is too short; at both ends, 86.5 and 90.5, it reaches.
    found = fit(read_drawing(
        "check Pin y Crank.end .. 101\nsegment Crank 0 0 2.6 99.97\n"
        "coincident Crank.start Origin\nlength Crank 100\nangle Crank +88.5deg +-2deg\n"
        "segment Rod Crank.end 5.16 0\non Rod.end XAxis\nlength Rod 99.998\n"), program)
    (pin,) = found.checks
    assert pin.answer is Answer.UNSURE and found.answer is Answer.UNSURE
    assert "can't be placed" in found.unplaced[0] and not found.between


def test_what_can_be_placed_on_one_side_only_is_no_case_between_two(program) -> None:
    # Up to a base of 100.02 the triangle closes. 0.0205 more it doesn't, a thousandth of the
    # tolerance less it does, and as much more it doesn't.
    drawing = read_drawing("check Top y B.end 0 .. 2\n" + TRIANGLE)
    placer = Placer(drawing, program, Limit())
    placer.begin((Toleranced(3, Fraction(500), Fraction(500), False, False),), ())
    assert placer.around(Offs([Fraction("20.5")]), 0) == [Offs([Fraction("19.5")])]
    assert placer.unplaced and not placer.between



def test_two_points_that_may_come_past_each_other_are_not_sure_to_stay_apart(program) -> None:
    # P lies 0.09 before Q and may move by 0.1: past it, to 0.01 behind, and so on it, where neither
    # end of the tolerance lies.
    text = ("check Apart distance P Q 0.005 ..\npoint P 20 0\npoint Q 20.09 0\non P XAxis\n"
            "on Q XAxis\nx P 20 +-0.1\nx Q 20.09\n")
    (apart,) = checks(text, program)
    assert worst(apart) == (0.01, 0.19)
    assert apart.answer is Answer.UNSURE and apart.reckoned.least == 0
    assert fit(read_drawing(text), program).answer is Answer.UNSURE


TRIANGLE = ("segment A 0 0 100 0\nsegment B A.end 50 1\nsegment C B.end A.start\n"
            "coincident A.start Origin\nhorizontal A\nlength A 100 +-0.5\nlength B 50.01\n"
            "length C 50.01\n")


def test_what_has_no_places_is_told_and_what_does_not_hang_on_it_too(program) -> None:
    # Three lengths that close only just: a tenth more, and there is no such triangle. The bar
    # doesn't hang on it.
    found = fit(read_drawing("check Top y B.end 0 .. 2\ncheck Bar length D 9.9 .. 10.1\n"
                             + TRIANGLE + "segment D 0 -20 10 -20\nhorizontal D\n"
                             "x D.start 5\ny D.start -20\nlength D 10 +-0.1\n"), program)
    top, bar = found.checks
    assert isinstance(top, UnknownFit) and "length A 100 +-0.5" in top.why
    assert worst(bar) == (9.9, 10.1) and bar.answer is Answer.FITS
    assert found.answer is Answer.UNSURE and "length A 100 +-0.5" in found.unplaced[0]
    assert ("  some parts within tolerance can't be placed: with constraint 3 (length A 100 +-0.5) "
            "off by 0.5 mm: it can't be placed as drawn" in fit_lines("triangle", found))


# -- more than one way to count

LINKS = """segment Floor 0 0 40 0
coincident Floor.start Origin
horizontal Floor
length Floor 40
segment L1 35 30 35 24
segment L2 L1.end 35 18
segment L3 L2.end 35 12
vertical L1 L2 L3
x L1.start 35
y L1.start 30
length L1 6 +-0.1
length L2 6 +-0.1
length L3 6 +-0.1
segment Bar 5 10 L3.end
x Bar.start 5
y Bar.start 10
"""


@pytest.mark.parametrize("high, answer", [("12.3", Answer.FITS), ("12.2", Answer.BEYOND)])
def test_each_end_of_a_bar_that_tilts_has_a_worst_case_of_its_own(high, answer, program) -> None:
    # The near end stands 10 high. The further one hangs from 30 by three links of 6 within 0.1:
    # 12, and 12.3 where all are short.
    (gap,) = checks(f"check Gap distance Floor Bar .. {high}\n{LINKS}", program)
    assert worst(gap) == (10, 12.3) and gap.answer is answer
    assert [round(each.per_unit, 4) for each in gap.shares] == [-1, -1, -1]
    assert gap.worst.is_one_way and gap.by_squares is None


def test_what_a_bar_that_tilts_is_tightened_to_holds_at_both_ends(program) -> None:
    # Two links of 6.1 leave 0.1 of the 0.3: with the third at 6 within 0.05 it is 12.25.
    (gap,) = checks(f"check Gap distance Floor Bar .. 12.25\n{LINKS}", program)
    assert gap.answer is Answer.BEYOND and gap.tightened == 50


@pytest.mark.parametrize("end, turned", [("70 60", (142.6301, 143.1301)),
                                         ("70 -60", (-143.1301, -142.6301))])
def test_more_of_a_ratio_drawn_backward_is_more_of_the_acute_angle(end, turned, program) -> None:
    # 3 in 4 is 36.8699 degrees, half a degree more 37.3699; the turn is what is left to 180.
    (turn,) = checks("check Turn angle A B -180deg .. +180deg\nsegment A 0 0 100 0\n"
                     f"segment B 150 0 {end}\ncoincident A.start Origin\nhorizontal A\n"
                     "length A 100\nlength B 100\nx B.start 150\non B.start A\n"
                     "angle A B 3/4 +0.5-0deg\n", program)
    assert worst(turn) == turned


TWO_AT_30 = """segment A 0 0 86.6 50
segment B {} {}
coincident A.start Origin
length A 100
length B 100
angle A +30deg {}
angle B +30deg {}
"""


@pytest.mark.parametrize("limits, first, second, answer", [
    (".. 0.5deg", "+1-0deg", "", Answer.BEYOND), (".. 0.5deg", "+0-1deg", "", Answer.BEYOND),
    (".. 1deg", "+1-0deg", "", Answer.FITS), ("0deg .. 1deg", "+0-1deg", "", Answer.FITS),
    ("0deg .. 1deg", "+-0.5deg", "+-0.5deg", Answer.FITS),
    (".. 0.9deg", "+-0.5deg", "+-0.5deg", Answer.BEYOND),
    ("-1deg .. 0deg", "+1-0deg", "", Answer.FITS), ("0deg .. +1deg", "+1-0deg", "", Answer.BEYOND)])
def test_two_bars_that_are_parallel_may_turn_either_way(limits, first, second, answer,
                                                        program) -> None:
    # Both lie at 30 degrees. On paper the angle between them is 0 to 1, whichever of them turns;
    # with a sign it is how much B turns to the left of A.
    text = TWO_AT_30.format("0 20", "86.6 70", first, second)
    (tilt,) = checks(f"check Tilt angle A B {limits}\n{text}x B.start 0\ny B.start 20\n", program)
    assert tilt.answer is answer


@pytest.mark.parametrize("low, off, answer", [
    ("179deg", "+0-2deg", Answer.BEYOND), ("179deg", "+2-0deg", Answer.BEYOND),
    ("178deg", "+-2deg", Answer.FITS), ("178deg", "+0-2deg", Answer.FITS)])
def test_a_straight_corner_may_bend_either_way(low, off, answer, program) -> None:
    # It is 180 degrees; 2 to either side it is 178, from one side or from the other.
    for limits in (f"{low} ..", f"{low} .. 180deg"):
        text = TWO_AT_30.format("A.end", "173.2 99", "", off)
        (corner,) = checks(f"check Corner angle A B {limits}\n{text}", program)
        assert corner.answer is answer


def test_of_many_dimensions_those_are_tried_that_turn_at_a_corner(program) -> None:
    # An arm of 1000 at 30 + 58 degrees within 1.1 each, and 22 links of 1 on top within 0.001. Each
    # angle alone leaves the arm below 90 degrees; together they take it to 90.2, and on the way it
    # stands upright: 1000 + 22 + 0.022.
    links = "".join(f"segment T{at} {f'T{at - 1}' if at else 'Arm'}.end 34.9 {1000.4 + at:g}\n"
                    f"vertical T{at}\nlength T{at} 1 +-0.001\n" for at in range(22))
    (high,) = checks("check High y T21.end .. 1022.0219\nsegment First 0 0 86.6 50\n"
                     "coincident First.start Origin\nlength First 100\n"
                     "angle First +30deg +-1.1deg\nsegment Arm First.start 34.9 999.4\n"
                     f"length Arm 1000\nangle First Arm +58deg +-1.1deg\n{links}", program)
    assert worst(high) == rounded(1000 * sin(radians(85.8)) + 21.978, 1022.022)
    assert high.answer is Answer.BEYOND and high.worst.turning


def test_what_is_not_tied_to_the_axes_is_not_measured_from_them(program) -> None:
    # A bar of 40 that may lie anywhere, and one that is level at a given height.
    free = "segment A 3 5 43 5\nlength A 40 +-0.1\n"
    found = fit(read_drawing(f"check X x A.end 42 .. 44\ncheck Run x A.start A.end 39 .. 41\n"
                             f"check Long length A 39 .. 41\n{free}"), program)
    aside, run, long = found.checks
    assert isinstance(aside, UnknownFit) and "moved and turned (by rank)" in aside.why
    assert isinstance(run, UnknownFit) and found.answer is Answer.UNSURE
    assert worst(long) == (39.9, 40.1) and long.answer is Answer.FITS
    found = fit(read_drawing(f"check X x A.end 42 .. 44\ncheck Run x A.start A.end 39 .. 41\n"
                             f"check Height y A.end 4.8 .. 5.2\n{free}horizontal A\n"
                             "y A.start 5 +-0.1\n"), program)
    aside, run, height = found.checks
    assert isinstance(aside, UnknownFit) and "moved along x (by rank)" in aside.why
    assert worst(run) == (39.9, 40.1) and worst(height) == (4.9, 5.1)


def test_of_what_cannot_be_counted_that_alone_is_tied_of_which_it_is_said(program,
                                                                          monkeypatch) -> None:
    # As of a truss of 320 points, held by lengths alone, whose freedoms take too long to count: the
    # bar lies level at a height that is told, and anywhere along x.
    monkeypatch.setattr("pertxogai.judging.judgement.freedoms", lambda drawing: None)
    free = "segment A 3 5 43 5\nlength A 40 +-0.1\n"
    (aside,) = fit(read_drawing(f"check X x A.end 42 .. 44\n{free}"), program).checks
    assert isinstance(aside, UnknownFit) and "its freedoms can't be counted" in aside.why
    aside, run, height = fit(read_drawing(
        f"check X x A.end 42 .. 44\ncheck Run x A.start A.end 39 .. 41\n"
        f"check Height y A.end 4.8 .. 5.2\n{free}horizontal A\ny A.start 5 +-0.1\n"),
        program).checks
    assert isinstance(aside, UnknownFit) and "its freedoms can't be counted" in aside.why
    assert worst(run) == (39.9, 40.1) and worst(height) == (4.9, 5.1)


def test_a_value_that_is_read_off_what_is_placed_is_read_off_each_case(program) -> None:
    # The middle of a bar: half of 32.342 to 32.458 from its end. The program is told the half as it
    # comes out where the bar is placed.
    (half,) = checks("check Half distance P S.start 16.171 .. 16.229\n"
                     "segment S -0.15 -0.88 1.3 31.77\npoint P 0.53 14.95\nmidpoint P S\n"
                     "length S 32.4 +-0.058\n", program)
    assert worst(half) == (16.171, 16.229) and half.answer is Answer.FITS


@pytest.mark.parametrize("off, told", [("0.1", 0.4226), ("0.01", 0.423)])
def test_a_sensitivity_has_the_digits_that_whole_nanometres_leave(off, told, program) -> None:
    # sin 25 is 0.42262. Over 0.2 mm a change is known to 2 nm in 200,000, over 0.02 to 2 in 20,000.
    (high,) = checks("check High y A.end 20 .. 22\nsegment A 0 0 45.3 21.1\n"
                     "coincident A.start Origin\nangle A +25deg\n"
                     f"length A 50 +-{off}\n", program)
    assert high.shares[0].per_unit == told


def test_what_may_slide_along_an_axis_has_a_distance_from_it(program) -> None:
    # The bar is level and 5 high within 0.1, wherever along x it lies.
    bar = "segment A 3 5 43 5\nhorizontal A\nlength A 40\ny A.start 5 +-0.1\n"
    found = fit(read_drawing("check High distance A.end XAxis 4.9 .. 5.1\n"
                             "check Level distance XAxis A 4.9 .. 5.1\n"
                             f"check Aside distance A.end YAxis 40 .. 50\n{bar}"), program)
    high, level, aside = found.checks
    assert worst(high) == worst(level) == (4.9, 5.1) and high.answer is Answer.FITS
    assert isinstance(aside, UnknownFit) and "moved along x (by rank)" in aside.why


def test_a_circle_that_would_have_no_radius_is_not_placed(program) -> None:
    # A disc of 5, and a circle that touches it from outside, its centre 5.05 away: of a radius of
    # 0.05. Within 0.03 it has 0.02 to 0.08; 0.1 nearer there is none.
    text = ("check Size radius Z ..\ncircle K 0 0 5\ncoincident K.centre Origin\nradius K 5\n"
            "circle Z 5.05 0 0.05\ntangent Z K\non Z.centre XAxis\n"
            "distance Z.centre Origin 5.05 +-{}\n")
    (size,) = checks(text.format("0.03"), program)
    assert worst(size) == (0.02, 0.08)
    found = fit(read_drawing(text.format("0.1")), program)
    assert isinstance(found.checks[0], UnknownFit) and found.unplaced
    assert found.answer is Answer.UNSURE


@pytest.mark.parametrize("angle, drawn, end, side", [("100deg", "149.2 8.7", "140 0", -1),
                                                     ("+80deg", "141.2 28.3", "125 0", 1)])
def test_a_bar_that_is_drawn_far_off_its_angle_stays_on_its_side(angle, drawn, end, side,
                                                                 program) -> None:
    # A bar of 50 that stands at 80 degrees, within 1, and a rod of 120 from its end to the axis, on
    # the left or on the right. The first bar is drawn 70 degrees off; the second 45.5, and so less
    # than half a right angle off 79 degrees, and more off 80 and 81.
    def slider(turn: float) -> float:
        x, y = 100 + 50 * cos(radians(turn)), 50 * sin(radians(turn))
        return x + side * sqrt(120 ** 2 - y ** 2)

    (found,) = checks("check End x C.end -10 .. +300\nsegment A 0 0 100 0\n"
                      f"segment B A.end {drawn}\nsegment C B.end {end}\n"
                      "coincident A.start Origin\nhorizontal A\nlength A 100\nlength B 50\n"
                      f"angle A B {angle} +-1deg\nlength C 120\non C.end XAxis\n", program)
    assert worst(found) == rounded(*sorted((slider(79), slider(81))))
    assert found.worst.is_one_way and found.nominal == pytest.approx(slider(80) * 1e6, abs=2)


def test_what_moves_nothing_by_itself_is_worst_at_the_end_that_others_make_so(program) -> None:
    # A hook, 20 up, 100 along and 100 down, on which a row of 120 lies. The first bar moves x only
    # where it leans: by -20 sin t, and the hook's arm by 100 sin t. So it is shortest in the worst
    # case to both sides, and no single dimension says so.
    row = "".join(f"segment R{n} {'R' + str(n - 1) if n else 'C'}.end {120 + 20 * n} -80\n"
                  f"horizontal R{n}\nlength R{n} 20 +-0.1\n" for n in range(6))
    (aside,) = checks("check Aside x R5.end ..\nsegment A 0 0 0 20\nsegment B A.end 100 20\n"
                      "segment C B.end 100 -80\ncoincident A.start Origin\nlength A 20 +-0.3\n"
                      "angle A +90deg +-0.5deg\nlength B 100\nangle A B -90deg\nlength C 100\n"
                      f"angle B C -90deg\n{row}", program)
    lean = radians(0.5)
    arm, along = (100 - 19.7) * sin(lean), 100 * cos(lean)
    assert worst(aside) == rounded(along - arm + 119.4, along + arm + 120.6)
    assert aside.turning_numbers == (2,)


STUB = ("segment S 0 0 {} 0\ncoincident S.start Origin\non S.end XAxis\nx S.end {}\npoint P 5 5\n"
        "x P 5\ny P 5\nsegment T 0 0 5 5\ncoincident T.start Origin\ncoincident T.end P\n")
"""A stub along x from the origin, and a bar that rises at 45 degrees to a point 5 above."""


@pytest.mark.parametrize("check, least, greatest", [
    ("D distance P S", 5, 5), ("D distance S T", 0, 5), ("D angle S T", 45, 45)])
def test_from_a_segment_that_may_have_no_length_nothing_is_measured(check, least, greatest,
                                                                    program) -> None:
    # It is 0.1 long within 0.1, and may end where it begins; wherever it has a direction, that is
    # the x axis.
    found = fit(read_drawing(f"check {check} ..\n{STUB.format(0.1, '0.1 +-0.1')}"), program)
    (there,), (why,) = found.known, found.unplaced
    assert worst(there) == (least, greatest) and found.answer is Answer.UNSURE
    assert "S, from which D is measured, has no length" in why
    (there,) = fit(read_drawing(f"check {check} ..\n{STUB.format(0.1, '0')}"), program).checks
    assert isinstance(there, UnknownFit)
    assert there.why == "S, from which D is measured, has no length"


@pytest.mark.parametrize("length, angle, least", [
    (100, "+80deg +-30deg", 50), (100, "+70deg +-60deg", 10), (1000, "+80.07deg +-10deg", 70.07),
    (1000, "+61.8deg +-30deg", 31.8)])
def test_a_crank_that_turns_far_is_highest_where_it_stands_upright(length, angle, least,
                                                                   program) -> None:
    # At 90 degrees it is as high as it is long. Of a parabola through its heights at 50, 80 and 110
    # degrees the top is at 89.87, at 10, 70 and 130 at 88.91; at 70.07, 80.07 and 90.07, and at
    # 31.8, 61.8 and 91.8, it has none.
    x, y = (length * of(radians(float(angle.split("deg")[0]))) for of in (cos, sin))
    (high,) = checks(f"check High y C.end .. {length - 0.0002}\nsegment C 0 0 {x:.2f} {y:.2f}\n"
                     f"coincident C.start Origin\nlength C {length}\nangle C {angle}\n", program)
    assert worst(high) == rounded(length * sin(radians(least)), length)
    assert high.answer is Answer.BEYOND and high.worst.turning


def test_two_angles_that_turn_far_are_highest_where_the_arm_stands_upright(program) -> None:
    # An arm of 1000 at 30 + 45 degrees within 8 each: at 75 within 16, and so at 90; by one of them
    # alone it comes to 83. It is lowest at 59.
    (high,) = checks("check High y Arm.end .. 999.9998\nsegment First 0 0 86.6 50\n"
                     "coincident First.start Origin\nlength First 100\nangle First +30deg +-8deg\n"
                     "segment Arm First.start 258.82 965.93\nlength Arm 1000\n"
                     "angle First Arm +45deg +-8deg\n", program)
    assert worst(high) == rounded(1000 * sin(radians(59)), 1000)
    assert high.answer is Answer.BEYOND and high.worst.turning


@pytest.mark.parametrize(("side", "off"), [(10, 1), (50, 1 / 2), (120, 1 / 3), (400, 1 / 6)])
def test_a_side_as_long_as_a_row_goes_has_the_tolerance_of_that_row(side, off, program) -> None:
    # Table 3 has 20 minutes over 50 up to 120 mm. The placed ends are rounded to nanometres, so
    # that a side of 120 mm may come out longer by a part of one.
    (angle,) = checks("tolerances ISO2768-m\ncheck Angle angle P Q ..\n"
                      f"segment P 0 0 {side + 7} 0\nsegment Q P.start {side * 0.5} {side * 0.866}\n"
                      f"coincident P.start Origin\nhorizontal P\nlength P {side + 7}\n"
                      f"length Q {side}\nangle P Q 60deg\n", program)
    assert worst(angle) == rounded(60 - off, 60 + off)
