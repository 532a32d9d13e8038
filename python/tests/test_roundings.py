"""What the rounding of values moves: how far, and that it is called no contradiction."""
from __future__ import annotations

import pytest

from pertxogai.drawing import read_drawing
from pertxogai.judging import judge
from pertxogai.judging.measure import Unit
from pertxogai.judging.measure.deviation import Deviation
from pertxogai.judging.measure.limit import Limit
from pertxogai.judging.roundings import (
    Off, most_by_rounding, moved_by_rounding, rounded_lines)
from pertxogai.judging.surplus import Surplus
from pertxogai.language import Angle, Distance
from pertxogai.language.numbers import ratios_beside
from pertxogai.program import Program
from pertxogai.spelling import Spelled, Style, spell

LEANING = ("segment S -100 0 -65 999\nsegment A 0 0 698 19988\non S.start XAxis\nx S.start -100\n"
           "length S 1000\nAngle: angle S 88deg\ncoincident A.start Origin\nSame: parallel S A\n"
           "Long: length A 20000\nAcross: x A.end {}\n")
TRIANGLE = ("point A 0 0\npoint B 4 0\npoint C 4 3\n"
            "distance A B {}\ndistance A C {}\ndistance B C 3\n")


def spelled_of(ab_mm: str, ac_mm: str) -> Spelled:
    return spell(read_drawing(TRIANGLE.format(ab_mm, ac_mm)), Style.VALUES)


def deviation(amount: int, unit: Unit = Unit.NM) -> Deviation:
    drawing = read_drawing(TRIANGLE.format(4, 5))
    return Deviation(3, drawing.constraints[2], amount, unit)


def hanging_on(*factors: int) -> Off:
    """What is off by 1,400 nm where the lengths of a sketch are 4000 mm and 5000 mm, a thousand
    times the drawing's, and by so many more for each micrometre that each of them is longer."""
    def off(spelled: Spelled) -> Deviation:
        lines = spelled.sketch.constraints
        lengths = [line.length_um for line in lines if isinstance(line, Distance)]
        longer = (lengths[0] - 4_000_000, lengths[1] - 5_000_000)
        return deviation(abs(1400 + sum(a * b for a, b in zip(factors, longer))))
    return off


@pytest.mark.parametrize("factors, moved", [((30, 0), 30), ((-30, 0), 30), ((30, 9), 30),
                                            # From 1400 to -600, of which the size is told.
                                            ((-2000, 0), 2000)])
def test_a_rounded_value_moves_it_by_as_much_as_a_unit_of_it(factors, moved):
    # Of 4.0000004 mm 0.4 nm are lost, the thousandth of a micrometre of the sketch; 5 is told.
    spelled = spelled_of("4.0000004", "5")
    assert [each.number for each in spelled.rounded] == [1]
    assert moved_by_rounding(spelled, [1], deviation(1400), hanging_on(*factors)) == moved


def test_what_several_rounded_values_move_adds_up():
    spelled = spelled_of("4.0000004", "5.0000004")
    assert rounded_lines(spelled) == [1, 2]
    assert moved_by_rounding(spelled, [1, 2], deviation(1400), hanging_on(30, -9)) == 39


def test_an_angle_that_is_no_ratio_is_told_by_those_beside_it():
    # 20 degrees, told from the upright axis by 9803/3568. Of the fractions with no number over
    # 10,000 those beside it are 9531/3469 and 272/99: 3469 * 9803 - 9531 * 3568 is -1, and
    # 99 * 9803 - 272 * 3568 is 1.
    spelled = spell(read_drawing("segment A 0 0 10 0\ncoincident A.start Origin\non A.end XAxis\n"
                                 "segment B A.start 9 3\nangle A B 20deg\nlength A 10\n"
                                 "length B 9\n"), Style.VALUES)
    told: list[tuple[int, int]] = []

    def measured(there: Spelled) -> Deviation:
        line = there.sketch.constraints[spelled.near[0] - 1]
        assert isinstance(line, Angle)
        told.append((abs(line.p), line.q))
        return deviation(1410)

    assert len(spelled.near) == 1 and not spelled.rounded
    assert moved_by_rounding(spelled, spelled.near, deviation(1400), measured) == 10
    assert set(told) == {(9531, 3469), (272, 99)}


@pytest.mark.parametrize("ratio, beside", [
    # 1/3 by fractions of denominators up to 10,000: 3333/10000 below, 3333/9998 above.
    ((1, 3), [(3333, 10_000), (3333, 9998)]), ((-1, 3), [(-3333, 10_000), (-3333, 9998)]),
    ((3, 1), [(10_000, 3333), (9998, 3333)]), ((2, 6), [(3333, 10_000), (3333, 9998)]),
    ((1, 10_000), [(1, 9999)]), ((1, 0), [])])
def test_the_ratios_beside_one_are_the_nearest_on_either_side(ratio, beside):
    assert list(ratios_beside(*ratio)) == beside


def test_without_a_rounded_value_nothing_moves():
    spelled = spelled_of("4", "5")
    assert rounded_lines(spelled) == []
    assert moved_by_rounding(spelled, [], deviation(1400), hanging_on(30, 9)) == 0


def test_where_no_place_is_found_on_one_side_it_is_known_of_none():
    spelled = spelled_of("4.0000004", "5")

    def measured(there: Spelled) -> Deviation | None:
        line = there.sketch.constraints[0]
        assert isinstance(line, Distance)
        return deviation(9_000) if line.length_um > 4_000_000 else None

    assert moved_by_rounding(spelled, [1], deviation(1400), measured) == 0
    assert moved_by_rounding(spelled, [1], deviation(1400), lambda _: None) == 0


def test_of_too_many_values_it_is_not_known():
    spelled = spelled_of("4.0000004", "5")
    lines = [1] * 17
    assert moved_by_rounding(spelled, lines, deviation(1400), hanging_on(30, 9)) == 0
    assert moved_by_rounding(spelled, lines[1:], deviation(1400), hanging_on(30, 9)) == 480


def test_what_is_off_by_more_than_a_thousandth_of_the_drawing_is_no_rounding():
    # 4 mm is the greatest coordinate.
    drawing = read_drawing(TRIANGLE.format(4, 5))
    assert most_by_rounding(drawing, deviation(9)) == 4_000
    assert most_by_rounding(drawing, deviation(9, Unit.PPB)) == 1_000_000


@pytest.mark.parametrize("amount, rounding, repeats, may_be_rounding", [
    (900, 0, True, False), (1000, 0, True, False), (1001, 0, False, False),
    (1400, 399, False, False), (1400, 400, None, True), (1400, 9000, None, True),
    # Within the limit, and as far as 1,000, 1,001 and more.
    (900, 100, True, False), (900, 101, None, True), (0, 9000, None, True)])
def test_what_rounding_moves_past_the_limit_is_neither_a_repeat_nor_a_contradiction(
        amount, rounding, repeats, may_be_rounding):
    surplus = Surplus(3, "it", deviation(amount), limit=Limit(1000), rounding=rounding)
    assert (surplus.repeats(), surplus.may_be_rounding()) == (repeats, may_be_rounding)


def test_what_hangs_on_an_angle_that_is_no_ratio_is_measured_finely(program: Program) -> None:
    """20,000 times the cosine of 88 degrees is 697.98993405. The angle is told by 315/11, of which
    the cosine is 11 over the root of 99,346; that is 0.000000134 less, so 2.68 um less across."""
    judged = judge(read_drawing(LEANING.format("697.989934")), program)
    found = {each.name: each for each in judged.surplus}
    across = found["Across"]
    assert across.off is not None and across.off.amount <= 20 and across.repeats() is True
    assert found["Angle"].repeats() is found["Same"].repeats() is True


def test_what_a_length_moves_past_the_limit_is_rounded(program: Program) -> None:
    """The sketch is ten times as large, and 697.9899340 mm is told by 697.9899. By 34 nm less
    across the edge is 34 over the cosine of 88 degrees shorter, 974 nm; 100 nm move it by 2,865."""
    judged = judge(read_drawing(LEANING.format("697.989934")), program)
    long, = [each for each in judged.surplus if each.name == "Long"]
    assert long.off is not None and abs(long.off.amount - 974) < 20
    assert abs(long.rounding - 2865) < 20
    assert long.may_be_rounding() and long.repeats() is None


def test_what_a_near_ratio_hides_contradicts(program: Program) -> None:
    """20,000 times the cosine that 315/11 has is 697.987248, by which all would hold: across it is
    2.684 um less than the exact angle gives. The edge is off by 76.9 um then, and the angle by
    134 nm at the end of its metre."""
    judged = judge(read_drawing(LEANING.format("697.98725")), program, limit=Limit(100))
    found = {each.name: each for each in judged.surplus}
    for name, nm in (("Across", 2684), ("Long", 76_907), ("Angle", 134)):
        off = found[name].off
        assert off is not None and abs(off.amount - nm) <= 20, name
        assert found[name].repeats() is False


def test_what_is_off_by_more_than_rounding_contradicts(program: Program) -> None:
    """It is 0.110066 mm more than follows."""
    judged = judge(read_drawing(LEANING.format("698.1")), program)
    across, = [each for each in judged.surplus if each.name == "Across"]
    assert across.off is not None and abs(across.off.amount - 110_066) < 3_000
    assert across.repeats() is False and not across.may_be_rounding()


def test_an_edge_that_takes_no_part_hides_no_contradiction(program: Program) -> None:
    """The edge of 20 mm ends 5 mm beside where it is told; the other one is told by 1/0, which has
    no ratio beside it."""
    judged = judge(read_drawing(
        "segment A 0 0 20 0\ncoincident A.start Origin\non A.end XAxis\nLong: length A 20\n"
        "segment B 0 0 10 0.00001\ncoincident B.start Origin\nangle A B 0.0001deg\nlength B 10\n"
        "Across: x A.end 25\n"), program)
    found = {each.name: each for each in judged.surplus}
    assert found["Across"].repeats() is found["Long"].repeats() is False


@pytest.mark.parametrize("value, repeats", [("697.989934", True), ("698.02", False)])
@pytest.mark.parametrize("is_before", [False, True])
def test_angles_that_take_no_part_change_nothing(
        program: Program, value: str, repeats: bool, is_before: bool) -> None:
    """Twenty edges from the origin beside it: 0.030 mm too much contradicts, and what follows
    repeats."""
    loose = "".join(f"segment B{i} Origin {10 * i} 5\nlength B{i} {10 * i + 10}\n"
                    f"angle XAxis B{i} {2 * i + 3}deg\n" for i in range(1, 21))
    text = LEANING.format(value)
    judged = judge(read_drawing(loose + text if is_before else text + loose), program)
    across, = [each for each in judged.surplus if each.name == "Across"]
    assert across.repeats() is repeats


def test_the_greatest_length_has_none_above_it(program: Program) -> None:
    judged = judge(read_drawing(
        "segment A 0 0 999999 0\ncoincident A.start Origin\non A.end XAxis\n"
        "length A 999999.9999999\nx A.end 999000\n"), program)
    assert all(each.repeats() is not None for each in judged.surplus if each.off is not None)
