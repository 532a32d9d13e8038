"""Tolerances and checks in the text of a drawing, and the general tolerances of ISO 2768-1.

The numbers of the tables are those of the standard: ISO 2768-1:1989, tables 1 to 3."""
from __future__ import annotations

import re
from dataclasses import replace
from fractions import Fraction

import pytest

from pertxogai.board.line_reader import valued
from pertxogai.board.removal import without
from pertxogai.drawing import (
    DrawingRefusal, DrawingUnsound, Tolerance, asked_of, checked, read_drawing, value_text,
    words_of, write_drawing)
from pertxogai.drawing.tolerances.iso2768 import Table, read_general

EDGE = "segment A 0 0 40 0\nsegment B A.end 40 30\n"


@pytest.mark.parametrize("line, below, above", [
    ("length A 40 +-0.1", 100, 100), ("length A 40 ±0.1", 100, 100),
    ("length A 40 +0.2-0", 0, 200), ("length A 20*2 +0.2-0.05", 50, 200),
    ("length A 40 -0.007-0.02", 20, -7), ("length A 40 +0.2+0.1", -100, 200),
    ("length A 40 +0.1-0.01in", 254, 2540), ("length A 40 +0.1mm-0.01in", 254, 100),
    ("x A.end +40 +-0.01in", 254, 254), ("distance A.start B.end 50 +0-0.3mm", 300, 0)])
def test_a_length_has_a_tolerance(line, below, above):
    drawing = read_drawing(EDGE + line + "\n")
    (told,) = drawing.constraints
    assert (told.tolerance.below, told.tolerance.above) == (below, above)
    assert drawing.wordings == (line,)
    assert read_drawing(write_drawing(drawing)) == drawing


@pytest.mark.parametrize("below, above, text", [
    (100, 100, "+-0.2"), (-100, 100, "+0.1+0.1"), (-200, 100, "+0.1+0.2"), (100, 100, "about"),
    (Fraction(1, 2), Fraction(1, 2), "+-0.5deg")])
def test_a_tolerance_that_is_not_its_text_is_unsound(below, above, text):
    drawing = read_drawing(EDGE + "length A 40\n")
    tolerance = Tolerance(Fraction(below), Fraction(above), text)
    told = replace(drawing.constraints[0], tolerance=tolerance)
    with pytest.raises(DrawingUnsound, match="constraint 1 .*: " + re.escape(f"'{text}'")):
        checked(replace(drawing, constraints=(told,)))


def test_an_angle_has_one_in_degrees():
    (told,) = read_drawing(EDGE + "angle A B 90deg +-0.5deg\n").constraints
    assert told.tolerance.above == Fraction(1, 2)
    assert asked_of(told) == ("angle", "A", "B") and value_text(told) == "90deg"


def test_a_sum_is_no_tolerance():
    (told,) = read_drawing(EDGE + "length A 40 + 0.2 - 0.1\n").constraints
    assert told.tolerance is None and told.value_um == 40_100
    (told,) = read_drawing(EDGE + "length A 40 + -0.1\n").constraints
    assert told.tolerance is None and told.value_um == 39_900


@pytest.mark.parametrize("value, line", [
    ("41", "length A 41 +-0.1"), ("41 +-0.2", "length A 41 +-0.2")])
def test_another_value_on_the_board_keeps_the_tolerance(value, line):
    drawing = read_drawing(EDGE + "length A 40 +-0.1\n")
    assert words_of(valued(drawing, drawing.constraints[0], value)) == line


def test_a_check_goes_with_the_shape_that_it_measures():
    drawing = read_drawing("check A length A 2 .. 3\ncheck B length B 2 .. 3\n" + EDGE)
    kept = without(drawing, frozenset({"B"}), frozenset())
    assert [each.name for each in kept.tolerancing.checks] == ["A"]


@pytest.mark.parametrize("limits", ["2 .. 3", "2 ..", ".. 3", ".."])
def test_either_limit_or_both_may_be_left_out(limits):
    drawing = read_drawing(f"check Gap length A {limits}\n{EDGE}")
    (check,) = drawing.tolerancing.checks
    assert check.has_limits is (limits != "..") and check.words() == f"length A {limits}"
    assert read_drawing(write_drawing(drawing)).tolerancing == drawing.tolerancing


HEAD = ("drawing 1\nvalue W 40\n# by the shop\ntolerances ISO2768-m\ncheck Gap length A 39.9 .. W "
        "# must\n# drawn\n" + EDGE + "length A W +-0.1\n")


def test_what_stands_in_any_line_is_written_first_with_its_notes():
    assert write_drawing(read_drawing(HEAD)) == HEAD
    lines = HEAD.splitlines()
    moved = [lines[0], *lines[5:], *lines[1:5]]
    assert write_drawing(read_drawing("\n".join(moved) + "\n")) == HEAD


@pytest.mark.parametrize("line, word", [
    ("length A 40 +0.1 -0.2", "-0.2"), ("length A 40 -0.2", "-0.2"),
    ("length A 40 +0.1+0.2", "+0.1+0.2"), ("length A 40 +0.1+0.1", "+0.1+0.1"),
    ("length A 40 +-1deg", "+-1deg"), ("angle A B 90deg +-0.1", "+-0.1"),
    ("tolerances ISO2768-x", "ISO2768-x"), ("tolerances", "tolerances"),
    ("check Gap", "Gap"), ("check Gap length A 3", "check"), ("check Gap length A", "check"),
    ("check Gap length A 3 .. 2", "Gap"), ("check Gap level A 2 .. 3", "level"),
    ("check Gap length C 2 .. 3", "C"), ("check Gap length A B 2 .. 3", "length"),
    ("check Gap angle A B 2 .. 3", "2"), ("Gap: check Gap length A 2 .. 3", "Gap")])
def test_what_is_refused_is_named(line, word):
    with pytest.raises(DrawingRefusal) as refused:
        read_drawing(EDGE + line + "\n")
    assert (refused.value.line, refused.value.word) == (3, word)


@pytest.mark.parametrize("line, what", [
    ("check Gap", "is the last word: write a line such as check Gap distance P S 2 .. 2.5"),
    ("check Gap length A B 2 .. 3", "takes one thing here: write a line for each, such as check "),
    ("check Gap level A 2 .. 3", "can't be checked: write one of length, distance, x, y, angle, "),
    ("check Gap length A 3", "needs .. once, between its limits: write a line such as check Gap "),
    ("length A 40 +0.1 -0.2", "may be part of a tolerance or of a sum: write a tolerance without "
                              "blanks, such as +0.1-0.2, and a sum with blanks around its signs"),
    ("length A 40 +- 0.1", "may be a tolerance or a sum: write a tolerance behind a blank and "
                           "without one in it, such as +-0.1, and a sum with blanks around its"),
    ("length A 40+-0.1", "may be a tolerance or a sum"),
    ("angle A B 90deg +- 0.5deg", "may be a tolerance or a sum"),
    ("value W 40 +- 0.1", "may be a tolerance or a sum"),
    ("length A 40 -0.2-0.1", "has its greater deviation last: write it first, such as "),
    ("length A 40 +-1deg", "is no tolerance of a length: write millimetres, such as +-0.1"),
    ("angle A B 90deg +-0.1", "is no tolerance of an angle: write degrees, such as +-0.5deg")])
def test_a_refusal_says_what_to_write(line, what):
    with pytest.raises(DrawingRefusal) as refused:
        read_drawing(EDGE + line + "\n")
    assert refused.value.what.startswith(what)


@pytest.mark.parametrize("twice", ["tolerances ISO2768-m", "check Gap length A 2 .. 3"])
def test_each_is_said_once(twice):
    with pytest.raises(DrawingRefusal) as refused:
        read_drawing(f"{EDGE}{twice}\n{twice}\n")
    assert refused.value.line == 4


@pytest.mark.parametrize("grade, table, size_mm, off", [
    ("f", Table.LINEAR, 3, "0.05"), ("f", Table.LINEAR, 30, "0.1"),
    ("f", Table.LINEAR, 2000, "0.5"), ("f", Table.LINEAR, 2001, None),
    ("m", Table.LINEAR, "0.49", None), ("m", Table.LINEAR, "0.5", "0.1"),
    ("m", Table.LINEAR, 6, "0.1"), ("m", Table.LINEAR, "6.001", "0.2"),
    ("m", Table.LINEAR, 120, "0.3"), ("m", Table.LINEAR, 400, "0.5"),
    ("m", Table.LINEAR, 1000, "0.8"), ("m", Table.LINEAR, 4000, "2"),
    ("c", Table.LINEAR, 6, "0.3"), ("c", Table.LINEAR, 120, "0.8"),
    ("c", Table.LINEAR, 4000, "4"), ("v", Table.LINEAR, 3, None), ("v", Table.LINEAR, 6, "0.5"),
    ("v", Table.LINEAR, 400, "2.5"), ("v", Table.LINEAR, 4000, "8"),
    ("f", Table.BROKEN_EDGE, 3, "0.2"), ("m", Table.BROKEN_EDGE, 6, "0.5"),
    ("m", Table.BROKEN_EDGE, 50, "1"), ("c", Table.BROKEN_EDGE, 2, "0.4"),
    ("v", Table.BROKEN_EDGE, 7, "2"),
    ("f", Table.ANGULAR, 10, "1"), ("m", Table.ANGULAR, 50, "1/2"),
    ("m", Table.ANGULAR, 120, "1/3"), ("m", Table.ANGULAR, 400, "1/6"),
    ("m", Table.ANGULAR, 401, "1/12"), ("c", Table.ANGULAR, 10, "3/2"),
    ("c", Table.ANGULAR, 120, "1/2"), ("c", Table.ANGULAR, 400, "1/4"),
    ("v", Table.ANGULAR, 10, "3"), ("v", Table.ANGULAR, 50, "2"), ("v", Table.ANGULAR, 120, "1"),
    ("v", Table.ANGULAR, 500, "1/3")])
def test_general_tolerances_are_those_of_the_standard(grade, table, size_mm, off):
    found = read_general(f"ISO2768-{grade}").off(table, Fraction(size_mm) * 1000)
    unit = 1 if table is Table.ANGULAR else 1000
    assert found == (None if off is None else Fraction(off) * unit)
