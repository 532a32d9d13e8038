"""The values that the search finds, and the program's construction with them."""

from __future__ import annotations

from fractions import Fraction
from pathlib import Path

import pytest

from pertxogai.drawing import (
    AngleBetween, Degrees, Drawing, Length, ShapeRef, line_of, read_drawing)
from pertxogai.judging.measure import Deviation, Unit, greatest, measure
from pertxogai.search.constructing import Construction, construct
from pertxogai.search.searched import Searched

TESTS = Path(__file__).parent
OPEN = sorted((TESTS / "drawings").glob("open-*.drawing"))
BEYOND = sorted((TESTS / "beyond_triangles").glob("*.drawing"))


def constructed(drawing: Drawing, program) -> Construction:
    searched = Searched(drawing)
    found = construct(drawing, searched.equations, searched.found.x, searched.freedom, program)
    assert found is not None
    return found


@pytest.mark.parametrize("path", OPEN, ids=lambda path: path.stem)
def test_what_lacks_dimensions_is_constructed_by_as_many_values(path, program):
    drawing = read_drawing(path.read_text())
    found = constructed(drawing, program)
    assert found.is_good() and found.swaps == ()
    assert len(found.chosen) == Searched(drawing).freedom.count
    assert all(each.value_um.denominator == 1 for each in found.chosen), "whole micrometres"


@pytest.mark.parametrize("path", BEYOND, ids=lambda path: path.stem)
def test_what_is_rigid_beyond_triangles_takes_one_value_in_place_of_a_word(path, program):
    drawing = read_drawing(path.read_text())
    found = constructed(drawing, program)
    assert found.is_good()
    (swap,) = found.swaps
    assert swap.gone in drawing.constraints and swap.value is not None
    # It is measured where the program has placed it, by the designer's own words.
    off = greatest(measure(drawing, found.judgement.solution), Unit.NM)
    assert off.amount <= 2


def test_a_value_is_read_off_where_it_follows(program):
    # By hand: the coins' roof is at 40, so that r (2 + root 3) = 40; whatever is told in the place
    # of a touch is what follows from that.
    drawing = read_drawing((TESTS / "beyond_triangles/three-equal-coins-in-a-corner.drawing")
                           .read_text())
    (swap,) = constructed(drawing, program).swaps
    said = line_of(swap.value).split()
    follows = {"radius C1": 10.717968, "x C1.centre": 10.717968, "x C2.centre": 32.153903,
               "x C3.centre": 21.435935, "y C1.centre": 10.717968, "y C3.centre": 29.282032}
    assert abs(float(said[-1]) - follows[" ".join(said[:-1])]) <= 2e-6


def test_what_is_free_is_told_by_a_radius_before_a_place(program):
    found = constructed(read_drawing("circle C 3 4 2\ntangent C XAxis\ntangent C YAxis\n"), program)
    assert [line_of(each).split()[:2] for each in found.chosen] == [["radius", "C"]]


def test_nothing_is_told_of_what_is_well(program):
    text = "segment S 0 0 9 0\nfixed S.start\nhorizontal S\nlength S 10\n"
    found = constructed(read_drawing(text), program)
    assert (found.chosen, found.swaps, found.unmet()) == ((), (), ())


@pytest.mark.parametrize("amount, unit, is_met", [
    (2, Unit.NM, True), (3, Unit.NM, False), (2, Unit.PPB, True), (50, Unit.PPB, False)])
def test_each_word_is_to_be_met_in_its_own_unit(amount, unit, is_met):
    length = Length(ShapeRef("S"), Fraction(10))
    angle = AngleBetween(ShapeRef("S"), ShapeRef("T"), Degrees(Fraction(60)))
    # A direction by whose rounding the end of a line lies further off than whole nanometres say.
    off = ([Deviation(1, length, amount, unit)] if unit is Unit.NM else
           [Deviation(1, angle, 9, Unit.NM), Deviation(1, angle, amount, unit)])
    found = Construction((), (), pieces=0, deviations=tuple(off))
    assert found.is_good() is is_met
    assert (found.worth() > Construction((), (), pieces=0).worth()) or is_met
