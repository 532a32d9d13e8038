"""What is measured of a drawing that an edit has made is what would be measured of it by itself,
whatever of the drawing before is taken over."""
from __future__ import annotations

from gc import collect
from pathlib import Path
from weakref import ref

import pytest

from pertxogai.drawing import ORIGIN, Drawing, Meetings, moved, read_drawing
from pertxogai.judging.edited import EditedDrawing
from pertxogai.judging.measure import Frame, Measurement, Solution, measure
from pertxogai.judging.measure.measuring import Deviations
from pertxogai.judging.measure.solution import MissingPlace
from pertxogai.spelling import Style
from test_board_sight import PATHS, as_drawn, edited

TWO = "segment A 0 0 40 0\nsegment B 0 20 40 21\nlength A 40\nx B.start 0\nangle A B 1/40\n"


def apart(drawing: Drawing) -> Drawing:
    """The same without anything that was kept of it."""
    return Drawing(drawing.geometry, drawing.constraints, drawing.notes)


def measured_before(drawing: Drawing, aside_nm: int) -> EditedDrawing | None:
    """A drawing that was measured where it is drawn, the last point so far aside; None where a
    constraint lacks a place."""
    before = EditedDrawing(drawing)
    try:
        before.measured(as_drawn(drawing, aside_nm))
    except MissingPlace:
        return None
    return before


def measured_alone(drawing: Drawing, aside_nm: int) -> Deviations | None:
    """What is measured of the same drawing by itself."""
    try:
        return measure(apart(drawing), as_drawn(drawing, aside_nm))
    except MissingPlace:
        return None


@pytest.mark.parametrize("path", PATHS, ids=lambda path: path.stem)
def test_an_edit_of_each_kind(path: Path) -> None:
    drawing = read_drawing(path.read_text(encoding="utf-8"))
    before = {then: measured_before(drawing, then) for then in (0, 9_000_000)}
    for new in edited(drawing):
        alone = {now: measured_alone(new, now) for now in (0, 9_000_000)}
        for then, now in ((0, 0), (0, 9_000_000), (9_000_000, 0)):
            known, due = before[then], alone[now]
            if known is not None and due is not None:
                assert EditedDrawing(new, known).measured(as_drawn(new, now)).all == due


@pytest.mark.parametrize("path", PATHS, ids=lambda path: path.stem)
def test_which_points_are_one_is_taken_over_as_it_is(path: Path) -> None:
    drawing = read_drawing(path.read_text(encoding="utf-8"))
    for new in edited(drawing):
        if moved(new, drawing) is not None:
            alone, new = Meetings(apart(new)), new.meeting_as(drawing)
            points = (ORIGIN, *new.points())
            assert [*map(new.meetings.leader, points)] == [*map(alone.leader, points)]
            assert [*map(new.meetings.drawn, points)] == [*map(alone.drawn, points)]
            assert new.meetings.count() == len({*map(alone.leader, points)}) - 1


def test_in_another_frame_all_is_measured_anew() -> None:
    """The x axis of the second places goes upwards, so that B.start is 20 mm off."""
    drawing = read_drawing(TWO)
    places = as_drawn(drawing)
    turned = Solution(places.points, places.radii, Frame((0, 0), (0, 1)))
    before = EditedDrawing(drawing)
    assert [each.amount for each in before.measured(places).all][:2] == [0, 0]
    again = EditedDrawing(drawing, before).measured(turned)
    assert [each.amount for each in again.all][:2] == [0, 20_000_000]


def test_what_is_drawn_elsewhere_is_measured_whatever_it_is_said_to_be_made_of() -> None:
    """The segment of the second drawing is given from outside and drawn 1 mm further: it lies where
    the first one's is drawn, so that each of its ends is 1 mm off."""
    first, second = (read_drawing(f"outer segment A 0 {y} 40 {y}\nfixed A\n") for y in (0, 1))
    drawing = Drawing(second.geometry, first.constraints)
    measured = Measurement(first, as_drawn(first))
    assert not any(each.amount for each in measured.all)
    found = measured.redrawn(drawing, as_drawn(first))
    assert found.all == Measurement(drawing, as_drawn(first)).all
    assert {each.amount for each in found.all} == {1_000_000}


def test_only_the_drawing_before_is_kept() -> None:
    first, gone = known_of(read_drawing(TWO)), []
    for _ in range(3):
        gone.append(ref(first.drawing))
        first = known_of(apart(first.drawing), first)
    collect()
    assert [each() is None for each in gone] == [True, True, False]


def known_of(drawing: Drawing, previous: EditedDrawing | None = None) -> EditedDrawing:
    """A drawing that was spelled in each style, and measured where it is drawn."""
    edited = EditedDrawing(drawing, previous)
    assert all(each.spelled(style) for each in edited.readings() for style in Style)
    edited.measured(as_drawn(drawing))
    return edited
