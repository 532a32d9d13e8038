"""The board's named values, and how far a dimension or a value may go, without a browser."""
from __future__ import annotations

from collections.abc import Sequence
from dataclasses import dataclass

import pytest

pytest.importorskip("flask", reason="the board needs Debian's python3-flask")

from boards import drawing  # noqa: E402

from pertxogai.board.calls import Desk  # noqa: E402
from pertxogai.board.document import read_document, write_document  # noqa: E402
from pertxogai.drawing import DrawingRefusal  # noqa: E402
from pertxogai.program import Answer, Program, ProgramError, ProgramTimedOut  # noqa: E402

PLATE = drawing("plate-by-values")
HOLE = drawing("plate-with-hole")


@dataclass
class Hurried:
    """A program that answers as long as there is time."""

    program: Program
    has_time: bool = True

    def ask(self, words: Sequence[str], text: str) -> Answer:
        if not self.has_time:
            raise ProgramTimedOut("the call took over 10 s")
        return self.program.ask(words, text)


class NoProgram:
    """A program that answers nothing."""

    def ask(self, words: object, text: str) -> Answer:
        raise ProgramError("nothing is asked here")


TEXT = """drawing 1
# the outside
value Width 120 # over all
# half of it
value Half Width/2
segment Bottom 0 0 40 0
Long: length Bottom Half # one
"""


def edited(edit: dict[str, object], text: str = TEXT) -> dict[str, object]:
    """What an edit of the drawing gives."""
    return Desk(NoProgram()).answer("edit", {"text": text, "edit": edit})


def test_another_expression_is_written_where_the_value_stands() -> None:
    found = edited({"do": "set-value", "name": "Width", "expression": " 3 * 40mm"})
    assert found["text"] == TEXT.replace("120", "3 * 40mm")
    assert found["drawing"]["values"] == [
        {"name": "Width", "expression": "3 * 40mm", "comes": "120 mm"},
        {"name": "Half", "expression": "Width/2", "comes": "60 mm"}]


def test_a_new_value_stands_behind_the_others_with_their_notes() -> None:
    found = edited({"do": "set-value", "name": "Wall", "expression": "3mm"})
    assert found["text"] == TEXT.replace("Width/2\n", "Width/2\nvalue Wall 3mm\n")


def test_a_value_that_nothing_uses_is_taken_away_with_its_own_note() -> None:
    text = TEXT.replace("length Bottom Half", "length Bottom Width")
    found = edited({"do": "drop-value", "name": "Half"}, text)
    assert found["text"] == text.replace("value Half Width/2\n", "")
    text = TEXT.replace("Width/2", "60")
    found = edited({"do": "drop-value", "name": "Width"}, text)
    assert found["text"] == text.replace("value Width 120 # over all\n", "")


@pytest.mark.parametrize(("edit", "told"), [
    ({"do": "set-value", "name": "Width", "expression": "0"},
     "Long: 'Half' comes to 0 mm, and that is no length, which is above 0: change a value in it"),
    ({"do": "set-value", "name": "Width", "expression": "Half"},
     "value Width: 'Width' is defined by itself: Width uses Half uses Width"),
    ({"do": "set-value", "name": "Bottom", "expression": "3"},
     "'Bottom' is drawn already: take another name"),
    ({"do": "set-value", "name": "mm", "expression": "3"},
     "'mm' is a word of expressions: take another name"),
    ({"do": "set-value", "name": "Wall", "expression": "3 +"},
     "'3 +' ends where a number or a value is missing"),
    ({"do": "drop-value", "name": "Width"},
     "'Width' is used by value Half: write a number there first"),
    ({"do": "drop-value", "name": "Half"}, "'Half' is used by Long: write a number there first"),
    ({"do": "drop-value", "name": "Widht"}, "'Widht' is no value, or do you mean Width?"),
])
def test_what_cannot_be_is_told_by_name(edit: dict[str, object], told: str) -> None:
    assert edited(edit)["trouble"]["message"] == told


def test_values_stand_before_anything_is_drawn() -> None:
    text = "drawing 1\nvalue Width 120\n"
    assert write_document(read_document(text)) == text
    found = edited({"do": "set-value", "name": "Half", "expression": "Width/2"}, text)
    assert found["text"] == text + "value Half Width/2\n"
    with pytest.raises(DrawingRefusal, match="line 2: '0' comes to 0"):
        read_document("\nvalue Width 1/0\n")


def test_an_edit_of_what_is_drawn_keeps_the_values() -> None:
    for edit in ({"do": "shift", "shapes": ["Bottom"], "dx": 1, "dy": 0},
                 {"do": "rename", "old": "Bottom", "new": "Base"},
                 {"do": "draw", "figure": "circle", "spots": [{"x": 9, "y": 9}], "radius": 4},
                 {"do": "erase", "shapes": ["Bottom"]}):
        lines = edited(edit)["text"].splitlines()
        assert lines[1:5] == TEXT.splitlines()[1:5], edit


def range_of(program: Program, text: str, **of: object) -> dict:
    """What is told of a range."""
    return Desk(program).answer("range", {"text": text, **of})


def test_the_range_of_a_dimension(program: Program) -> None:
    """The plate is 120 wide and the hole 12: it touches an edge at 6 and at 114."""
    found = range_of(program, HOLE, number=8)["range"]
    assert (found["called"], found["number"], found["name"], found["sign"], found["unit"],
            found["typed"]) == ("x Hole.centre", 8, None, False, "mm", "")
    assert (found["low"], found["present"], found["high"]) == (5.999, 45.0, 114.001)
    assert {"PlateLeft", "Hole"} <= set(found["low_why"].split())
    assert "by numbers" in found["told"]


def test_the_range_of_a_value(program: Program) -> None:
    """Its two holes are 12 each and 12 from the sides: they touch where it is 36 wide."""
    found = range_of(program, PLATE, name="Width")["range"]
    assert (found["number"], found["name"], found["low"]) == (None, "Width", 35.999)
    assert {"West", "East"} <= set(found["low_why"].split())


def test_what_follows_names_the_values_with_ranges(program: Program) -> None:
    """Height follows from Width; so does the dimension that uses Height."""
    assert range_of(program, PLATE, name="Height")["values"] == ["Width"]
    text = ("value Wide 40\nvalue Wall Wide/20\nsegment S 0 0 30 0\ncoincident S.start Origin\n"
            "horizontal S\nlength S Wide - 2*Wall\n")
    assert range_of(program, text, number=3)["values"] == ["Wide"]


def test_why_there_is_no_range(program: Program) -> None:
    loose = HOLE.replace("y Hole 30\n", "")
    assert set(range_of(program, loose, number=8)) == {"why"}
    assert set(range_of(program, HOLE, number=8, left_out=["an ellipse"])) == {"why"}
    for of in ({"number": 1}, {"number": 99}, {"name": "Nothing"}, {}):
        assert range_of(program, HOLE, **of)["why"].startswith("nothing of the drawing"), of


def test_a_range_that_takes_too_long_says_what_finds_it(program: Program) -> None:
    hurried = Hurried(program)
    desk = Desk(hurried)
    assert "why" in desk.answer("range", {"text": HOLE, "number": 1})
    hurried.has_time = False
    assert "pertxogai range FILE" in desk.answer("range", {"text": HOLE, "number": 9})["why"]
