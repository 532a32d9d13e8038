"""Where labels of dimensions stand, and dimensions that are only measured: notes of the drawing that
its language knows. Worked out by hand."""
from __future__ import annotations

from fractions import Fraction

import pytest

from pertxogai.drawing import WordFault, read_drawing, write_drawing
from pertxogai.drawing.labels import (
    label_in, labelled, labels, measured, references, relabelled, renamed_in_notes, with_label,
    with_reference, without_references)

TEXT = """drawing 1
segment A 0 0 40 0 # the lower edge
segment B A.end 40 30
circle C 10 10 4
# what follows is measured
length A 40 # label 1.5 -12
radius C 4 # big; label 3 4
angle A B 90deg
# reference distance A.start B.end; label -2 0.25
# reference length Z
"""


@pytest.mark.parametrize("text, label", [
    ("label 1.5 -12", (1500, -12000)), ("the width; label 0 0.001", (0, 1)),
    ("see the label 3 4", (3000, 4000)), ("label 1", None), ("label 1 2 3", None),
    ("label one 2", None), ("labels 1 2", None), ("", None), ("label 1.5 -12 mm", None)])
def test_a_note_says_where_a_label_stands(text: str, label: tuple[int, int] | None) -> None:
    assert label_in(text) == label


def test_a_label_stands_behind_what_else_a_note_says() -> None:
    there = Fraction(1500), Fraction(-12000)
    assert with_label("", there) == "label 1.5 -12"
    assert with_label("the width", there) == "the width; label 1.5 -12"
    assert with_label("the width; label 3 4", there) == "the width; label 1.5 -12"
    assert with_label("the width; label 3 4", None) == "the width"
    assert with_label("label 3 4", None) == ""


def test_labels_belong_to_constraints() -> None:
    drawing = read_drawing(TEXT)
    assert labels(drawing) == {1: (1500, -12000), 2: (3000, 4000)}
    other = labelled(labelled(drawing, 3, (Fraction(5000), Fraction(0))), 1, None)
    assert labels(other) == {2: (3000, 4000), 3: (5000, 0)}
    text = write_drawing(other)
    assert "angle A B 90deg # label 5 0\n" in text and "length A 40\n" in text
    assert read_drawing(text) == other


def test_what_is_only_measured_is_a_note() -> None:
    drawing = read_drawing(TEXT)
    (found,) = references(drawing)
    assert (found.words, found.label) == (("distance", "A.start", "B.end"), (-2000, 250))
    more = with_reference(drawing, ["radius", "C"])
    assert write_drawing(more).endswith("# reference length Z\n# reference radius C\n")
    assert [each.words for each in references(more)] == [
        ("distance", "A.start", "B.end"), ("radius", "C")]
    moved = relabelled(more, 2, (Fraction(1000), Fraction(2000)))
    assert "# reference radius C; label 1 2\n" in write_drawing(moved)
    left = without_references(moved, frozenset({1}))
    assert [each.words for each in references(left)] == [("radius", "C")]
    assert len(left.constraints) == len(drawing.constraints)


def test_a_shape_that_is_renamed_is_measured_by_its_new_name() -> None:
    text = write_drawing(renamed_in_notes(read_drawing(TEXT), "A", "Base"))
    assert "# reference distance Base.start B.end; label -2 0.25\n" in text
    assert "# the lower edge" in text and "# reference length Z\n" in text


@pytest.mark.parametrize("words", [[], ["wide", "A"], ["horizontal", "A"], ["length", "C"],
                                   ["length", "A", "B"], ["length"], ["radius", "Z"]])
def test_what_cant_be_measured(words: list[str]) -> None:
    with pytest.raises(WordFault):
        measured(read_drawing(TEXT), words)
