"""Lines of the text that are read against a drawing that stands."""
from __future__ import annotations

from dataclasses import replace

from pertxogai.board.more_lines import with_constraints
from pertxogai.board.typed import value_word
from pertxogai.drawing import (
    VALUED, Constraint, Drawing, NamedShapes, Shape, WordFault, asked_of, words_of)
from pertxogai.drawing.constraint_checks import check_constraint
from pertxogai.drawing.constraint_lines import ConstraintWord, read_constraints
from pertxogai.drawing.cursor import Cursor
from pertxogai.drawing.shape_lines import ShapeWord, read_shape
from pertxogai.drawing.shorthands import Expansion


def asked(drawing: Drawing, words: list[str]) -> tuple[Constraint, ...]:
    """The constraints of a line's words. Raises WordFault."""
    scene = drawing.scene
    try:
        word = ConstraintWord(words[0])
    except (ValueError, IndexError):
        raise WordFault(" ".join(words[:1]), "is no word that asks") from None
    found = read_constraints(word, Cursor(scene, words), None)
    for constraint in found:
        check_constraint(scene, constraint)
    return found


def asking(drawing: Drawing, words: list[str]) -> Drawing:
    """A drawing with the constraints of a line's words, the last of all. Raises WordFault."""
    return with_constraints(drawing, asked(drawing, words))


def constraint_at(drawing: Drawing, number: int) -> Constraint:
    """The constraint at a place, from 1. Raises WordFault where there is none."""
    if not 1 <= number <= len(drawing.constraints):
        raise WordFault(f"constraint {number}", "doesn't stand")
    return drawing.constraints[number - 1]


def valued(drawing: Drawing, constraint: Constraint, value: str) -> Constraint:
    """A constraint with another value, as it is written; it keeps its tolerance where none is
    written behind that. Raises WordFault."""
    if not isinstance(constraint, VALUED):
        raise WordFault(words_of(constraint), "has no value that could be changed")
    (found,) = asked(drawing, [*asked_of(constraint), *value_word(value).split()])
    assert isinstance(found, VALUED)
    return replace(found, name=constraint.name, tolerance=found.tolerance or constraint.tolerance)


def drawn(shapes: tuple[Shape, ...], words: list[str]) -> Expansion:
    """What a line draws behind the shapes that stand. Raises WordFault."""
    return read_shape(ShapeWord(words[0]), frozenset(), Cursor(NamedShapes(shapes), words))
