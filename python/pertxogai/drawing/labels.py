"""Where the labels of dimensions stand, and dimensions that are measured and ask nothing. Both are
kept in notes, which nothing that is judged looks at:

    length Bottom 120  # label 0 -15
    # reference length Top; label 4 12

The two numbers behind `label` are millimetres, to the right and up from where the dimension is
measured. A note of a designer's own stands before them, apart by a `;`."""
from __future__ import annotations

import re
from collections.abc import Iterable, Iterator
from dataclasses import dataclass, replace
from fractions import Fraction

from pertxogai.drawing.constraint_checks import check_constraint
from pertxogai.drawing.constraint_lines import ConstraintWord, read_constraints
from pertxogai.drawing.constraints import VALUED, Constraint
from pertxogai.drawing.cursor import Cursor
from pertxogai.drawing.drawing import Drawing, Note
from pertxogai.drawing.numbers import mm_text
from pertxogai.drawing.refusal import WordFault
from pertxogai.drawing.wording import asked_of

Offset = tuple[Fraction, Fraction]
"""How far a label stands from where its dimension is measured, x and y in micrometres."""
_NUMBER = r"(-?[0-9]{1,7}(?:\.[0-9]{1,3})?)"
_LABEL = re.compile(rf"(?:^|;\s*|\s)label {_NUMBER} {_NUMBER}$")
_WORD = "reference "
_TRIAL = {ConstraintWord.ANGLE: "60deg"}


@dataclass(frozen=True)
class Reference:
    """A dimension that is only measured: the place of its note among the notes, from 0; what it
    measures, as a constraint of which the value doesn't count; and where its label stands."""

    place: int
    constraint: Constraint
    label: Offset | None

    @property
    def words(self) -> tuple[str, ...]:
        """Its words without a value."""
        assert isinstance(self.constraint, VALUED)
        return tuple(asked_of(self.constraint))


def label_in(text: str) -> Offset | None:
    """Where a note says that a label stands; None where it says nothing of it."""
    found = _LABEL.search(text)
    if found is None:
        return None
    return Fraction(found[1]) * 1000, Fraction(found[2]) * 1000


def with_label(text: str, label: Offset | None) -> str:
    """A note that says where a label stands, or doesn't any more, behind what else it says."""
    said = _LABEL.sub("", text).rstrip()
    if label is None:
        return said
    told = "label " + " ".join(mm_text(Fraction(round(each))) for each in label)
    return f"{said}; {told}" if said else told


def labels(drawing: Drawing) -> dict[int, Offset]:
    """Where the labels of constraints stand, by their places from 1, as far as that is said."""
    count, found = len(drawing.geometry), {}
    for note in drawing.notes:
        label = label_in(note.text) if note.beside and note.before >= count else None
        if label is not None:
            found[note.before - count + 1] = label
    return found


def labelled(drawing: Drawing, number: int, label: Offset | None) -> Drawing:
    """A drawing in which the label of the constraint at a place, from 1, stands elsewhere, or where
    it stands by itself."""
    before = len(drawing.geometry) + number - 1
    mine = [note for note in drawing.notes if note.beside and note.before == before]
    text = with_label(mine[0].text if mine else "", label)
    others = [note for note in drawing.notes if note not in mine]
    return _with_notes(drawing, [*others, *([Note(text, before, True)] if text else [])])


def references(drawing: Drawing) -> Iterator[Reference]:
    """The dimensions that are only measured, in the order of their notes. A note that names what
    isn't drawn is passed over."""
    for place, note in enumerate(drawing.notes):
        if note.beside or not note.text.startswith(_WORD):
            continue
        label = label_in(note.text)
        said = with_label(note.text, None).removeprefix(_WORD).split()
        try:
            yield Reference(place, measured(drawing, said), label)
        except WordFault:
            continue


def all_labels(drawing: Drawing) -> dict[int, Offset]:
    """Where labels stand, by the numbers of their dimensions: those of constraints from 1, those of
    what is only measured from -1 down."""
    found = labels(drawing)
    for number, each in enumerate(references(drawing), 1):
        if each.label is not None:
            found[-number] = each.label
    return found


def measured(drawing: Drawing, words: list[str]) -> Constraint:
    """What the words of a dimension without its value measure. Raises WordFault where they are
    none."""
    try:
        word = ConstraintWord(words[0])
    except (ValueError, IndexError):
        raise WordFault(" ".join(words[:1]),
                        "measures nothing: write length, distance, ..") from None
    scene = drawing.scene
    found = read_constraints(word, Cursor(scene, [*words, _TRIAL.get(word, "1")]), None)
    if len(found) != 1 or not isinstance(found[0], VALUED):
        raise WordFault(" ".join(words), "is no dimension")
    check_constraint(scene, found[0])
    return found[0]


def with_reference(drawing: Drawing, words: list[str], label: Offset | None = None) -> Drawing:
    """A drawing that measures one more dimension, by its words without a value. Raises
    WordFault."""
    measured(drawing, words)
    text = with_label(_WORD + " ".join(words), label)
    end = len(drawing.geometry) + len(drawing.constraints)
    return _with_notes(drawing, [*drawing.notes, Note(text, end)])


def without_references(drawing: Drawing, numbers: frozenset[int]) -> Drawing:
    """A drawing without those of the dimensions that are only measured which have these places
    among them, from 1."""
    gone = {each.place for number, each in enumerate(references(drawing), 1) if number in numbers}
    return replace(drawing, notes=tuple(
        note for place, note in enumerate(drawing.notes) if place not in gone))


def relabelled(drawing: Drawing, number: int, label: Offset | None) -> Drawing:
    """A drawing in which the label of such a dimension stands elsewhere."""
    place = [each.place for each in references(drawing)][number - 1]
    return replace(drawing, notes=tuple(
        replace(note, text=with_label(note.text, label)) if at == place else note
        for at, note in enumerate(drawing.notes)))


def renamed_in_notes(drawing: Drawing, old: str, new: str) -> Drawing:
    """A drawing in which the notes that measure speak of a shape by another name."""
    name = re.compile(rf"(?<![\w.]){re.escape(old)}(?!\w)")
    return replace(drawing, notes=tuple(
        replace(note, text=name.sub(lambda _: new, note.text))
        if note.text.startswith(_WORD) and not note.beside else note for note in drawing.notes))


def _with_notes(drawing: Drawing, notes: Iterable[Note]) -> Drawing:
    """A drawing with other notes, each where it stands."""
    in_order: list[Note] = sorted(notes, key=lambda note: note.before)
    return replace(drawing, notes=tuple(in_order))
