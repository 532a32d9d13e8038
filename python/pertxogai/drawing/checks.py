"""Whether a name stands, and is of the kind that a constraint takes; and sizes."""

from __future__ import annotations

from fractions import Fraction

from pertxogai.drawing.geometry import Arc, Axis, Circle, Datum, Origin, Segment, Shape
from pertxogai.drawing.named_shapes import NamedShapes, points_of, spot_of
from pertxogai.drawing.names import nearest
from pertxogai.drawing.numbers import MOST_MM, mm_text
from pertxogai.drawing.places import UM_PER_MM
from pertxogai.drawing.references import PointRef, ShapeRef
from pertxogai.drawing.refusal import WordFault

MOST_UM = MOST_MM * UM_PER_MM
"""The greatest coordinate, length or radius, in micrometres."""


def standing(scene: NamedShapes, name: str, word: str) -> Shape | Datum:
    """The shape of that name; raises WordFault at the `word` that names it where none has it."""
    if not scene.has(name):
        near = nearest(name, (*scene.names(), *scene.values.names())).removeprefix(", or ")
        raise WordFault(word, f"isn't drawn above this line: {near or 'write its line further up'}")
    return scene.shape(name)


def check_point(scene: NamedShapes, ref: PointRef) -> None:
    """Raises WordFault unless the point stands."""
    shape = standing(scene, ref.shape, str(ref))
    try:
        spot_of(shape, ref.which)
    except KeyError:
        raise WordFault(str(ref), "is no point: " + points_told(shape)) from None


def points_told(shape: Shape | Datum) -> str:
    """What to write where a point is meant and a shape was named."""
    if isinstance(shape, Axis):
        return "an axis has none, and the datum's point is Origin"
    if isinstance(shape, Origin):
        return "write Origin"
    return "write " + " or ".join(str(ref) for ref in points_of(shape))


def check_line(scene: NamedShapes, ref: ShapeRef, datum: bool = True) -> None:
    """Raises WordFault unless it is a segment, or an axis where the `datum` is allowed."""
    shape = standing(scene, ref.name, ref.name)
    if isinstance(shape, Axis) and not datum:
        raise WordFault(ref.name, "is the datum's own axis: write the name of a segment")
    if not isinstance(shape, Segment | Axis):
        raise WordFault(ref.name, "is no segment: write the name of a segment"
                        + (", XAxis or YAxis" if datum else ""))


def check_rim(scene: NamedShapes, ref: ShapeRef) -> None:
    """Raises WordFault unless it is a circle or an arc."""
    if not isinstance(standing(scene, ref.name, ref.name), Circle | Arc):
        raise WordFault(ref.name, "is no circle or arc: write the name of one")


def is_rim(scene: NamedShapes, ref: ShapeRef) -> bool:
    """Whether it stands and is a circle or an arc."""
    return scene.has(ref.name) and isinstance(scene.shape(ref.name), Circle | Arc)


def check_size(value_um: Fraction, noun: str) -> None:
    """Raises WordFault unless a length, distance or radius is from a micrometre to the limit."""
    word = mm_text(value_um)
    if value_um == 0:
        advice = ": write `coincident` or `on` instead" if noun == "distance" else ""
        raise WordFault(word, f"is no {noun}, which is above 0{advice}")
    if value_um < 0:
        raise WordFault(word, f"is no {noun}: write it without the minus")
    if value_um < 1:
        raise WordFault(word, f"is a {noun} below a micrometre: write 0.001 or more")
    if value_um > MOST_UM:
        raise WordFault(word, f"is a {noun} beyond {MOST_MM} mm: write less")
