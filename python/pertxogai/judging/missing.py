"""Where a drawing is open: how many dimensions it lacks at least, and between which of its
pieces."""
from __future__ import annotations

from collections.abc import Sequence
from dataclasses import dataclass, replace
from enum import Enum
from fractions import Fraction
from itertools import product

from pertxogai.drawing import Distance, Drawing
from pertxogai.drawing.places import UM_PER_MM
from pertxogai.judging.freedoms import Freedoms, Whole, freedoms, new_distances
from pertxogai.judging.jets import Steps, TooMany
from pertxogai.judging.like_places import has_shape
from pertxogai.judging.naming import Names
from pertxogai.program.reports import Part


class Tie(Enum):
    """How two rigid clusters are connected, and so what ties them."""

    LOOSE = "not connected: add three dimensions between them"
    LONE = "not connected, and one is a single point or line: add two dimensions between them"
    LONE_PAIR = "not connected: add a dimension between them"
    HINGE = "they turn about a point: add an angle, or a distance between points of both"
    SLIDE = "they slide along a line: add a distance between points of both, not across that line"
    APART = ("they share nothing: add a dimension between them that other constraints don't fix, "
             "and judge again")


DIMENSIONS = {Tie.LOOSE: 3, Tie.LONE: 2, Tie.LONE_PAIR: 1, Tie.HINGE: 1, Tie.SLIDE: 1,
              Tie.APART: 1}
"""How many dimensions are added between two pieces; by rank no fewer are missing there."""
MOST_PAIRS = 9
"""The most distances between two pieces that are tried."""


@dataclass(frozen=True)
class Piece:
    """A rigid cluster: the points and segments in it that the designer knows. auxiliary: of a
    single one, what the encoding adds to it, in words. Clusters may share points, so two may have
    the same one, with other lines of the encoding."""

    number: int
    elements: tuple[str, ...]
    auxiliary: tuple[str, ...] = ()

    def text(self) -> str:
        """Its elements, and what the encoding adds to a single one."""
        more = f", with {' and '.join(self.auxiliary)} of the encoding" if self.auxiliary else ""
        return " ".join(self.elements) + more


@dataclass(frozen=True)
class Joint:
    """Two rigid clusters, how they are connected, and the points or segments that they share.
    along: the segment that they slide along, or x or y; None where it is neither."""

    first: Piece
    second: Piece
    tie: Tie
    shared: tuple[str, ...]
    along: str | None = None

    def text(self) -> str:
        """How they are connected, and what ties them, for people to read."""
        if self.along is None:
            return self.tie.value
        return (f"they slide along {self.along}: add a distance along {self.along} between points "
                "of both")


@dataclass(frozen=True)
class Missing:
    """What is missing. count: how many dimensions are missing at least, by the rank of the
    drawing's equations, with sizes of circles among the unknowns; 0 if it isn't known that one is
    missing, as for a drawing that is rigid in a way that merging doesn't find. joints: each rigid
    cluster but the first, with an earlier one to which it is connected, if there is one, and if by
    rank a dimension is missing between them. whole: how the whole may still be moved against the
    datum, which isn't counted; None if that isn't known."""

    count: int
    pieces: tuple[Piece, ...]
    joints: tuple[Joint, ...]
    whole: Whole | None = None


def missing(names: Names, parts: tuple[Part, ...]) -> Missing:
    """What is missing: how much, by the rank of what the drawing says; and between which of the
    program's parts."""
    free = freedoms(names.drawing)
    pieces = tuple(_piece(names, part) for part in parts)
    shown = [place for place, piece in enumerate(pieces) if piece.elements]
    joints = tuple(_joint(names, parts, pieces, shown, place) for place in shown[1:])
    shown_pieces = tuple(pieces[place] for place in shown)
    if free is None:
        return Missing(0, shown_pieces, tuple(map(_uncounted, joints)))
    return Missing(free.lacks, shown_pieces, _lacking(names, parts, joints, free), free.whole)


def _piece(names: Names, part: Part) -> Piece:
    elements = names.elements(part.elements)
    added = names.auxiliary(part.elements) if len(elements) == 1 else ()
    return Piece(part.number, elements, added)


def _lacking(names: Names, parts: Sequence[Part], joints: Sequence[Joint],
             free: Freedoms) -> tuple[Joint, ...]:
    """The joints that a dimension is lacking at, by rank, once those before them have theirs."""
    if not free.lacks:
        return ()
    elements = {part.number: part.elements for part in parts}
    told = [(_distances(names, elements[each.first.number], elements[each.second.number]),
             DIMENSIONS[each.tie]) for each in joints]
    try:
        counts = list(new_distances(free, told))
    except (TooMany, ArithmeticError):
        return tuple(_uncounted(joint) for joint in joints)
    return tuple(joint if count == DIMENSIONS[joint.tie] else _uncounted(joint)
                 for joint, count in zip(joints, counts) if count)


def _uncounted(joint: Joint) -> Joint:
    """A joint of which it isn't known that all dimensions of its tie are missing, since constraints
    of other clusters may fix some of them."""
    return joint if joint.tie in (Tie.HINGE, Tie.SLIDE) else replace(joint, tie=Tie.APART)


def _distances(names: Names, first: Sequence[str], second: Sequence[str]) -> list[Distance]:
    """At most `MOST_PAIRS` distances between points of two parts that aren't in both; those between
    the first points of each come first, since these fix most."""
    ends = [[point for each in mine if each not in other and (point := names.point(each))]
            for mine, other in ((first, second), (second, first))]
    places = [range(min(len(points), MOST_PAIRS)) for points in ends]
    pairs = sorted(product(places[0], places[1]), key=max)
    return [Distance(ends[0][one], ends[1][other], Fraction(UM_PER_MM))
            for one, other in pairs[:MOST_PAIRS]]


def unmet(drawing: Drawing) -> tuple[str, ...] | None:
    """Where nothing is missing and nothing too many by rank, and no shape is found by numbers, the
    constraints without one of which there is one; else None, and where it takes too long."""
    free = freedoms(drawing)
    if free is None or free.lacks or free.excess:
        return None
    constraints, steps = drawing.constraints, Steps()
    try:
        if has_shape(drawing, constraints, steps):
            return None
        numbers = [number for number in range(1, len(constraints) + 1) if has_shape(
            drawing, constraints[:number - 1] + constraints[number:], steps)]
    except TooMany:
        return None
    return tuple(map(drawing.called, numbers))


def loose(names: Names) -> tuple[str, ...]:
    """What is lacking of single points, though the drawing is over."""
    free = freedoms(names.drawing)
    if free is None or len(names.spelled.points) < 3:
        return ()
    return tuple(each.text() for each in free.loose)


def _joint(names: Names, parts: tuple[Part, ...], pieces: tuple[Piece, ...], shown: list[int],
           place: int) -> Joint:
    mine = set(parts[place].elements)
    first = next((other for other in shown if other < place and mine & set(parts[other].elements)),
                 shown[0])
    shared = [name for name in parts[place].elements if name in parts[first].elements]
    tie, along = _loose(pieces[first], pieces[place]), None
    if shared:
        is_line = shared[0] in names.spelled.tracks
        tie, along = (Tie.SLIDE, names.line(shared[0])) if is_line else (Tie.HINGE, None)
    return Joint(pieces[first], pieces[place], tie, names.elements(shared), along)


def _loose(first: Piece, second: Piece) -> Tie:
    """What ties two clusters that share nothing. A single point or line can't turn, so it takes one
    dimension less than several; the auxiliary lines of a point don't count."""
    lone = sum(len(piece.elements) == 1 for piece in (first, second))
    return (Tie.LOOSE, Tie.LONE, Tie.LONE_PAIR)[lone]
