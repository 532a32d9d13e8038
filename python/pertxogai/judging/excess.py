"""What is too much in a drawing that is over: the last of the dimensions that the others can do
without, as the program leaves them out, and how far each is off where it places the others."""
from __future__ import annotations

from collections.abc import Collection, Iterable, Iterator, Mapping, Sequence
from dataclasses import dataclass, replace
from enum import Enum
from fractions import Fraction

from pertxogai import language
from pertxogai.judging.measure.limit import MOST, Limit
from pertxogai.judging.naming import Names
from pertxogai.judging.own_lines import off_um
from pertxogai.judging.trials import PlaceBy, written_by
from pertxogai.program import Solver
from pertxogai.program.reports import Excessive, OverPart, read_excess
from pertxogai.spelling.facts import Owner

CHOICES = 4
"""The most further choices of what is left out that are tried, where the rest has no places."""


class Rest(Enum):
    """What the program says about the rest, without what is left out."""

    PLACED = "Without these the others can be placed:"
    NO_PLACES = "Without these the others are fully constrained, but can't be placed:"
    OVER = "Without these the others are still over-constrained:"


@dataclass(frozen=True)
class Excess:
    """A dimension that is left out, by its number and name. conflicts: whether it contradicts the
    others; otherwise it is redundant within the limit; None if that isn't measured. off_um: what
    the others give minus its value; None if the line that is left out isn't just this dimension.
    in_part: whether another line of this dimension is kept, so that it may be needed all the
    same."""

    number: int
    name: str
    conflicts: bool | None = None
    off_um: Fraction | None = None
    in_part: bool = False


@dataclass(frozen=True)
class TooMuch:
    """Everything that is left out of an over-constrained drawing, by the numbers of the dimensions,
    and what the rest is. helps: how many lines are left out that belong to no dimension."""

    dimensions: tuple[Excess, ...]
    rest: Rest = Rest.PLACED
    helps: int = 0


def too_much(names: Names, program: Solver, dispensable: Collection[int] = (),
             limit: Limit = Limit()) -> TooMuch:
    """What is left out of a drawing: the last dimensions without which the rest can be placed; if
    no such are found without more auxiliary lines, the last ones. dispensable: the numbers of the
    dimensions that may be removed each by itself, so that none is needed in part if it is the only
    one that is left out; several of them may not be removable together. A dimension whose deviation
    is within the limit is redundant. Raises ProgramError."""
    first = found = _choice(names, program, dispensable, frozenset(), limit)
    kept: frozenset[int] = frozenset()
    for _ in range(CHOICES):
        if found.rest is not Rest.NO_PLACES:
            break
        kept |= {each.number for each in found.dimensions if each.conflicts is None}
        found = _choice(names, program, dispensable, kept, limit)
    return found if found.rest is Rest.PLACED and found.helps <= first.helps else first


def _choice(names: Names, program: Solver, dispensable: Collection[int],
            kept: Collection[int], limit: Limit) -> TooMuch:
    """What is left out where the program is asked with the lines of the sketch in the order of the
    dimensions that say them, since it leaves out the last ones; with the lines of help, and those
    that are to be kept where they can be, first."""
    spelled = names.spelled
    said = [_said_by(owners) for owners in spelled.owners]
    order = sorted(range(len(said)),
                   key=lambda place: (said[place] not in {0, *kept}, said[place]))
    lines = tuple(spelled.sketch.constraints[place] for place in order)
    sketch = replace(spelled.sketch, constraints=lines)
    parts = _over_parts(sketch, min(MOST, limit.amount * spelled.scale), program)
    measured = _angles_by_their_limit(sketch, spelled.scale, _left_out(parts), program, limit)
    left = {order[each.number - 1]: each for each in measured}
    helps = sum(said[place] == 0 for place in left)
    found = tuple(_dimensions(names, left))
    if len(found) == 1 and found[0].number in dispensable:
        found = (replace(found[0], in_part=False),)
    return TooMuch(found, _rest(parts), helps)


def _dimensions(names: Names, left: Mapping[int, Excessive]) -> Iterator[Excess]:
    """The dimensions that say lines which are left out, these by their places in the sketch; of
    several lines of one the one that contradicts most is told."""
    owners = names.spelled.owners
    kept = [(line.names(), owners[place]) for place, line
            in enumerate(names.spelled.sketch.constraints) if place not in left]
    mine: dict[int, list[int]] = {}
    for place in left:
        mine.setdefault(_said_by(owners[place]), []).append(place)
    for number in sorted(mine.keys() - {0}):
        told = max((_excess(names, number, left[place], owners[place]) for place in mine[number]),
                   key=_weight)
        twice = {left[place].constraint.names() for place in mine[number]}
        in_part = any(Owner(number) in who and elements not in twice for elements, who in kept)
        yield replace(told, in_part=in_part)


def _said_by(owners: frozenset[Owner]) -> int:
    """The place of the last dimension that says a line; 0 where it is help, or the ends of an
    arc."""
    return max((owner.number for owner in owners if not owner.shape), default=0)


def _angles_by_their_limit(sketch: language.Sketch, scale: int, left: Sequence[Excessive],
                           program: Solver, limit: Limit) -> Sequence[Excessive]:
    """What is left out by the limit of lengths, which grows with the sketch, that is so many times
    as large as the drawing; the angles as the program measures them by their own."""
    if scale == 1 or not any(map(_is_angle, left)):
        return left
    strict = {each.number: each
              for each in _left_out(_over_parts(sketch, limit.amount, program))}
    return [strict[each.number] if _is_angle(each) else each for each in left]


def _is_angle(each: Excessive) -> bool:
    return isinstance(each.constraint, language.Angle)


def _left_out(parts: Iterable[OverPart]) -> list[Excessive]:
    return [each for part in parts for each in part.left_out]


def _over_parts(sketch: language.Sketch, limit: int, program: Solver) -> tuple[OverPart, ...]:
    """The parts that are over, as the program places the rest of each by boxes, or by points where
    it has no places so; by this limit of what is a repeat."""
    by_boxes = _ask(sketch, limit, program, PlaceBy.BOXES)
    if all(part.fault is None for part in by_boxes):
        return by_boxes
    by_points = {each.part.number: each for each in _ask(sketch, limit, program, PlaceBy.POINTS)}
    return tuple(by_points.get(each.part.number, each) if each.fault else each
                 for each in by_boxes)


def _ask(sketch: language.Sketch, limit: int, program: Solver,
         place: PlaceBy) -> tuple[OverPart, ...]:
    keys = f"within={limit}", f"place={place.value}"
    return read_excess(written_by(program, "excess", sketch.text(), *keys)).parts


def _rest(parts: Iterable[OverPart]) -> Rest:
    """What becomes of the others, by the part that fares worst."""
    found = {Rest.OVER if part.stays_over() else Rest.NO_PLACES if part.fault else Rest.PLACED
             for part in parts}
    return next((rest for rest in (Rest.OVER, Rest.NO_PLACES) if rest in found), Rest.PLACED)


def _weight(each: Excess) -> tuple[bool, Fraction]:
    """How much a dimension contradicts the others, in an order."""
    return bool(each.conflicts), abs(each.off_um or Fraction(0))


def _excess(names: Names, number: int, each: Excessive, owners: frozenset[Owner]) -> Excess:
    name, off = names.drawing.called(number), each.off
    if off is None or each.constraint.names() in names.spelled.unmeasured:
        return Excess(number, name)
    if not isinstance(each.constraint, language.Distance) or owners != {Owner(number)}:
        return Excess(number, name, off.conflicts)
    return Excess(number, name, off.conflicts,
                  off_um(names, number, each.constraint, off.amount))
