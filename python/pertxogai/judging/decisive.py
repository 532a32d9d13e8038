"""Which constraints of a drawing decide, by rank, how some of its points and segments lie to each
other."""
from __future__ import annotations

from collections.abc import Iterator, Mapping, Sequence
from decimal import Decimal, localcontext
from fractions import Fraction
from itertools import combinations

from pertxogai.cached import cached_on
from pertxogai.drawing import (
    AngleBetween, Constraint, Diameter, Distance, Drawing, Horizontal, Length, Parallel,
    Perpendicular, PointLineDistance, PointRef, Radius, ShapeRef, Vertical)
from pertxogai.drawing.places import UM_PER_MM
from pertxogai.judging.equations import Plane
from pertxogai.judging.freedoms import NONE, SOME, Freedoms, freedoms
from pertxogai.judging.jets import EXACT, Jet, Rows, TooMany, unit_row
from pertxogai.spelling.facts import Owner

DIRECTIONS = Horizontal, Vertical, Parallel, Perpendicular, AngleBetween
"""What gives how lines run. The encoding takes some of these for granted."""
SIZES = Length, Radius, Diameter
"""What gives a length or a radius."""
MOST_TRIED = 1000
"""The most constraints of the drawings of which each lacks one."""
Element = PointRef | ShapeRef
Owners = frozenset[Owner]


def decisive(drawing: Drawing, elements: Sequence[Element], used: Owners) -> Owners:
    """Which constraints decide how points and segments lie to each other: how far apart each two
    are, or at which angle. used: those that a construction uses. Left out of these are those
    without which by rank the rest of the drawing fixes all that; between points the directions are
    added without which it doesn't. Where that isn't known, they are `used`: something is redundant
    by rank, or it would take too long."""
    known, asked = _known(drawing), (tuple(elements), used)
    if asked not in known:
        known[asked] = _decisive(drawing, elements, used)
    return known[asked]


@cached_on
def _known(drawing: Drawing) -> dict[tuple[tuple[Element, ...], Owners], Owners]:
    """What was asked of a drawing already: a range asks the same of it again and again."""
    return {}


def _decisive(drawing: Drawing, elements: Sequence[Element], used: Owners) -> Owners:
    told = tuple(_relations(elements))
    deciding = _taking_part(drawing, told)
    if deciding is None:
        return used
    asked = used | _directions(drawing, elements) | _sizes(drawing, deciding)
    unsure = frozenset(each for each in asked - deciding if each.number and not each.shape)
    idle = _idle(drawing, told, unsure)
    return asked - (unsure - used if idle is None else idle)


def _directions(drawing: Drawing, elements: Sequence[Element]) -> Owners:
    """The directions of a drawing; none where a line is among the elements, since that may stand
    for another one on which it lies."""
    if not all(isinstance(each, PointRef) for each in elements):
        return frozenset()
    return frozenset(Owner(number) for number, each in enumerate(drawing.constraints, 1)
                     if isinstance(each, DIRECTIONS))


def _sizes(drawing: Drawing, owners: Owners) -> Owners:
    """Those of some constraints that give a length or a radius: a construction uses what they give
    through others, as half of a length by a midpoint."""
    return frozenset(each for each in owners if each.number and not each.shape
                     and isinstance(drawing.constraints[each.number - 1], SIZES))


def _idle(drawing: Drawing, told: Sequence[Constraint], unsure: Owners) -> Owners | None:
    """Those without which the relations are fixed, of constraints that take no part to the first
    order: a chain that is straight keeps its length so, and yet bends without what makes it
    straight. None where that isn't known."""
    if not unsure or _are_fixed(told, _without(drawing, unsure)):
        return unsure
    if len(unsure) * len(drawing.constraints) > MOST_TRIED:
        return None
    idle = frozenset(each for each in unsure
                     if _are_fixed(told, _without(drawing, frozenset({each}))))
    return idle if _are_fixed(told, _without(drawing, idle)) else None


def _relations(elements: Sequence[Element]) -> Iterator[Constraint]:
    """What says how each two lie to each other. Of two lines it is the angle: of its sine and its
    cosine one at least changes with it."""
    for first, second in combinations(elements, 2):
        if isinstance(first, PointRef) and isinstance(second, PointRef):
            yield Distance(first, second, Fraction(UM_PER_MM))
        elif isinstance(first, PointRef) and isinstance(second, ShapeRef):
            yield PointLineDistance(first, second, Fraction(UM_PER_MM))
        elif isinstance(first, ShapeRef) and isinstance(second, PointRef):
            yield PointLineDistance(second, first, Fraction(UM_PER_MM))
        elif isinstance(first, ShapeRef) and isinstance(second, ShapeRef):
            yield Parallel(first, second)
            yield Perpendicular(first, second)


def _taking_part(drawing: Drawing, told: Sequence[Constraint]) -> Owners | None:
    """Who asks the equations of which the relations are sums, to the first order; None where the
    equations don't fix these, or fix them in several ways, and where the rank isn't known."""
    free = freedoms(drawing)
    if free is None or free.excess:
        return None
    try:
        with localcontext(EXACT):
            return _owners(free, told)
    except (TooMany, ArithmeticError):
        return None


def _owners(free: Freedoms, told: Sequence[Constraint]) -> Owners | None:
    rows, found = _rows(free.plane), set[Owner]()
    for row in _asked(free.plane, told):
        rest = rows.reduced(row)
        if any(key >= 0 and abs(value) > NONE for key, value in rest.items()):
            return None
        found.update(free.owners[-1 - key] for key, value in rest.items()
                     if key < 0 and abs(value) > SOME)
    return frozenset(found)


def _are_fixed(told: Sequence[Constraint], drawing: Drawing) -> bool:
    """Whether the equations of a drawing fix the relations, by the rank at a place of its own."""
    free = freedoms(drawing)
    if free is None:
        return False
    try:
        with localcontext(EXACT):
            return _owners(free, told) is not None
    except (TooMany, ArithmeticError):
        return False


def _rows(plane: Plane[Decimal]) -> Rows[Decimal]:
    """The equations of a drawing in steps, each marked by its place."""
    rows = Rows[Decimal](NONE)
    for place, (_, jet) in enumerate(plane.all()):
        row = unit_row(jet.slope)
        if row is not None:
            rows.add({**row, -1 - place: Decimal(1)})
    return rows


def _asked(plane: Plane[Decimal], told: Sequence[Constraint]) -> Iterator[Mapping[int, Decimal]]:
    """The rows of the relations."""
    jets: Iterator[Jet[Decimal]] = (jet for each in told for jet in plane.asked(each))
    yield from filter(None, (unit_row(jet.slope) for jet in jets))


def _without(drawing: Drawing, gone: Owners) -> Drawing:
    numbers = {each.number for each in gone}
    return Drawing(drawing.geometry, tuple(
        each for number, each in enumerate(drawing.constraints, 1) if number not in numbers))
