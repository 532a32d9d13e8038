"""The readings of a drawing's words, and how the drawing is spelled by each."""
from __future__ import annotations

from collections.abc import Iterator, Sequence
from dataclasses import dataclass, replace

from pertxogai.drawing import Drawing
from pertxogai.spelling.axes import Axes
from pertxogai.spelling.crossings import with_crossings
from pertxogai.spelling.facts import Facts
from pertxogai.spelling.half_arcs import with_half_arcs
from pertxogai.spelling.interpretation import Interpretation
from pertxogai.spelling.lowering import lowered
from pertxogai.spelling.middles import with_ways
from pertxogai.spelling.polygons import with_polygons
from pertxogai.spelling.rails import Rails
from pertxogai.spelling.settling import settled_axes
from pertxogai.spelling.slots import with_slots
from pertxogai.spelling.spelled import Spelled
from pertxogai.spelling.style import Style
from pertxogai.spelling.writing import written


def spell(drawing: Drawing, style: Style) -> Spelled:
    """The drawing in the sketch language, in one style, without what is known only from placed
    clusters."""
    axes = axes_of(drawing)
    return written(axes, Rails(axes, style), style)


@dataclass(frozen=True)
class Reading:
    """How a drawing's words are interpreted. slots: distances between centres along a line are
    given for radii. middles: regular polygons are given by the midpoints of opposite corners. ways:
    a midpoint of two points is given along the line through them."""

    slots: bool = True
    middles: bool = False
    ways: bool = False


READINGS = (Reading(), Reading(middles=True), Reading(slots=False), Reading(ways=True))
"""The readings in the order in which they are tried."""


def axes_of(drawing: Drawing, reading: Reading = READINGS[0]) -> Axes:
    """What a drawing says about x and y."""
    return Interpretation.of(_read(lowered(drawing), reading)).axes


def interpreted(drawing: Drawing, reading: Reading,
                known: Interpretation | None = None) -> Interpretation:
    """How a drawing is spelled by one reading. known: how one with other dimensions is, of which is
    taken over what is the same."""
    facts = _read(lowered(drawing), reading)
    return Interpretation.of(facts) if known is None else known.revalued(facts)


def axes_said(drawing: Drawing) -> Axes:
    """What a drawing says about x and y, before a reading interprets some of it in another way."""
    return settled_axes(_with_meetings(lowered(drawing)))


def _with_meetings(heard: Facts) -> Facts:
    """The facts, with the points that lie in crossings, and without what arcs say twice."""
    return with_half_arcs(with_crossings(replace(heard, own=dict(heard.own))))


def readings(drawing: Drawing) -> Iterator[Interpretation]:
    """The interpretations of a drawing: one for each reading that differs from those before."""
    return interpretations(lowered(drawing))


def interpretations(heard: Facts, known: Sequence[Interpretation] = ()) -> Iterator[Interpretation]:
    """How the facts of a drawing are spelled by each reading that takes them otherwise than those
    before. known: how those of another drawing are, of which is taken over what is the same."""
    seen: list[Facts] = []
    for reading in READINGS:
        facts = _read(heard, reading)
        if facts not in seen:
            seen.append(facts)
            redrawn = (each.redrawn(facts) for each in known)
            found = next((each for each in redrawn if each), None)
            yield found or _revalued(facts, known)


def _revalued(facts: Facts, known: Sequence[Interpretation]) -> Interpretation:
    """How facts are spelled, by known ones that differ by the numbers of lengths alone, if any."""
    found = next((each for each in known if each.said.says_but_for_lengths(facts)), None)
    return Interpretation.of(facts) if found is None else found.revalued(facts)


def _read(heard: Facts, reading: Reading) -> Facts:
    """The facts as a reading takes them."""
    facts = with_polygons(_with_meetings(heard), reading.middles)
    if reading.ways:
        facts = with_ways(facts)
    return with_slots(facts) if reading.slots else facts
