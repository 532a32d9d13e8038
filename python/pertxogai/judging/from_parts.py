"""Values that follow from what the program has placed: a length equal to one of a part that
stands, a half mirrored from the other. The program places the parts; what is read off them is told
as the length that it is. """
from __future__ import annotations

from collections.abc import Iterator
from dataclasses import dataclass
from fractions import Fraction
from math import atan2, cos, pi, sin

from pertxogai.exact import Vector, between, root, square
from pertxogai.judging.mirror_images import with_image_across
from pertxogai.judging.printed import PrintedPlaces, along
from pertxogai.program.reports import PartsReport, Solved
from pertxogai.spelling.axes import Axes, Equation
from pertxogai.spelling.facts import DATUM, Knot, Line
from pertxogai.spelling.linear import Form, LinearSystem, Number
from pertxogai.spelling.rails import Rail, Rails, Size, Span
from pertxogai.spelling.settling import with_equation
from pertxogai.spelling.writing import Spelled


@dataclass(frozen=True)
class Grown:
    """Axes in which one more thing is a value, and the value, in micrometres."""

    axes: Axes
    equation: Equation


def growths(axes: Axes, rails: Rails, spelled: Spelled, report: PartsReport) -> Iterator[Grown]:
    """Each thing that becomes a value by the placed parts. Where several facts say as much of one
    thing, each is read as the one that tells it, in turn."""
    known = LinearSystem()
    for number, form in enumerate(forms_of_parts(rails, spelled, report)):
        known.add(form, number)
    for pending in rails.pending:
        rest = known.reduced(pending.form)
        if rest.terms != pending.form.terms and _fixes_one(rest):
            equation = Equation(rails.unfold(rest), axes.equations[pending.number].owners)
            yield Grown(with_equation(axes, pending.number, equation), equation)
    for fact in axes.loose:
        if rails.number(fact.value) is None:
            rest = known.reduced(rails.symbols(fact.value) - Form.of(Span(*fact.ends())))
            if len(rest.terms) == 1 and isinstance(next(iter(rest.terms)), Size):
                equation = Equation(rails.unfold(rest), frozenset({fact.owner}))
                across = with_image_across(axes, spelled, report, fact)
                yield Grown(with_equation(across, None, equation, fact), equation)


def _fixes_one(form: Form) -> bool:
    """Whether an equation fixes one size, one rail from the datum, or one rail from another."""
    keys = list(form.terms)
    rails = [key for key in keys if isinstance(key, Rail)]
    if len(keys) == 1:
        return not rails or rails[0].frame == DATUM
    axes = {(rail.frame, rail.upwards) for rail in rails}
    return len(keys) == len(rails) == 2 and len(axes) == 1 and not sum(form.terms.values())


def forms_of_parts(rails: Rails, spelled: Spelled, report: PartsReport) -> Iterator[Form]:
    """What the placed parts tell of rails and untold distances, as forms that are 0."""
    for part in report.parts:
        if isinstance(part.shape, Solved) and len(part.part.elements) > 1:
            plate = PrintedPlaces.of(part.shape.places, spelled.scale)
            for frame in rails.axes.frames:
                yield from _coordinates(rails, spelled, plate, frame.number)
            yield from _spans(rails, spelled, plate)


def _coordinates(rails: Rails, spelled: Spelled, plate: PrintedPlaces,
                 frame: int) -> Iterator[Form]:
    """How far the rails of a frame are apart in a part."""
    axis = plate.axis(spelled.headings, frame)
    if axis is None and len(plate.points) > 1:
        axis = _axis_by_points(rails, spelled, plate, frame)
    if axis is None:
        return
    for upwards in (False, True):
        found = list(_along(rails, spelled, plate, axis, frame, upwards))
        for form, place in found[1:]:
            yield form - found[0][0] - Form(number=place - found[0][1])


def _axis_by_points(rails: Rails, spelled: Spelled, plate: PrintedPlaces,
                    frame: int) -> Vector | None:
    """The direction of a frame's first axis by two points of a line of it that isn't in the part
    itself; None where there are none."""
    axes, spots = rails.axes, plate.points
    for line in axes.lines.all():
        if axes.frame(line).number != frame:
            continue
        names = [(each.knot, name) for each in axes.lines.members(line)
                 if (name := spelled.points.get(each.knot, "")) in spots]
        if len(names) >= 2:
            (first, one), (second, other) = names[0], names[-1]
            way = between(spots[one], spots[other])
            if any(way):
                drawn = between(axes.facts.drawn[first], axes.facts.drawn[second])
                return _first_axis(way, axes, line, drawn)
    return None


def _first_axis(way: Vector, axes: Axes, line: Line, drawn: Vector) -> Vector:
    """The first axis of a line's frame where a way along the line runs so, which is drawn in
    another direction."""
    a, b = axes.frame(line).way
    turn = axes.lean(line).radians()
    if cos(turn - atan2(float(drawn[1]), float(drawn[0])) + atan2(float(b), float(a))) < 0:
        turn += pi
    c, s = (Fraction(round(each)) if abs(each - round(each)) < 1e-12 else Fraction(each)
            for each in (cos(turn), sin(turn)))
    size = root(square(way))
    return (way[0] * c + way[1] * s) / size, (way[1] * c - way[0] * s) / size


def _along(rails: Rails, spelled: Spelled, plate: PrintedPlaces, axis: Vector,
           frame: int, upwards: bool) -> Iterator[tuple[Form, Number]]:
    """Each rail and coordinate of a part, in rails, and its place along an axis."""
    for heading in spelled.headings:
        rail = heading.rail
        if rail is None or heading.name not in plate.lines:
            continue
        if (rail.frame, rail.upwards) == (frame, upwards):
            form = Form(number=heading.at_um) + (Form() if rail.datum() else Form.of(rail))
            yield form, along(axis, upwards, plate.foot(heading.name))
    for rail, members in rails.members.items():
        if (rail.frame, rail.upwards) != (frame, upwards):
            continue
        for coordinate in members:
            name = spelled.points.get(coordinate.knot)
            if name in plate.points:
                yield rails.symbols(Form.of(coordinate)), along(axis, upwards, plate.points[name])


def _spans(rails: Rails, spelled: Spelled, plate: PrintedPlaces) -> Iterator[Form]:
    """How far the two ends of an untold distance are apart in a part."""
    for fact in rails.axes.loose:
        if rails.number(fact.value) is not None:
            continue
        first, second = fact.ends()
        name = spelled.points[first]
        if isinstance(second, Knot):
            other = spelled.points[second]
            if name in plate.points and other in plate.points:
                yield Form({Span(first, second): 1},
                           -distance(plate.points[name], plate.points[other]))
        else:
            track = next((key for key, track in spelled.tracks.items()
                          if track == rails.axes.lines.leader(second)), None)
            if name in plate.points and track in plate.lines:
                yield Form({Span(first, second): 1}, -plate.height(track, name))


def distance(first: Vector, second: Vector) -> Fraction:
    """How far two places are apart."""
    return root(square(between(first, second)))

