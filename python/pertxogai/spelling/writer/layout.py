"""What a sketch is laid out of while it is written: its points and lines by name, and where each is
drawn."""
from __future__ import annotations

from collections.abc import Collection
from fractions import Fraction
from math import atan2, cos, hypot, pi

from pertxogai.spelling.axes import Axes, Frame
from pertxogai.spelling.drafts import Draft, Owners, PointUm, Sheet
from pertxogai.spelling.facts import DATUM, ORIGIN_KNOT, Knot, Owner
from pertxogai.spelling.lean import SQUARE, Lean
from pertxogai.spelling.linear import Number
from pertxogai.spelling.rails import Rail, Rails, Run
from pertxogai.spelling.spelled import Behind, Care, Heading, Track
from pertxogai.spelling.style import Style

LEVEL = Lean()
REACH_UM = 100_000
"""How far a line is drawn from its first place to its second."""


class Layout:
    """A sheet with what its elements stand for.

    names: what the line of each track is called. points: the name of each knot's point. ways: where
    each knot is drawn in the sketch. bars: the rails that are told by a distance. crossed: those
    with a point on another side than it is drawn. behind: the lines of help behind a rail.
    left_out: who says something that isn't told. unmeasured: points of help between which a
    distance stands for what has no value."""

    def __init__(self, axes: Axes, rails: Rails, style: Style, care: Care) -> None:
        self.care = care
        self.axes = axes
        self.rails = rails
        self.style = style
        self.sheet = Sheet()
        self.names: dict[Track, str] = {}
        self.behind: dict[str, Behind] = {}
        self.points: dict[Knot, str] = {}
        self.ways: dict[Knot, PointUm] = dict(axes.facts.drawn)
        self.left_out: set[Owner] = set()
        self.bars: list[Rail] = []
        self.crossed: set[Track] = set()
        self.unmeasured: set[tuple[str, str]] = set()

    def heading(self, name: str, track: Track) -> Heading:
        """Which way the line of a track runs."""
        frame = self.frame(track)
        if isinstance(track, Rail):
            return Heading(name, frame.number, 0 if track.upwards else 1, 0.0, track,
                           self.rails.offset(track))
        turn = self.axes.lean(track).radians()
        a, b = self.axes.facts.direction(track)
        drawn = atan2(float(b), float(a)) - atan2(float(frame.way[1]), float(frame.way[0]))
        return Heading(name, frame.number, None, turn if cos(turn - drawn) >= 0 else turn + pi,
                       None, 0)

    def frame(self, track: Track) -> Frame:
        """The frame that a track belongs to."""
        return self.axes.frames[track.frame] if isinstance(track, Rail) else self.axes.frame(track)

    def lean(self, track: Track) -> Lean:
        """How a track leans against the first axis of its frame."""
        if isinstance(track, Rail):
            return LEVEL if track.upwards else SQUARE
        return self.axes.lean(track)

    def settle_ways(self, lines: Collection[str]) -> None:
        """Draws a point on the other side of its rail where the dimensions put it there: of the
        rails that are these lines, or none."""
        rails = [rail for rail, name in self.names.items() if name in lines]
        for rail in [*rails, *self.bars]:
            if isinstance(rail, Rail):
                self._settle_rail(rail)

    def settle_anew(self) -> None:
        """Draws the points again as they are drawn, but for the rails that are lines of the sketch.
        What is rigid without a rail is turned as a whole; a point that moved past others for it
        would turn it over."""
        settled, self.ways = self.ways, dict(self.axes.facts.drawn)
        self.settle_ways(self.sheet.lines)
        if self.ways != settled:
            for track, name in self.names.items():
                if name in self.sheet.lines:
                    self.draw(track)

    def _settle_rail(self, rail: Rail) -> None:
        (a, b), least, at = self.upright(rail), self.rails.offset(rail), self.rail_at(rail)
        for coordinate, offset in self.rails.members[rail].items():
            x, y = self.ways[coordinate.knot]
            height, off = offset - least, a * x + b * y - at
            if is_behind(off, height):
                self.crossed.add(rail)
                shift = height - off
                self.ways[coordinate.knot] = (x + a * shift, y + b * shift)

    def upright(self, rail: Rail) -> PointUm:
        """The direction of the axis along which heights over a rail are told."""
        a, b = unit(self.frame(rail).way)
        return (-b, a) if rail.upwards else (a, b)

    def height(self, rail: Rail, knot: Knot) -> Number:
        """How high over a rail a point is drawn."""
        (a, b), (x, y) = self.upright(rail), self.ways[knot]
        return a * x + b * y - self.rail_at(rail)

    def rail_at(self, rail: Rail) -> Number:
        """Where a rail is drawn, along the axis that it fixes."""
        if rail.datum():
            return 0
        offset = self.rails.offset(rail)
        knot = next(each.knot for each, value in self.rails.members[rail].items()
                    if value == offset)
        (a, b), (x, y) = self.upright(rail), self.axes.facts.drawn[knot]
        return a * x + b * y

    def draw(self, track: Track) -> None:
        """Draws the line of a track."""
        if not isinstance(track, Rail):
            first = self.axes.facts.own[track][0]
            x, y = self.ways[first]
            a, b = self.axes.facts.direction(track)
            self.sheet.lines[self.names[track]] = ((x, y), (x + a, y + b))
            return
        a, b = unit(self.frame(track).way)
        if not track.upwards:
            a, b = -b, a
        at = self.rail_at(track)
        x, y = (-b * at, a * at) if track.upwards else (b * at, -a * at)
        self.sheet.lines[self.names[track]] = ((x, y), (x + a * REACH_UM, y + b * REACH_UM))

    def say(self, first: str, second: str, said: Owners, value: Number | None = None) -> None:
        """Says that a point lies on a line, or so many micrometres from a line or a point."""
        self.sheet.drafts.append(Draft(first, second, said,
                                       max(value, -value) if value else None))

    def direction_owners(self, first: Track, second: Track) -> frozenset[Owner]:
        """Who says the directions of two tracks against each other."""
        found: set[Owner] = set()
        for track in (first, second):
            if not isinstance(track, Rail):
                found |= self.axes.directions.owners(self.frame(track).line, track)
            elif not track.datum():
                found |= self.rail_owners(track)
        return frozenset(found)

    def rail_owners(self, rail: Rail) -> frozenset[Owner]:
        """Who says that the points of a rail lie along it."""
        members = list(self.rails.members[rail])
        return frozenset(owner for each in members[1:]
                         for owner in self.rails.owners(members[0], each))

    def a_point_of(self, track: Track) -> Knot:
        """A point of a track; the origin, where it has no other: from then on that is a point of
        the sketch."""
        if isinstance(track, Rail):
            knots = [each.knot for each in self.rails.members[track]]
        else:
            knots = [each.knot for each in self.axes.lines.members(track)]
        knot = next((each for each in knots if each in self.points), ORIGIN_KNOT)
        self.points.setdefault(knot, "O")
        return knot

    def run_rails(self, run: Run) -> list[Rail]:
        """The rails whose lines a run needs: the one with more points, or both for feet."""
        rails = [rail for rail in map(self.rails.rail, (run.first, run.second))
                 if rail is not None]
        if self.style is Style.FEET:
            return rails
        return [max(rails, key=lambda rail: (rail.datum(), len(self.rails.members[rail])))]

    def datum_lines(self) -> set[Track]:
        """The two lines that tell the datum's directions, or as many as there are."""
        return {track for track in list(self.names)[:2] if self.frame(track).number == DATUM}


def is_behind(drawn: Number, height: Number) -> bool:
    """Whether a height is told on another side than the one on which a point is drawn; a point
    that is drawn on its line, within a micrometre, has neither side."""
    return bool(height) and (drawn if height > 0 else -drawn) < 1


def unit(way: PointUm) -> PointUm:
    """A drawn direction of length 1, near enough for a drawing; exact along the axes."""
    a, b = way
    if not a or not b:
        return (a > 0) - (a < 0), (b > 0) - (b < 0)
    size = hypot(float(a), float(b))
    return Fraction(float(a) / size), Fraction(float(b) / size)
