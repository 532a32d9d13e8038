"""The lines of each frame tied by angles."""
from __future__ import annotations

from cmath import rect
from fractions import Fraction
from functools import partial

from pertxogai.classes import Classes
from pertxogai.spelling.axes import Coordinate
from pertxogai.spelling.drafts import Draft, Owners, PointUm, said_by
from pertxogai.spelling.facts import Between, Knot, Line, Owner
from pertxogai.spelling.lean import Lean
from pertxogai.spelling.rails import Rail
from pertxogai.spelling.spelled import Track
from pertxogai.spelling.writer.layout import Layout


class Angles:
    """Ties the lines of a layout, with lines of help where that takes some."""

    def __init__(self, layout: Layout) -> None:
        self.layout = layout

    def write(self, tracks: list[Track]) -> None:
        """Ties the lines of each frame by angles."""
        mine: dict[int, list[Track]] = {}
        for track in tracks:
            mine.setdefault(self.layout.frame(track).number, []).append(track)
        for number in sorted(mine):
            self._tie(mine[number])

    def _tie(self, tracks: list[Track]) -> None:
        """Ties the lines of one frame."""
        leans = list(map(self.layout.lean, tracks))
        base, tied = tracks[0], self._tied_classes(tracks)
        other = next((each for each, lean in zip(tracks, leans) if lean != leans[0]), None)
        if other is not None and not tied.are_one(other, base):
            self._tie_to(tied, base, other)
        for track, lean in zip(tracks, leans):
            if tied.are_one(track, base):
                continue
            if lean != leans[0]:
                self._tie_to(tied, base, track)
            elif other is not None:
                self._tie_to(tied, other, track)
            else:
                self._square_help(base, track)

    def _tied_classes(self, tracks: list[Track]) -> Classes[Track]:
        """The tracks in classes: those of which the directions follow from others, and those of
        which they are told of each other, which are tied by these."""
        tied: Classes[Track] = Classes()
        for track in tracks:
            if track in self.layout.axes.facts.implied:
                tied.join(tracks[0], track)
        for first, second, lean, owner in self._near_ties(tracks):
            if tied.join(first, second):
                self._angle(first, second, lean, said_by({owner}))
        return tied

    def _tie_to(self, tied: Classes[Track], base: Track, track: Track) -> None:
        """Ties a line to another by their angle."""
        layout = self.layout
        tied.join(base, track)
        self._angle(base, track, layout.lean(track) - layout.lean(base),
                    partial(layout.direction_owners, base, track))

    def _near_ties(self, tracks: list[Track]) -> list[tuple[Track, Track, Lean, Owner]]:
        """The angles that are told against the line that the designer names, or of which a normal
        is one."""
        layout, is_near = self.layout, self.layout.style.near()
        found = []
        for leans in layout.axes.directions.joined:
            if leans.lean.level() or not (is_near or isinstance(leans.second, Between)):
                continue
            first, second = self._track_of(leans.first), self._track_of(leans.second)
            if not (is_near or isinstance(second, Between)):
                continue
            if first in tracks and second in tracks:
                assert first is not None and second is not None
                found.append((first, second, leans.lean, leans.owner))
        return found

    def _track_of(self, line: Line) -> Track | None:
        """The track that stands for a line."""
        layout = self.layout
        upwards = layout.axes.fixed_axis(line)
        if upwards is None:
            return line
        knot = layout.axes.lines.members(line)[0].knot
        return layout.rails.rail(Coordinate(layout.axes.frame(line).number, upwards, knot))

    def _angle(self, first: Track, second: Track, lean: Lean, by: Owners) -> None:
        """Says how one track leans against another; by two angles and a line of help between, where
        that is asked for and it is no ratio."""
        def said() -> frozenset[Owner]:
            return by() - {Owner(0)}

        layout = self.layout
        names = layout.names[first], layout.names[second]
        halves = lean.halves(layout.care.within) if layout.care.fine else None
        if halves is None:
            layout.sheet.drafts.append(
                Draft(*names, said, ratio=lean.ratio(), is_near=not lean.exact()))
            return
        between = self._free_name(f"H{names[1]}")
        knot = self._point_between(names, second)
        x, y = layout.ways[knot]
        a, b = self._way_between(names, halves)
        layout.sheet.lines[between] = ((x, y), (x + a, y + b))
        layout.say(layout.points[knot], between, said)
        layout.sheet.drafts.append(Draft(names[0], between, said, ratio=halves[0].ratio()))
        layout.sheet.drafts.append(Draft(between, names[1], said, ratio=halves[1].ratio()))

    def _way_between(self, names: tuple[str, str], halves: tuple[Lean, Lean]) -> PointUm:
        """How the line of help between two lines is drawn, as long as the second: half-way between
        where each of them has it. Drawn by one alone, and rounded, it could turn the other over
        where that is drawn square to what is told."""
        one, other = (self._drawn_way(name) for name in names)
        length = abs(other) or abs(one)
        one = _of_length_one(one) * rect(1, halves[0].radians())
        other = _of_length_one(other) * rect(1, -halves[1].radians())
        both = one + other if (one * other.conjugate()).real >= 0 else one - other
        way = _of_length_one(both) * length
        return Fraction(way.real), Fraction(way.imag)

    def _drawn_way(self, name: str) -> complex:
        """From the first place of a line to its second, as it is drawn: nowhere where points that
        are one are drawn in one place."""
        (x, y), (u, v) = self.layout.sheet.lines[name]
        return complex(u - x, v - y)

    def _free_name(self, name: str) -> str:
        """A name of a line of help that no other has: two angles may lead to one line."""
        lines = self.layout.sheet.lines
        return name if name not in lines else self._free_name(f"H{name}")

    def _point_between(self, names: tuple[str, str], second: Track) -> Knot:
        """The point through which the line of help between two tracks runs."""
        layout = self.layout
        knot = layout.care.through.get(names)
        if knot is None:
            return layout.a_point_of(second)
        layout.points.setdefault(knot, "O")
        return knot

    def _square_help(self, base: Track, track: Track) -> None:
        """A line of help, square to two parallels, through a point of the first that has one."""
        layout = self.layout
        first, second = (base, track) if self._has_point(base) else (track, base)
        name = self._help(first)
        layout.sheet.drafts.append(Draft(name, layout.names[second], partial(
            layout.direction_owners, base, track), ratio=(1, 0)))

    def _has_point(self, track: Track) -> bool:
        """Whether a point of the sketch lies by a track: by the datum's there may be none."""
        layout = self.layout
        return not isinstance(track, Rail) or any(each.knot in layout.points
                                                  for each in layout.rails.members[track])

    def _help(self, base: Track) -> str:
        """The line of help that is square to a track, written where it isn't yet."""
        layout = self.layout
        name = f"N{layout.names[base]}"
        if name not in layout.sheet.lines:
            (x, y), (u, v) = layout.sheet.lines[layout.names[base]]
            knot = layout.a_point_of(base)
            x, y, a, b = *layout.ways[knot], u - x, v - y
            layout.sheet.lines[name] = ((x, y), (x - b, y + a))
            said = partial(layout.direction_owners, base, base)
            layout.say(layout.points[knot], name, said)
            layout.sheet.drafts.append(Draft(layout.names[base], name, said, ratio=(1, 0)))
        return name


def _of_length_one(way: complex) -> complex:
    """A direction of length 1; none stays none."""
    return way / abs(way) if way else way
