"""How the lines of a drawing's own sketch lean with angles off, and are tied there: as the encoding
ties them, so that the drawing isn't encoded anew for each set of angles."""
from __future__ import annotations

from collections.abc import Mapping, Sequence
from dataclasses import dataclass, field, replace
from fractions import Fraction
from functools import cached_property
from math import cos, pi

from pertxogai.fitting.affine import Affine, Affines, Probe
from pertxogai.fitting.encoding import Encoding, Offs
from pertxogai.fitting.ties import Leaning, Leans, Tied, Ties
from pertxogai.language import Point, Sketch
from pertxogai.spelling import Care, Spelled
from pertxogai.spelling.facts import Line
from pertxogai.spelling.lean import Lean
from pertxogai.spelling.rails import Rail
from pertxogai.spelling.spelled import Heading, Track

HALF_TURN = 180
MOST_KEPT = 64
"""The lines of a sketch are kept as they lean with this number of sets of angles off at most: cases
with the same angles off are asked for one after the other."""


@dataclass(frozen=True)
class Turned:
    """The lines of a sketch as they lean with angles off, and what ties them there. spelled: the
    sketch itself."""

    spelled: Spelled
    leans: Leans
    tied: Tied

    @cached_property
    def headings(self) -> tuple[Heading, ...]:
        """Which way the lines run: each as it does in the sketch itself, but for the turn."""
        spelled = self.spelled
        return tuple(self._heading(each, spelled.tracks[each.name]) for each in spelled.headings)

    @cached_property
    def element_lines(self) -> list[str]:
        """The lines of help in the language."""
        return self.tied.element_lines(self.spelled.scale)

    @cached_property
    def constraint_lines(self) -> list[str]:
        """What ties the lines, in the language."""
        return self.tied.constraint_lines()

    def _heading(self, heading: Heading, track: Track | None) -> Heading:
        lean = None if track is None or isinstance(track, Rail) else self.leans.get(track)
        if lean is None:
            return heading
        turn = lean.radians()
        ahead = cos(turn - heading.radians) >= 0
        return heading._replace(radians=turn if ahead else turn + pi)


@dataclass(frozen=True)
class Turning:
    """How the lines of a sketch are tied with angles off. leans: of its lines that are no rails.
    slopes: by how many degrees each of these turns. itself: what ties them with nothing off.
    before: the number of elements before the lines of help."""

    spelled: Spelled
    ties: Ties
    leans: Leans
    slopes: Mapping[Line, Affine]
    itself: Tied
    before: int
    _kept: dict[tuple[Fraction, ...], Turned | None] = field(
        default_factory=dict, init=False, repr=False, compare=False)
    """How the lines lean, by the degrees by which each of them turns."""

    @staticmethod
    def of(here: Encoding, there: Encoding, care: Care, probe: Probe) -> Turning | None:
        """That of a sketch. there: how it is encoded with the offs of the probe. None where a line
        doesn't turn evenly, or where the sketch isn't tied so."""
        layout, spelled = Leaning(here.axes, here.rails, here.spelled.style, care), here.spelled
        lines = layout.leaning()
        if lines != Leaning(there.axes, there.rails, spelled.style, care).leaning():
            return None
        slopes = {line: _slope(here.axes.lean(line), there.axes.lean(line), probe)
                  for line in lines}
        known = {line: slope for line, slope in slopes.items() if slope is not None}
        if len(known) < len(slopes):
            return None
        ties = Ties(layout, spelled.scale, dict(layout.sheet.lines))
        leans = {line: here.axes.lean(line) for line in lines}
        points = sum(isinstance(each, Point) for each in spelled.sketch.elements)
        before = points + len(layout.names)
        found = Turning(spelled, ties, leans, known, ties.written(leans), before)
        return found if found._cut(spelled, found.itself) is not None else None

    def scaled(self, spelled: Spelled) -> Turning:
        """The same of the same sketch at another scale."""
        ties = self.ties.scaled(spelled.scale)
        return replace(self, spelled=spelled, ties=ties, itself=ties.written(self.leans))

    def turned(self, offs: Offs) -> Turned | None:
        """How the lines lean and are tied with these dimensions off; None where one becomes level
        or upright, which is another sketch."""
        turns = self._turns.values(offs)
        degrees = tuple(turns.values())
        if degrees not in self._kept:
            if len(self._kept) >= MOST_KEPT:
                self._kept.clear()
            self._kept[degrees] = self._turned_by(turns)
        return self._kept[degrees]

    @cached_property
    def _turns(self) -> Affines[Line]:
        return Affines(self.slopes)

    def _turned_by(self, turns: Mapping[Line, Fraction]) -> Turned | None:
        """The same, by the degrees by which each line turns."""
        leans = {track: self.leans[track].turned(degrees) for track, degrees in turns.items()}
        if any(lean.level() or lean.upright() for lean in leans.values()):
            return None
        return Turned(self.spelled, leans, self.ties.written(leans))

    def lines(self, lines: Sequence[str], turned: Turned) -> list[str]:
        """The lines of the sketch's text with its lines tied otherwise."""
        before, first = 1 + self.before, 1 + len(self.spelled.sketch.elements)
        return [*lines[:before], *turned.element_lines,
                *lines[before + len(self.itself.helps):first], *turned.constraint_lines,
                *lines[first + len(self.itself.drafts):]]

    def back(self, there: Spelled, offs: Offs) -> Spelled | None:
        """A sketch with these dimensions off, its lines tied as those of the sketch itself; None
        where they aren't tied as by `turned`."""
        turned = self.turned(offs)
        rest = None if turned is None else self._cut(there, turned.tied)
        if turned is None or rest is None:
            return None
        helps, drafts = len(self.itself.helps), len(self.itself.drafts)
        known = self.spelled.sketch
        elements = (*rest.elements[:self.before],
                    *known.elements[self.before:self.before + helps], *rest.elements[self.before:])
        constraints = (*known.constraints[:drafts], *rest.constraints)
        names = {name: there.tracks.get(name) for name in self.spelled.tracks}
        more = drafts - len(turned.tied.drafts)
        return replace(there, sketch=replace(rest, elements=elements, constraints=constraints),
                       tracks=names, rounded=tuple(each._replace(number=each.number + more)
                                                   for each in there.rounded))

    def _cut(self, spelled: Spelled, tied: Tied) -> Sketch | None:
        """A sketch without what ties its lines; None where that is something else."""
        elements, constraints = spelled.sketch.elements, spelled.sketch.constraints
        after, drafts = self.before + len(tied.helps), len(tied.drafts)
        if (tuple(each.name for each in elements[self.before:after]) != tuple(tied.helps)
                or list(constraints[:drafts]) != tied.constraints()):
            return None
        return replace(spelled.sketch, elements=elements[:self.before] + elements[after:],
                       constraints=constraints[drafts:])


def _slope(here: Lean, there: Lean, probe: Probe) -> Affine | None:
    """By how many degrees a line turns; None where it doesn't turn evenly."""
    turn = -here + there
    if turn.left:
        return None
    degrees = turn.degrees - HALF_TURN if 2 * turn.degrees > HALF_TURN else turn.degrees
    return probe.affine(Fraction(0), degrees)
