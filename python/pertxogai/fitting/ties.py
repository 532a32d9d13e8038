"""What ties the lines of a sketch where they lean otherwise than the drawing says."""
from __future__ import annotations

from collections.abc import Mapping, Sequence
from dataclasses import dataclass
from fractions import Fraction
from functools import lru_cache

from pertxogai.language import Angle, Constraint, On
from pertxogai.language.numbers import nearest_whole
from pertxogai.spelling import Axes, Care, Rails, Style
from pertxogai.spelling.drafts import Draft, Owners, PointUm, line_between
from pertxogai.spelling.facts import Line
from pertxogai.spelling.lean import Lean
from pertxogai.spelling.linear import small
from pertxogai.spelling.rails import Rail
from pertxogai.spelling.spelled import Track
from pertxogai.spelling.writer.angles import Angles
from pertxogai.spelling.writer.layout import Layout
from pertxogai.spelling.writer.tracks import Tracks

Leans = Mapping[Line, Lean]
"""How each line leans against the first axis of its frame."""
Lines = Mapping[str, tuple[PointUm, PointUm]]
"""Where each line is drawn, by its name."""


@dataclass(frozen=True)
class Tied:
    """The lines of help and the constraints that tie the lines of a sketch."""

    helps: Lines
    drafts: Sequence[Draft]

    @property
    def is_near(self) -> bool:
        """Whether an angle is told by a ratio next to it."""
        return any(each.is_near for each in self.drafts)

    def element_lines(self, scale: int) -> list[str]:
        """The lines of help in the language, so many times larger."""
        return [_element_line(name, ends, scale) for name, ends in self.helps.items()]

    def constraints(self) -> list[Constraint]:
        """The constraints in the language: angles, and points on lines of help."""
        return [_constraint(each.first, each.second, each.ratio) for each in self.drafts]

    def constraint_lines(self) -> list[str]:
        """Their lines."""
        return [_constraint_line(each.first, each.second, each.ratio) for each in self.drafts]


@lru_cache(maxsize=4096)
def _element_line(name: str, ends: tuple[PointUm, PointUm], scale: int) -> str:
    return line_between(name, ends, scale).text()


@lru_cache(maxsize=4096)
def _constraint_line(first: str, second: str, ratio: tuple[int, int] | None) -> str:
    return _constraint(first, second, ratio).text()


def _constraint(first: str, second: str, ratio: tuple[int, int] | None) -> Constraint:
    return On(first, second) if ratio is None else Angle(first, second, *ratio)


class Leaning(Layout):
    """A layout with its tracks named and drawn, before they are tied. leans: of the lines that lean
    otherwise than the drawing says."""

    def __init__(self, axes: Axes, rails: Rails, style: Style, care: Care) -> None:
        super().__init__(axes, rails, style, care)
        self.leans: Leans = {}
        self.tracks = Tracks(self).drawn()

    def leaning(self) -> list[Line]:
        """The tracks that are no rails, in order."""
        return [each for each in self.tracks if not isinstance(each, Rail)]

    def lean(self, track: Track) -> Lean:
        """How a track leans against the first axis of its frame."""
        known = None if isinstance(track, Rail) else self.leans.get(track)
        return known or super().lean(track)


class Ties(Angles):
    """Ties the lines of a layout by other leans, in a sketch that is so many times as large as the
    drawing. What ties two lines by one angle is kept. drawn: the lines before they are tied."""

    def __init__(self, layout: Leaning, scale: int, drawn: Lines) -> None:
        super().__init__(layout)
        self._leaning, self._scale, self._drawn = layout, scale, drawn
        self._known: dict[tuple[str, str, Lean], Tied] = {}

    def scaled(self, scale: int) -> Ties:
        """The same in a sketch of another scale."""
        return Ties(self._leaning, scale, self._drawn)

    def written(self, leans: Leans) -> Tied:
        """What ties the lines where they lean so."""
        layout, sheet = self._leaning, self._leaning.sheet
        layout.leans, sheet.drafts, sheet.lines = leans, [], dict(self._drawn)
        self.write(layout.tracks)
        return Tied({name: ends for name, ends in sheet.lines.items()
                     if name not in self._drawn}, sheet.drafts)

    def _angle(self, first: Track, second: Track, lean: Lean, by: Owners) -> None:
        sheet, names = self.layout.sheet, self.layout.names
        key = names[first], names[second], lean
        known = self._known.get(key)
        if known is not None and sheet.lines.keys().isdisjoint(known.helps):
            sheet.lines.update(known.helps)
            sheet.drafts += known.drafts
            return
        lines, drafts = set(sheet.lines), len(sheet.drafts)
        super()._angle(first, second, lean, by)
        helps = {name: (self._rounded(start), self._rounded(end))
                 for name, (start, end) in sheet.lines.items() if name not in lines}
        sheet.lines.update(helps)
        self._known[key] = Tied(helps, sheet.drafts[drafts:])

    def _rounded(self, spot: PointUm) -> PointUm:
        """A place as the sketch tells it, with small denominators."""
        x, y = (nearest_whole(each * self._scale) for each in spot)
        return small(Fraction(x, self._scale)), small(Fraction(y, self._scale))
