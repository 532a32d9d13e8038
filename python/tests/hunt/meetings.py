"""Which points of a drawing are one by its words."""
from __future__ import annotations

from collections.abc import Iterator
from dataclasses import dataclass

from .reading import Sheet

ENDS = ("start", "end")


@dataclass(frozen=True)
class Meetings:
    """A drawing's points, and for each unknown the one that stands for all that are one with it."""

    sheet: Sheet
    leaders: dict[str, str]

    @staticmethod
    def of(sheet: Sheet) -> Meetings:
        """Those of a drawing."""
        leaders = {name: name for name in sheet.drawn}
        for first, second in _joined(sheet):
            one, other = _top(leaders, sheet.point(first)), _top(leaders, sheet.point(second))
            # The first that was drawn stands for both; the origin before all.
            order = list(leaders)
            low, high = sorted((one, other), key=order.index)
            leaders[high] = low
        return Meetings(sheet, {name: _top(leaders, name) for name in leaders})

    def leader(self, point: str) -> str:
        """The unknown that stands for a point."""
        return self.leaders[self.sheet.point(point)]

    def corner(self, first: str, second: str) -> tuple[str, str] | None:
        """An end of each of two shapes that are one point."""
        if {first, second} & {"XAxis", "YAxis"}:
            return None
        for one in ENDS:
            for other in ENDS:
                names = f"{first}.{one}", f"{second}.{other}"
                if all(name in self.sheet.unknown for name in names) and (
                        self.leader(names[0]) == self.leader(names[1])):
                    return names
        return None


def _joined(sheet: Sheet) -> Iterator[tuple[str, str]]:
    """The pairs of points that words make one."""
    for word in sheet.words:
        if word.kind in ("coincident", "concentric"):
            yield word.names[0], word.names[1]
        elif word.kind in ("tangent", "perpendicular") and "." in word.names[0]:
            yield word.names[0], word.names[1]


def _top(leaders: dict[str, str], name: str) -> str:
    while leaders[name] != name:
        name = leaders[name]
    return name
