"""Ends that touch, told once.

SolveSpace says that two ends are one point, and beside it that their curves touch there. In a
drawing a touch at two ends says both, so one of the joints that lead from the one end to the
other is taken away: together they say the same as before. The touch is called by both names:
what is said of it, such as what the rest is without it, is said of both.
"""

from __future__ import annotations

from dataclasses import dataclass

from pertxogai.drawing import Coincident, Constraint, Pair, PointRef, ShapeRef, Tangent
from pertxogai.files.contents import NotSayable
from pertxogai.files.solvespace.constraints import Said, Touch


@dataclass
class Entry:
    """What a constraint of the file says: its number and its name there."""

    number: int
    name: str
    said: Said


def settled(entries: list[Entry]) -> tuple[list[Entry], dict[int, str]]:
    """The entries with each touch said as a tangent at two ends, and without the joints that
    these say; and, by their numbers, why touches can't be said: no joints connect their ends."""
    joints = _Joints(entries)
    dropped: set[int] = set()
    refused: dict[int, str] = {}
    for entry in entries:
        if isinstance(entry.said, Touch):
            try:
                joint, at = joints.leading(entry.said)
            except NotSayable as unsaid:
                refused[entry.number] = str(unsaid)
                continue
            dropped.add(joint.number)
            joints.drop(joint)
            entry.name = f"{entry.name} and {joint.name}"
            entry.said = Tangent(ShapeRef(at.first.shape), ShapeRef(at.second.shape), at)
            joints.add(entry, at)
    gone = dropped | set(refused)
    return [entry for entry in entries if entry.number not in gone], refused


def said(entry: Entry) -> Constraint:
    """The constraint of an entry that is settled."""
    assert not isinstance(entry.said, Touch)
    return entry.said


class _Joints:
    """Which points are made one by which entries."""

    def __init__(self, entries: list[Entry]) -> None:
        self._at: dict[PointRef, dict[int, tuple[Entry, PointRef]]] = {}
        for entry in entries:
            if isinstance(entry.said, Coincident):
                self.add(entry, Pair(entry.said.first, entry.said.second))

    def add(self, entry: Entry, points: Pair) -> None:
        """Takes an entry that makes two points one."""
        self._at.setdefault(points.first, {})[entry.number] = entry, points.second
        self._at.setdefault(points.second, {})[entry.number] = entry, points.first

    def drop(self, entry: Entry) -> None:
        """Takes an entry away again."""
        if isinstance(entry.said, Coincident):
            for point in (entry.said.first, entry.said.second):
                self._at[point].pop(entry.number, None)

    def leading(self, touch: Touch) -> tuple[Entry, Pair]:
        """The last entry on the way from the end of the first curve to one of the second that
        is no touch, and both ends. Raises Unsaid where there is no such way or entry."""
        came: dict[PointRef, tuple[Entry, PointRef] | None] = {touch.first: None}
        ways = [touch.first]
        for here in ways:
            if here in touch.second:
                return self._joint(came, here), Pair(touch.first, here)
            for entry, there in self._at.get(here, {}).values():
                if there not in came:
                    came[there] = entry, here
                    ways.append(there)
        raise NotSayable("it touches at ends that no constraint joins")

    def _joint(self, came: dict[PointRef, tuple[Entry, PointRef] | None], end: PointRef) -> Entry:
        """The last entry that is no touch on the way by which an end was come to."""
        step = came[end]
        while step is not None:
            entry, end = step
            if isinstance(entry.said, Coincident):
                return entry
            step = came[end]
        raise NotSayable("its ends are one by other touches already")
