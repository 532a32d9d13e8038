"""Which points and tracks a sketch has, and what they are called."""
from __future__ import annotations

from pertxogai.drawing import ORIGIN
from pertxogai.spelling.axes import Coordinate
from pertxogai.spelling.facts import ORIGIN_KNOT
from pertxogai.spelling.rails import Rail
from pertxogai.spelling.spelled import Track
from pertxogai.spelling.writer.layout import Layout


class Tracks:
    """Names the points and the tracks of a layout."""

    def __init__(self, layout: Layout) -> None:
        self.layout = layout

    def drawn(self) -> list[Track]:
        """Names the points and the tracks, and draws the tracks: these, in order."""
        layout = self.layout
        self.name_points()
        tracks = self.name_tracks()
        layout.settle_ways(layout.names.values())
        for track in tracks:
            layout.draw(track)
        return tracks

    def name_points(self) -> None:
        """Names the point of each knot, that of the origin where it has to be one."""
        layout = self.layout
        origin = self._is_origin_needed()
        for knot in dict.fromkeys(layout.axes.facts.refs.values()):
            if knot != ORIGIN_KNOT:
                layout.points[knot] = f"P{knot.number}"
            elif origin or len(set(layout.axes.facts.refs.values())) == 1:
                layout.points[knot] = "O"

    def _is_origin_needed(self) -> bool:
        """Whether the origin has to be a point of the sketch: it has a distance, shares a rail, is
        that from which a rail has a dimension, lies on a line that leans, or is a drawn point and
        not the place in which both of the datum's rails meet."""
        layout = self.layout
        ran = {rail for run in layout.rails.runs for rail in layout.run_rails(run)}
        return (self._is_origin_drawn()
                and sum(rail.datum() and (rail in ran or len(members) > 1)
                        for rail, members in layout.rails.members.items()) < 2
                or any(ORIGIN_KNOT in each.ends() for each in layout.axes.loose)
                or any(coordinate.knot == ORIGIN_KNOT and (
                    len(members) > 1 or rail in ran and not rail.datum())
                    for rail, members in layout.rails.members.items() for coordinate in members)
                or any(member.knot == ORIGIN_KNOT for line in layout.axes.lines.all()
                       if layout.axes.fixed_axis(line) is None
                       for member in layout.axes.lines.members(line)))

    def _is_origin_drawn(self) -> bool:
        """Whether a point of a shape is the origin."""
        refs = self.layout.axes.facts.refs
        return any(knot == ORIGIN_KNOT and ref != ORIGIN for ref, knot in refs.items())

    def name_tracks(self) -> list[Track]:
        """The rails that carry something, and the lines that lean, named."""
        layout = self.layout
        ran = {rail for run in layout.rails.runs for rail in layout.run_rails(run)}
        layout.bars = [rail for rail in layout.rails.members
                       if rail not in ran and self._is_bar(rail)]
        rails = sorted(
            (rail for rail, members in layout.rails.members.items()
             if rail not in layout.bars and (len(members) > 1 or rail in ran)), key=self._turn)
        lines: list[Track] = [line for line in layout.axes.lines.all()
                              if layout.axes.fixed_axis(line) is None]
        for number, track in enumerate([*rails, *lines]):
            layout.names[track] = _name_of(track, number)
        return [*rails, *lines]

    def _is_bar(self, rail: Rail) -> bool:
        """Whether a rail has two points alone, which are level: a distance says as much."""
        rails = self.layout.rails
        members = list(rails.members[rail].items())
        if rail.datum() or len(members) != 2 or members[0][1] == members[1][1]:
            return False
        across = [rails.rail(Coordinate(rail.frame, not rail.upwards, each.knot))
                  for each, _ in members]
        level = [rails.members[other].get(Coordinate(rail.frame, not rail.upwards, each.knot))
                 for other, (each, _) in zip(across, members) if other is not None]
        return across[0] == across[1] and len(level) == 2 and level[0] == level[1]

    def _turn(self, rail: Rail) -> tuple[bool, int, int]:
        """In which order rails are told: the datum's first, then those with most points."""
        return not rail.datum(), rail.frame, -len(self.layout.rails.members[rail])


def _name_of(track: Track, number: int) -> str:
    """What the line of a track is called, of that number."""
    if isinstance(track, Rail):
        if track.datum():
            return "X" if track.upwards else "Y"
        return f"R{number}"
    return f"L{number}"
