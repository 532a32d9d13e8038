"""Points on lines, as high over rails as they are, and distances that run along no axis."""
from __future__ import annotations

from functools import partial

from pertxogai.spelling.axes import Axes
from pertxogai.spelling.drafts import Draft, Owners, said_by
from pertxogai.spelling.facts import Apart, Knot, Line, Off, Owner
from pertxogai.spelling.linear import Number
from pertxogai.spelling.rails import Rail, Run
from pertxogai.spelling.spelled import Behind, Track
from pertxogai.spelling.style import Style
from pertxogai.spelling.writer.layout import REACH_UM, Layout, is_behind, unit


class Heights:
    """Puts the points of a layout where they are told."""

    def __init__(self, layout: Layout) -> None:
        self.layout = layout

    def level(self) -> None:
        """Distances of points that are level."""
        layout = self.layout
        for rail in layout.bars:
            (first, start), (second, end) = layout.rails.members[rail].items()
            names = layout.points[first.knot], layout.points[second.knot]
            layout.say(*names, partial(layout.rails.owners, first, second), end - start)

    def points_on(self, track: Track) -> None:
        """Puts a track's points on it, or as high over it as they are."""
        layout = self.layout
        if not isinstance(track, Rail):
            self._members_on(track)
            return
        offset = layout.rails.offset(track)
        members = layout.rails.members[track]
        anchor = next((each for each, value in members.items()
                       if value == offset and not track.datum()), None)
        for coordinate, value in members.items():
            if coordinate.knot in layout.points:
                said: Owners = partial(layout.rails.owners, anchor, coordinate)
                if coordinate == anchor:
                    said = partial(layout.rail_owners, track)
                layout.say(layout.points[coordinate.knot], layout.names[track], said,
                           value - offset)

    def _members_on(self, line: Line) -> None:
        """Puts the points of a line that leans on it."""
        layout = self.layout
        for member in layout.axes.lines.members(line):
            if member.knot in layout.points:
                said: Owners = partial(layout.direction_owners, line, line)
                if member.owner:
                    said = said_by({member.owner})
                layout.say(layout.points[member.knot], layout.names[line], said)

    def run(self, run: Run) -> None:
        """Says a distance that runs along an axis: between feet, where the style has them, else as
        a height over a rail."""
        layout = self.layout
        rails = layout.run_rails(run)
        if layout.style is Style.FEET and len(set(rails)) == 2 and self._feet(run, rails):
            return
        rail, end, from_line = self._over_rail(run)
        if end in layout.points:
            self.say_height(end, rail, said_by(run.owners), from_line)

    def _over_rail(self, run: Run) -> tuple[Rail, Knot, Number]:
        """A run as the height of one of its ends over the rail of the other."""
        rails, rail = self.layout.rails, self.layout.run_rails(run)[0]
        first, second, sign = run.first, run.second, 1
        if rails.rail(first) != rail:
            first, second, sign = second, first, -1
        from_line = sign * run.run_um + rails.members[rail][first] - rails.offset(rail)
        return rail, second.knot, from_line

    def runs_back(self, run: Run) -> bool:
        """Whether a run goes another way than its ends are drawn."""
        rail, end, from_line = self._over_rail(run)
        return is_behind(self.layout.height(rail, end), from_line)

    def say_height(self, knot: Knot, rail: Rail, said: Owners, height: Number) -> None:
        """Says how high over a rail a point is. A height has the side on which the point is drawn;
        where that is the other one, it is told from a line of help that both are before."""
        layout = self.layout
        drawn, name = layout.height(rail, knot), layout.names[rail]
        if is_behind(drawn, height):
            back = abs(int(drawn)) + abs(int(height)) + 1000
            behind = self._line_behind(knot, rail, -back if height > 0 else back)
            layout.behind[behind] = Behind(name, back)
            name, height = behind, max(height, -height) + back
        layout.say(layout.points[knot], name, said, height)

    def _line_behind(self, knot: Knot, rail: Rail, shift: int) -> str:
        """A line of help that runs along a rail, so far from it: square to one through the
        point, on which a point of help is that far from the rail."""
        layout = self.layout
        number, (a, b), (x, y) = len(layout.sheet.lines), layout.upright(rail), layout.ways[knot]
        across, line, point = f"N{number}", f"Z{number}", f"E{number}"
        rise = shift - layout.height(rail, knot)
        u, v = layout.sheet.points[point] = x + a * rise, y + b * rise
        layout.sheet.lines[across] = (x, y), (x + a * REACH_UM, y + b * REACH_UM)
        layout.sheet.lines[line] = (u, v), (u + b * REACH_UM, v - a * REACH_UM)
        nobody = said_by(())
        for each, carrier in ((layout.points[knot], across), (point, across), (point, line)):
            layout.say(each, carrier, nobody)
        layout.say(point, layout.names[rail], nobody, shift)
        for first, second in ((layout.names[rail], across), (across, line)):
            layout.sheet.drafts.append(Draft(first, second, nobody, ratio=(1, 0)))
        return line

    def _feet(self, run: Run, rails: list[Rail]) -> bool:
        """The dimension between the feet of two rails on the first rail across; False where there
        is none."""
        layout = self.layout
        across = next((each for each in layout.names if isinstance(each, Rail)
                       and each.frame == rails[0].frame
                       and each.upwards != rails[0].upwards), None)
        ends = [layout.rails.members[rail][end] - layout.rails.offset(rail)
                for rail, end in zip(rails, (run.first, run.second))]
        apart = run.run_um + ends[0] - ends[1]
        drawn = layout.rail_at(rails[1]) - layout.rail_at(rails[0])
        if across is None or not apart or is_behind(drawn, apart):
            return False
        feet = [self._foot(rail, across, run) for rail in rails]
        layout.say(feet[0], feet[1], said_by(run.owners), apart)
        return True

    def _foot(self, rail: Rail, across: Rail, run: Run) -> str:
        layout = self.layout
        name = f"F{layout.names[rail]}"
        if name not in layout.sheet.points:
            a, b = unit(layout.frame(rail).way)
            along, up = layout.rail_at(rail), layout.rail_at(across)
            if rail.upwards:
                along, up = up, along
            layout.sheet.points[name] = (a * along - b * up, b * along + a * up)
            layout.say(name, layout.names[rail], said_by(run.owners))
            layout.say(name, layout.names[across], said_by(run.owners))
        return name

    def loose(self) -> None:
        """Distances that run along no axis."""
        layout = self.layout
        for fact in layout.axes.loose:
            value = layout.rails.number(fact.value)
            first, second = fact.ends()
            if value is None:
                continue
            if not value:
                layout.left_out.add(fact.owner)
                continue
            layout.say(layout.points[first], self._end_name(second),
                       partial(_owners, fact, layout.axes), value)

    def _end_name(self, end: Knot | Line) -> str:
        layout = self.layout
        if isinstance(end, Knot):
            return layout.points[end]
        return layout.names[layout.axes.lines.leader(end)]


def _owners(fact: Apart | Off, axes: Axes) -> frozenset[Owner]:
    """Who says a distance, and how long it is."""
    return axes.owners(fact.value) | {fact.owner}
