"""Rails, leaning lines, distances and angles as the elements and constraints of a sketch."""
from __future__ import annotations

from collections.abc import Collection

from pertxogai.spelling.axes import Axes
from pertxogai.spelling.drafts import Draft
from pertxogai.spelling.facts import Owner
from pertxogai.spelling.rails import Rails
from pertxogai.spelling.spelled import Behind, Care, Contradiction, Heading, Spelled, Track
from pertxogai.spelling.style import Style
from pertxogai.spelling.writer.angles import Angles
from pertxogai.spelling.writer.heights import Heights
from pertxogai.spelling.writer.layout import Layout
from pertxogai.spelling.writer.repeats import Repeats
from pertxogai.spelling.writer.tracks import Tracks

__all__ = ["Behind", "Care", "Contradiction", "Heading", "Spelled", "Track", "Writer", "written"]


def written(axes: Axes, rails: Rails, style: Style, care: Care = Care()) -> Spelled:
    """The drawing, encoded in that style."""
    writer = Writer(axes, rails, style, care)
    writer.write()
    repeats = Repeats(writer.layout, writer.heights)
    if care.insist:
        repeats.write_repeats()
    repeats.write_contradictions()
    return writer.spelled()


class Writer:
    """Fills a sheet."""

    def __init__(self, axes: Axes, rails: Rails, style: Style, care: Care = Care()) -> None:
        self.layout = Layout(axes, rails, style, care)
        self.heights = Heights(self.layout)

    def write(self) -> None:
        """Fills the sheet: points, lines, then angles, heights and distances."""
        layout, tracks = self.layout, Tracks(self.layout).drawn()
        Angles(layout).write(tracks)
        for track in tracks:
            self.heights.points_on(track)
        for run in layout.rails.runs:
            self.heights.run(run)
        self.heights.level()
        self.heights.loose()
        self._drop_idle()
        layout.settle_anew()

    def write_as(self, other: Writer) -> bool:
        """Fills the sheet as another was filled, of axes that differ by where things are drawn
        alone; False where that has help, where a dimension runs another way than is drawn now,
        which asks for help, and where a point crosses a line of the datum, which may go then."""
        layout, known = self.layout, other.layout
        layout.names, layout.points, layout.bars = known.names, known.points, known.bars
        layout.settle_ways(known.sheet.lines)
        if (not other._has_no_help() or any(map(self.heights.runs_back, layout.rails.runs))
                or not layout.datum_lines().isdisjoint(layout.crossed | known.crossed)):
            return False
        layout.left_out = known.left_out
        layout.sheet.drafts, layout.sheet.told = known.sheet.drafts, known.sheet.told
        for track, name in layout.names.items():
            if name in known.sheet.lines:
                layout.draw(track)
        return True

    def _has_no_help(self) -> bool:
        """Whether no line and no point was written that only helps."""
        layout = self.layout
        return (layout.sheet.lines.keys() <= set(layout.names.values())
                and layout.sheet.points.keys() <= set(layout.points.values()))

    def spelled(self) -> Spelled:
        """What was written."""
        layout = self.layout
        for knot, name in layout.points.items():
            layout.sheet.points[name] = layout.ways[knot]
        scale = layout.sheet.scale()
        sketch, rounded = layout.sheet.sketch(scale)
        names = {name: track for track, name in layout.names.items()}
        tracks: dict[str, Track | None] = {name: names.get(name) for name in layout.sheet.lines}
        headings = tuple(layout.heading(name, track) for name, track in tracks.items()
                         if track is not None)
        said = tuple(draft.said for draft in layout.sheet.drafts)
        near = tuple(number for number, draft in enumerate(layout.sheet.drafts, 1)
                     if draft.is_near)
        told = frozenset[Owner]().union(*(each.owners for each in layout.care.off))
        left_out = (frozenset(layout.left_out) | layout.rails.lost) - told
        return Spelled(layout.style, sketch, scale, said, dict(layout.points), tracks, headings,
                       left_out, rounded, near, dict(layout.behind),
                       frozenset(layout.unmeasured), layout.sheet)

    def _drop_idle(self) -> None:
        """Takes away lines that hold nothing: with two constraints at most, of which one at most
        is an angle. The datum's stay, but for those over which a point is told on another side than
        it is drawn: places are turned by what is told of that."""
        layout = self.layout
        kept = {layout.names[track] for track in layout.datum_lines() - layout.crossed}
        holding: dict[str, list[Draft]] = {}
        for draft in layout.sheet.drafts:
            for name in draft.names():
                holding.setdefault(name, []).append(draft)
        gone: set[int] = set()
        waiting = list(layout.sheet.lines)
        while waiting:
            idle = waiting.pop()
            drafts = [each for each in holding.get(idle, ()) if id(each) not in gone]
            if idle in layout.sheet.lines and idle not in kept and _is_idle(drafts):
                del layout.sheet.lines[idle]
                gone |= {id(each) for each in drafts}
                waiting += [name for each in drafts for name in each.names()]
        layout.sheet.drafts = [each for each in layout.sheet.drafts if id(each) not in gone]


def _is_idle(drafts: Collection[Draft]) -> bool:
    """Whether a line with these constraints holds nothing."""
    return len(drafts) <= 2 and sum(each.ratio is not None for each in drafts) <= 1
