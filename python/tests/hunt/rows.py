"""How far a drawing is off each of its words, in floats: what python/DRAWING.md says that each
asks, with what the drawn places decide."""
from __future__ import annotations

import math
from collections.abc import Callable
from dataclasses import dataclass

from .meetings import Meetings
from .plane import Number, Plane, Way, between, cross, dot, real, size, turned
from .reading import Word


@dataclass(frozen=True)
class Row:
    """One number that is 0 where a word holds: mm, or the sine of an angle; `arm` is then the
    length in mm of the shorter of the lines, and `backward` whether the second runs against the
    direction that was asked for."""

    off: Number
    arm: float | None = None
    backward: bool = False


@dataclass(frozen=True)
class Ruler:
    """A drawing as it is drawn, and which of its points are one."""

    drawn: Plane
    meetings: Meetings

    def rows(self, at: Plane, word: Word) -> list[Row]:
        """The numbers of a word at other places."""
        return list(_OF[word.kind](self, at, word))

    def measured(self, at: Plane, word: Word) -> list[Row]:
        """The same, with what another word has to say and this one is measured by: that two edges
        of a distance are parallel, so that both ends of the second have it."""
        found = self.rows(at, word)
        if word.kind == "distance" and all(map(at.sheet.is_line, word.names)):
            line, other = _axis_first(at, word)
            start, end = (at.aside(at.spot(f"{other}.{each}"), line) for each in ("start", "end"))
            found.append(Row((end if real(start) >= 0 else -end) - word.number()))
        return found

    def implied(self, at: Plane) -> list[Row]:
        """What the shapes ask by themselves: an arc's end lies on its circle, and what is given
        from outside where it is drawn."""
        found, given = [], {"Origin"}
        for shape in at.sheet.shapes.values():
            if shape.kind == "arc" and not shape.outer:
                found.append(Row(_apart(at, f"{shape.name}.centre", f"{shape.name}.end")
                                 - at.radius(shape.name)))
            if shape.outer:
                points = [each for each in shape.points() if at.sheet.unknown[each] not in given]
                given |= {at.sheet.unknown[each] for each in points}
                found += [row for point in points for row in _stays(self, at, point)]
                if shape.kind == "circle":
                    found.append(Row(at.radius(shape.name) - self.drawn.radius(shape.name)))
        return found


def _apart(at: Plane, first: str, second: str) -> Number:
    return size(between(at.spot(first), at.spot(second)))


def _one(at: Plane, first: str, second: str) -> list[Row]:
    """Two points are one."""
    return [Row(part) for part in between(at.spot(first), at.spot(second))]


def _joined(at: Plane, ends: tuple[str, ...]) -> list[Row]:
    """Two ends are one point; nothing where the shapes share it already."""
    first, second = ends
    return _one(at, first, second) if at.sheet.point(first) != at.sheet.point(second) else []


def _direction(first: Way, second: Way, arms: tuple[float, float], radians: float) -> Row:
    """The second way is the first, turned to the left."""
    wanted, scale = turned(first, radians), size(first) * size(second)
    return Row(cross(wanted, second) / scale, min(arms), real(dot(wanted, second)) < 0)


def _arms(at: Plane, *lines: str) -> tuple[float, float]:
    """The lengths of two lines; an axis has no end."""
    found = [math.inf if line in ("XAxis", "YAxis") else real(size(at.way(line))) for line in lines]
    return found[0], found[1]


def _along(at: Plane, first: str, second: str, radians: float) -> Row:
    """Two lines make an angle, either way round."""
    found = _direction(at.way(first), at.way(second), _arms(at, first, second), radians)
    return Row(found.off, found.arm)


def _coincident(_: Ruler, at: Plane, word: Word) -> list[Row]:
    return _one(at, *word.names)


def _on(_: Ruler, at: Plane, word: Word) -> list[Row]:
    point, curve = word.names
    if at.sheet.is_line(curve):
        return [Row(at.aside(at.spot(point), curve))]
    return [Row(size(between(at.spot(f"{curve}.centre"), at.spot(point))) - at.radius(curve))]


def _level(_: Ruler, at: Plane, word: Word) -> list[Row]:
    part = 1 if word.kind == "horizontal" else 0
    if len(word.names) == 2:
        return [Row(between(at.spot(word.names[0]), at.spot(word.names[1]))[part])]
    return [Row(at.way(word.names[0])[part])]


def _parallel(_: Ruler, at: Plane, word: Word) -> list[Row]:
    return [_along(at, word.names[0], word.names[1], 0)]


def _perpendicular(_: Ruler, at: Plane, word: Word) -> list[Row]:
    lines = [name.partition(".")[0] for name in word.names]
    met = _joined(at, word.names) if "." in word.names[0] else []
    return [*met, _along(at, lines[0], lines[1], math.pi / 2)]


def _collinear(_: Ruler, at: Plane, word: Word) -> list[Row]:
    first, second = word.names
    if second in ("XAxis", "YAxis"):
        first, second = second, first
    return [Row(at.aside(at.spot(f"{second}.{end}"), first)) for end in ("start", "end")]


def _length(_: Ruler, at: Plane, word: Word) -> list[Row]:
    return [Row(size(at.way(word.names[0])) - word.number())]


def _distance(_: Ruler, at: Plane, word: Word) -> list[Row]:
    first, second = word.names
    lines = [at.sheet.is_line(name) for name in word.names]
    if not any(lines):
        return [Row(_apart(at, first, second) - word.number())]
    if all(lines):
        line, other = _axis_first(at, word)
        return [_off_line(at, line, f"{other}.start", word.number())]
    line, point = (first, second) if lines[0] else (second, first)
    return [_off_line(at, line, point, word.number())]


def _axis_first(at: Plane, word: Word) -> tuple[str, str]:
    """Two lines, of which the second has ends."""
    first, second = word.names
    return (second, first) if second in ("XAxis", "YAxis") else (first, second)


def _off_line(at: Plane, line: str, point: str, apart: float) -> Row:
    """How far off a point is from a distance from a line."""
    aside = at.aside(at.spot(point), line)
    return Row((aside if real(aside) >= 0 else -aside) - apart)


def _run(ruler: Ruler, at: Plane, word: Word) -> list[Row]:
    part = 0 if word.kind == "x" else 1
    names = word.names if len(word.names) == 2 else ("Origin", word.names[0])
    wanted = word.number()
    if not word.is_signed() and _run_drawn(ruler, names, part) < 0:
        wanted = -wanted
    return [Row(between(at.spot(names[0]), at.spot(names[1]))[part] - wanted)]


def _run_drawn(ruler: Ruler, names: tuple[str, ...], part: int) -> float:
    """How far two points are drawn apart, as the first of those that are one with each is."""
    spots = [ruler.drawn.spot(ruler.meetings.leader(name)) for name in names]
    return real(between(spots[0], spots[1])[part])


def _rim_size(_: Ruler, at: Plane, word: Word) -> list[Row]:
    times = 1 if word.kind == "radius" else 2
    return [Row(times * at.radius(word.names[0]) - word.number())]


def _equal(_: Ruler, at: Plane, word: Word) -> list[Row]:
    if at.sheet.is_line(word.names[0]):
        first, second = (size(at.way(name)) for name in word.names)
        return [Row(first - second)]
    return [Row(at.radius(word.names[0]) - at.radius(word.names[1]))]


def _concentric(_: Ruler, at: Plane, word: Word) -> list[Row]:
    return _one(at, *(f"{name}.centre" for name in word.names))


def _middle(first: Way, second: Way) -> Way:
    return (first[0] + second[0]) / 2, (first[1] + second[1]) / 2


def _symmetric(_: Ruler, at: Plane, word: Word) -> list[Row]:
    *points, about = word.names
    if len(points) == 1:
        points = [f"{points[0]}.start", f"{points[0]}.end"]
    first, second = (at.spot(name) for name in points)
    middle = _middle(first, second)
    if not at.sheet.is_line(about):
        return [Row(part) for part in between(middle, at.spot(about))]
    way = at.way(about)
    return [Row(at.aside(middle, about)), Row(dot(way, between(first, second)) / size(way))]


def _midpoint(_: Ruler, at: Plane, word: Word) -> list[Row]:
    point, segment = word.names
    middle = _middle(at.spot(f"{segment}.start"), at.spot(f"{segment}.end"))
    return [Row(part) for part in between(middle, at.spot(point))]


def _stays(ruler: Ruler, at: Plane, point: str) -> list[Row]:
    """A point lies where it is drawn."""
    return [Row(part) for part in between(ruler.drawn.spot(point), at.spot(point))]


def _fixed(ruler: Ruler, at: Plane, word: Word) -> list[Row]:
    name = word.names[0]
    shape = at.sheet.shapes.get(name)
    points = (name,) if shape is None or shape.kind == "point" else shape.points()
    found = [row for point in points for row in _stays(ruler, at, point)]
    if shape is not None and shape.kind == "circle":
        found.append(Row(at.radius(name) - ruler.drawn.radius(name)))
    return found


def _tangent(ruler: Ruler, at: Plane, word: Word) -> list[Row]:
    shapes = [name.partition(".")[0] for name in word.names]
    if "." in word.names[0]:
        return [*_joined(at, word.names), _square(at, word.names)]
    corner = ruler.meetings.corner(*shapes)
    if corner is not None:
        return [_square(at, corner)]
    if at.sheet.is_line(shapes[1]):
        shapes.reverse()
    if at.sheet.is_line(shapes[0]):
        aside = at.aside(at.spot(f"{shapes[1]}.centre"), shapes[0])
        return [Row((aside if real(aside) >= 0 else -aside) - at.radius(shapes[1]))]
    return [Row(_apart(at, *(f"{name}.centre" for name in shapes)) - _reach(ruler, at, shapes))]


def _reach(ruler: Ruler, at: Plane, rims: list[str]) -> Number:
    """How far the centres of two rims lie apart that touch, from outside or inside as drawn."""
    drawn = [real(ruler.drawn.radius(name)) for name in rims]
    apart = real(_apart(ruler.drawn, *(f"{name}.centre" for name in rims)))
    one, other = (at.radius(name) for name in rims)
    if abs(apart - sum(drawn)) <= abs(apart - abs(drawn[0] - drawn[1])):
        return one + other
    return one - other if real(one) >= real(other) else other - one


def _square(at: Plane, ends: tuple[str, ...]) -> Row:
    """Two shapes touch where an end of each is one point: the normals have one direction."""
    first, second = (_normal(at, end) for end in ends)
    arms = real(size(first)), real(size(second))
    return Row(cross(first, second) / (size(first) * size(second)), min(arms))


def _normal(at: Plane, end: str) -> Way:
    name = end.partition(".")[0]
    if at.sheet.is_line(name):
        way = at.way(name)
        return -way[1], way[0]
    return between(at.spot(f"{name}.centre"), at.spot(end))


def _angle(ruler: Ruler, at: Plane, word: Word) -> list[Row]:
    lines = word.names if len(word.names) == 2 else ("XAxis", word.names[0])
    first, second = at.way(lines[0]), at.way(lines[1])
    wanted = _turn(ruler, word, (lines[0], lines[1]))
    return [_direction(first, second, _arms(at, *lines), wanted)]


def _turn(ruler: Ruler, word: Word, lines: tuple[str, str]) -> float:
    """The turn in radians from the first line to the second that an angle asks for."""
    assert word.value is not None
    drawn = [_way_drawn(ruler, line) for line in lines]
    left, ahead = real(cross(*drawn)) >= 0, real(dot(*drawn)) >= 0
    value = _radians(word.value)
    if word.is_signed():
        if "/" not in word.value or real(dot(turned(drawn[0], value), drawn[1])) >= 0:
            return value
        return value + math.pi
    value = abs(value)
    corner = ruler.meetings.corner(*lines)
    if corner is not None and "/" not in word.value:
        both = corner[0].partition(".")[2] == corner[1].partition(".")[2]
        value = value if both else math.pi - value
    else:
        acute = min(value, math.pi - value)
        value = acute if ahead else math.pi - acute
    return value if left else -value


def _way_drawn(ruler: Ruler, line: str) -> Way:
    """A line's way as the first of the points is drawn that are one with each end."""
    if line in ("XAxis", "YAxis"):
        return ruler.drawn.way(line)
    ends = [ruler.drawn.spot(ruler.meetings.leader(f"{line}.{end}")) for end in ("start", "end")]
    return between(*ends)


def _radians(text: str) -> float:
    """The value of an angle, with its sign."""
    if "/" in text:
        rise, run = text.split("/")
        return math.atan2(float(rise), float(run))
    return math.radians(float(text.removesuffix("deg")))


_OF: dict[str, Callable[[Ruler, Plane, Word], list[Row]]] = {
    "coincident": _coincident, "on": _on, "horizontal": _level, "vertical": _level,
    "parallel": _parallel, "perpendicular": _perpendicular, "collinear": _collinear,
    "angle": _angle, "length": _length, "distance": _distance, "x": _run, "y": _run,
    "radius": _rim_size, "diameter": _rim_size, "tangent": _tangent, "equal": _equal,
    "concentric": _concentric, "symmetric": _symmetric, "midpoint": _midpoint, "fixed": _fixed}
VALUED = frozenset({"angle", "length", "distance", "x", "y", "radius", "diameter", "fixed"})
"""The words that tell a value, or a place."""
