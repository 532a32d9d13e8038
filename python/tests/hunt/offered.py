"""The words that hold of placed geometry, of which a designer might give each."""
from __future__ import annotations

import math
import random
from collections.abc import Iterator
from dataclasses import dataclass
from itertools import combinations

from .plane import Plane, between, cross, dot, size

LEAST_MM, SAME_MM, SAME_SINE = 0.5, 1e-7, 1e-9
STEEP = math.radians(3)
WEIGHTS = {"length": 5, "radius": 6, "diameter": 6, "horizontal": 6, "vertical": 6, "angle": 3,
           "x": 2, "y": 2, "distance": 2, "equal": 3, "parallel": 3, "perpendicular": 3, "on": 3,
           "coincident": 6, "collinear": 2, "fixed": 0.3, "tangent": 3}
DATUM_WORDS = frozenset({"x", "y", "horizontal", "vertical", "fixed"})


@dataclass(frozen=True)
class Offer:
    """A word, its names, and its value in mm or degrees; `form` is how the value is written."""

    kind: str
    names: tuple[str, ...]
    value: float | None = None
    form: str = ""

    def is_datum(self) -> bool:
        """Whether it speaks of the datum."""
        return self.kind in DATUM_WORDS or len(self.names) == 1 and self.kind == "angle" or any(
            name in ("Origin", "XAxis", "YAxis") for name in self.names)

    def line(self, digits: int = 12) -> str:
        """The line of the text, with so many digits behind the point."""
        words = [self.kind, *self.names]
        if self.value is not None and self.kind != "fixed":
            words.append(self._value(digits))
        return " ".join(words)

    def _value(self, digits: int) -> str:
        assert self.value is not None
        if self.form == "ratio":
            return _ratio(self.value)
        text = f"{self.value:.{digits}f}"
        text = text.rstrip("0").rstrip(".") if "." in text else text
        sign = "+" if self.form == "signed" and self.value > 0 else ""
        return sign + text + ("deg" if self.kind == "angle" else "")


def _ratio(degrees: float) -> str:
    """A tangent of small whole numbers near to that of an angle."""
    rise, run = math.sin(math.radians(degrees)), math.cos(math.radians(degrees))
    best = min(((abs(p * run - q * rise), p, q) for q in range(0, 13) for p in range(1, 40)
                if math.gcd(p, q) == 1))
    return f"{best[1]}/{best[2]}"


def offered(at: Plane, chance: random.Random) -> Iterator[Offer]:
    """The words that hold."""
    sheet = at.sheet
    segments = [name for name, shape in sheet.shapes.items() if shape.kind == "segment"]
    rims = [name for name, shape in sheet.shapes.items() if shape.kind in ("circle", "arc")]
    points = [name for name in sheet.drawn if name != "Origin"]
    for name in segments:
        yield from _of_segment(at, name, chance)
    for name in rims:
        yield from _of_rim(at, name, chance)
    for name in points:
        yield from _of_point(at, name, segments, rims, chance)
    for first, second in combinations(segments, 2):
        yield from _of_segments(at, first, second, chance)
    for first, second in combinations(points, 2):
        yield from _of_points(at, first, second, chance)
    for first, second in combinations(rims, 2):
        if abs(at.radius(first) - at.radius(second)) < SAME_MM:
            yield Offer("equal", (first, second))


def _of_segment(at: Plane, name: str, chance: random.Random) -> Iterator[Offer]:
    way = at.way(name)
    yield Offer("length", (name,), abs(size(way)))
    turn = math.atan2(way[1].real, way[0].real)
    if abs(math.sin(turn)) < SAME_SINE:
        yield Offer("horizontal", (name,))
    elif abs(math.cos(turn)) < SAME_SINE:
        yield Offer("vertical", (name,))
    elif abs(math.sin(turn)) > math.sin(STEEP):
        yield _angled((name,), turn, None, chance)


def _of_rim(at: Plane, name: str, chance: random.Random) -> Iterator[Offer]:
    times = chance.choice((1, 2))
    yield Offer("radius" if times == 1 else "diameter", (name,), times * abs(at.radius(name)))


def _of_point(at: Plane, name: str, segments: list[str], rims: list[str], chance: random.Random
              ) -> Iterator[Offer]:
    x, y = (part.real for part in at.spot(name))
    if abs(x) < SAME_MM and abs(y) < SAME_MM:
        yield Offer("coincident", (name, "Origin"))
        return
    for axis, far in (("x", x), ("y", y)):
        if abs(far) > LEAST_MM:
            yield Offer(axis, (name,), *_run(far, chance))
        elif abs(far) < SAME_MM:
            yield Offer("on", (name, "YAxis" if axis == "x" else "XAxis"))
    if math.hypot(x, y) > LEAST_MM:
        yield Offer("distance", (name, "Origin"), math.hypot(x, y))
        yield Offer("fixed", (name,), 0.0)
    for line in segments:
        far = abs(at.aside(at.spot(name), line))
        if far > LEAST_MM:
            yield Offer("distance", (name, line), far)
        elif far < SAME_MM and at.sheet.point(name) not in _ends(at, line):
            yield Offer("on", (name, line))
    for rim in rims:
        far = abs(size(between(at.spot(f"{rim}.centre"), at.spot(name))))
        if abs(far - abs(at.radius(rim))) < SAME_MM and not _touches(at, name, rim):
            yield Offer("on", (name, rim))


def _run(far: float, chance: random.Random) -> tuple[float, str]:
    """A value along an axis, with its sign or without."""
    return (far, "signed") if chance.random() < 0.4 else (abs(far), "")


def _ends(at: Plane, line: str) -> set[str]:
    return {at.sheet.point(f"{line}.start"), at.sheet.point(f"{line}.end")}


def _touches(at: Plane, point: str, rim: str) -> bool:
    """Whether a point is on a rim for another reason: an end of the arc, or of what touches it."""
    mine = at.sheet.point(point)
    if mine in {at.sheet.point(name) for name in at.sheet.shapes[rim].points()}:
        return True
    touching = [word.names for word in at.sheet.words if word.kind == "tangent" and rim in word.names]
    return any(mine in _ends(at, name) for names in touching for name in names
               if at.sheet.is_line(name))


def _of_segments(at: Plane, first: str, second: str, chance: random.Random) -> Iterator[Offer]:
    one, other = at.way(first), at.way(second)
    if abs(size(one) - size(other)) < SAME_MM:
        yield Offer("equal", (first, second))
    turn = math.atan2(cross(one, other).real, dot(one, other).real)
    if abs(math.sin(turn)) < SAME_SINE:
        yield Offer("parallel", (first, second))
        far = abs(at.aside(at.spot(f"{second}.start"), first))
        if far > LEAST_MM:
            yield Offer("distance", (first, second), far)
    elif abs(math.cos(turn)) < SAME_SINE:
        yield Offer("perpendicular", (first, second))
    if abs(math.sin(turn)) > math.sin(STEEP):
        yield _angled((first, second), turn, _corner(at, first, second), chance)


def _corner(at: Plane, first: str, second: str) -> bool | None:
    """Whether two segments leave or reach a shared corner both; None where they share none."""
    for one in ("start", "end"):
        for other in ("start", "end"):
            if at.sheet.point(f"{first}.{one}") == at.sheet.point(f"{second}.{other}"):
                return one == other
    return None


def _angled(names: tuple[str, ...], turn: float, both: bool | None, chance: random.Random) -> Offer:
    """The angle of two lines by the turn from the one's direction to the other's, in one of the
    ways of writing it. A ratio is only near."""
    form = chance.choice(("", "", "", "signed", "ratio"))
    degrees = math.degrees(turn)
    if form == "signed":
        return Offer("angle", names, degrees, form)
    size_of = abs(degrees)
    if form == "ratio":
        return Offer("angle", names, min(size_of, 180 - size_of), form)
    if both is False:
        size_of = 180 - size_of
    elif both is None and chance.random() < 0.5:
        size_of = min(size_of, 180 - size_of)
    return Offer("angle", names, size_of, form)


def _of_points(at: Plane, first: str, second: str, chance: random.Random) -> Iterator[Offer]:
    way = [part.real for part in between(at.spot(first), at.spot(second))]
    if math.hypot(*way) < LEAST_MM:
        return
    if chance.random() < 0.5:
        yield Offer("distance", (first, second), math.hypot(*way))
    for axis, far in zip(("x", "y"), way):
        if abs(far) > LEAST_MM and chance.random() < 0.3:
            yield Offer(axis, (first, second), *_run(far, chance))
        elif abs(far) < SAME_MM and chance.random() < 0.3:
            yield Offer("vertical" if axis == "x" else "horizontal", (first, second))
