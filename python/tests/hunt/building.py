"""Geometry by chance, placed exactly: what designers draw, with the words that are no dimensions."""
from __future__ import annotations

import math
import random
from collections.abc import Callable
from dataclasses import dataclass, field

from .reading import Spot

BLOCK = 40.0
"""About how large a block is, in mm."""


@dataclass
class Building:
    """What is drawn so far. `spots` has each unknown point, `radii` each circle's size; `drawn` the
    shapes' lines, by a format of their spots; `asked` the words that come with the shapes, and
    `owners` which block each shape is of."""

    chance: random.Random
    spots: dict[str, Spot] = field(default_factory=dict)
    radii: dict[str, float] = field(default_factory=dict)
    drawn: list[tuple[str, ...]] = field(default_factory=list)
    asked: list[str] = field(default_factory=list)
    owners: dict[str, int] = field(default_factory=dict)
    corner: Spot = (0.0, 0.0)
    block: int = 0

    def name(self, letter: str) -> str:
        """A new name."""
        return f"{letter}{len(self.owners) + 1}"

    def shape(self, kind: str, name: str, *spots: str | Spot, radius: float | None = None) -> str:
        """Draws a shape at spots of its own or at points that stand."""
        ends = {"point": ("",), "segment": (".start", ".end"), "circle": (".centre",),
                "arc": (".centre", ".start", ".end")}[kind]
        words = []
        for end, spot in zip(ends, spots):
            if isinstance(spot, str):
                words.append(spot)
                continue
            self.spots[name + end] = spot
            words.append(f"@{name}{end}")
        if radius is not None:
            self.radii[name] = radius
            words.append(f"%{name}")
        self.drawn.append((kind, name, *words))
        self.owners[name] = self.block
        return name

    def spot(self, point: str) -> Spot:
        """Where a point lies."""
        while point not in self.spots:
            point = next(words[2 + place] for words in self.drawn
                         for place, end in enumerate(_ENDS[words[0]]) if words[1] + end == point)
            point = point.removeprefix("@")
        return self.spots[point]

    def ask(self, *words: str) -> None:
        """Asks for a constraint that holds."""
        self.asked.append(" ".join(words))

    def size(self, low: float = 8, high: float = BLOCK) -> float:
        """A length."""
        return self.chance.uniform(low, high)

    def near(self, reach: float = BLOCK) -> Spot:
        """A place in the block."""
        return (self.corner[0] + self.chance.uniform(0.1, 1) * reach,
                self.corner[1] + self.chance.uniform(0.1, 1) * reach)

    def turn(self) -> float:
        """A direction, which is level now and then."""
        if self.chance.random() < 0.35:
            return self.chance.choice((0.0, math.pi / 2))
        return self.chance.uniform(-math.pi, math.pi)

    def segments(self) -> list[str]:
        """The names of the segments."""
        return [words[1] for words in self.drawn if words[0] == "segment"]

    def points(self) -> list[str]:
        """The names of the points that are unknowns."""
        return list(self.spots)


_ENDS = {"point": ("",), "segment": (".start", ".end"), "circle": (".centre",),
         "arc": (".centre", ".start", ".end")}


def ahead(at: Spot, turn: float, by: float) -> Spot:
    """A place in a direction from another."""
    return at[0] + by * math.cos(turn), at[1] + by * math.sin(turn)


def outline(built: Building, corners: list[Spot], letter: str = "S") -> list[str]:
    """Segments round corners, closed."""
    names: list[str] = []
    for place, corner in enumerate(corners):
        start: str | Spot = f"{names[-1]}.end" if names else corner
        last = place == len(corners) - 1
        end: str | Spot = f"{names[0]}.start" if last else corners[place + 1]
        names.append(built.shape("segment", built.name(letter), start, end))
    return names


def rectangle(built: Building) -> None:
    """A rectangle, level or turned, told in one of the ways in which rectangles are."""
    wide, high, turn = built.size(), built.size(), built.turn()
    corners = [built.corner]
    for along, by in ((0.0, wide), (math.pi / 2, high), (math.pi, wide)):
        corners.append(ahead(corners[-1], turn + along, by))
    sides = outline(built, corners)
    if turn == 0 and built.chance.random() < 0.7:
        for side, word in zip(sides, ("horizontal", "vertical") * 2):
            built.ask(word, side)
    elif built.chance.random() < 0.5:
        for first, second in zip(sides, sides[1:]):
            built.ask("perpendicular", first, second)
    else:
        built.ask("parallel", sides[0], sides[2])
        built.ask("parallel", sides[1], sides[3])
        built.ask("perpendicular", sides[0], sides[1])


def polygon(built: Building) -> None:
    """A polygon of three to six corners, some of whose sides are level or equal."""
    count = built.chance.randint(3, 6)
    middle = ahead(built.corner, 0.7, BLOCK / 2)
    turns = sorted(built.chance.uniform(0, 2 * math.pi) for _ in range(count))
    turns = [turn * 0.4 + 0.6 * 2 * math.pi * place / count for place, turn in enumerate(turns)]
    corners = [ahead(middle, turn, built.size(12, 30)) for turn in turns]
    if built.chance.random() < 0.4:
        corners[1] = (corners[1][0], corners[0][1])
    outline(built, corners)


def kite(built: Building) -> None:
    """An isosceles triangle, a rhombus or a kite: sides that are equal."""
    base, high, turn = built.size() / 2, built.size(), built.turn()
    foot = ahead(built.corner, turn, base)
    top = ahead(foot, turn + math.pi / 2, high)
    right = ahead(foot, turn, base)
    if built.chance.random() < 0.5:
        sides = outline(built, [built.corner, right, top])
        built.ask("equal", sides[1], sides[2])
        return
    below = high if built.chance.random() < 0.5 else built.size()
    sides = outline(built, [built.corner, ahead(foot, turn - math.pi / 2, below), right, top])
    built.ask("equal", sides[0], sides[1])
    built.ask("equal", sides[2], sides[3])
    if below == high:
        built.ask("equal", sides[0], sides[2])


def strip(built: Building) -> None:
    """Segments in a row, each from the end of the one before."""
    at: str | Spot = built.corner
    turn = built.turn()
    for _ in range(built.chance.randint(1, 4)):
        name = built.name("L")
        begin = built.spot(at) if isinstance(at, str) else at
        built.shape("segment", name, at, ahead(begin, turn, built.size()))
        at, turn = f"{name}.end", turn + built.chance.choice((1, -1)) * built.chance.uniform(0.5, 2.3)


def slot(built: Building) -> None:
    """Two arcs and the two segments that touch them."""
    radius, apart, turn = built.size(3, 9), built.size(12), built.turn()
    west, east = built.corner, ahead(built.corner, turn, apart)
    down, up = turn - math.pi / 2, turn + math.pi / 2
    lower = built.shape("segment", built.name("S"), ahead(west, down, radius), ahead(east, down, radius))
    right = built.shape("arc", built.name("A"), east, f"{lower}.end", ahead(east, up, radius))
    upper = built.shape("segment", built.name("S"), f"{right}.end", ahead(west, up, radius))
    left = built.shape("arc", built.name("A"), west, f"{upper}.end", f"{lower}.start")
    for first, second in ((lower, right), (right, upper), (upper, left), (left, lower)):
        built.ask("tangent", first, second)
    built.ask("equal", right, left)


def fillet(built: Building) -> None:
    """Two edges with an arc between them that touches both."""
    radius, turn, bend = built.size(4, 10), built.turn(), built.chance.uniform(0.6, 2.2)
    start = built.corner
    end = ahead(start, turn, built.size(10))
    centre = ahead(end, turn + math.pi / 2, radius)
    rim = ahead(centre, turn + bend - math.pi / 2, radius)
    first = built.shape("segment", built.name("S"), start, end)
    arc = built.shape("arc", built.name("A"), centre, f"{first}.end", rim)
    second = built.shape("segment", built.name("S"), f"{arc}.end", ahead(rim, turn + bend, built.size(10)))
    built.ask("tangent", first, arc)
    built.ask("tangent", arc, second)


def half_circle(built: Building) -> None:
    """A segment and the half circle over it, whose centre is its middle."""
    radius, turn = built.size(5, 20), built.turn()
    start, end = built.corner, ahead(built.corner, turn, 2 * radius)
    base = built.shape("segment", built.name("S"), start, end)
    arc = built.shape("arc", built.name("A"), ahead(start, turn, radius), f"{base}.end", f"{base}.start")
    if built.chance.random() < 0.5:
        built.ask("on", f"{arc}.centre", base)
    else:
        built.ask("symmetric", f"{arc}.start", f"{arc}.end", "about", f"{arc}.centre")


def holes(built: Building) -> None:
    """Circles, of one size or about one centre now and then."""
    radius, many = built.size(2, 9), built.chance.randint(1, 3)
    first = built.shape("circle", built.name("C"), built.near(), radius=radius)
    for _ in range(many - 1):
        if built.chance.random() < 0.4:
            other = built.shape("circle", built.name("C"), built.spots[f"{first}.centre"],
                                radius=radius + built.size(2, 8))
            built.ask("concentric", first, other)
            continue
        other = built.shape("circle", built.name("C"), built.near(), radius=radius)
        built.ask("equal", first, other)


def touching_circles(built: Building) -> None:
    """Two circles that touch, from outside or inside."""
    one, other, turn = built.size(6, 15), built.size(3, 5.5), built.turn()
    first = built.shape("circle", built.name("C"), built.near(), radius=one)
    apart = one + other if built.chance.random() < 0.6 else one - other
    second = built.shape("circle", built.name("C"), ahead(built.spot(f"{first}.centre"), turn, apart),
                         radius=other)
    built.ask("tangent", first, second)


def touching_line(built: Building) -> None:
    """A circle that touches a segment, which may stand already."""
    radius = built.size(3, 12)
    line = _line(built)
    start, end = (built.spot(f"{line}.{each}") for each in ("start", "end"))
    turn = math.atan2(end[1] - start[1], end[0] - start[0])
    along = built.chance.uniform(0.2, 0.8) * math.dist(start, end)
    side = built.chance.choice((1, -1)) * math.pi / 2
    centre = ahead(ahead(start, turn, along), turn + side, radius)
    rim = built.shape("circle", built.name("C"), centre, radius=radius)
    built.ask("tangent", line, rim)


def _line(built: Building) -> str:
    """A segment that stands, or a new one."""
    if built.segments() and built.chance.random() < 0.7:
        return built.chance.choice(built.segments())
    return built.shape("segment", built.name("S"), built.corner, ahead(built.corner, built.turn(), built.size()))


def points_on_lines(built: Building) -> None:
    """Points on segments, on axes, in middles."""
    for _ in range(built.chance.randint(1, 2)):
        line = _line(built)
        start, end = (built.spot(f"{line}.{each}") for each in ("start", "end"))
        part = 0.5 if built.chance.random() < 0.4 else built.chance.uniform(0.15, 1.3)
        at = start[0] + part * (end[0] - start[0]), start[1] + part * (end[1] - start[1])
        point = built.shape("point", built.name("P"), at)
        built.ask("midpoint" if part == 0.5 else "on", point, line)


def mirrored(built: Building) -> None:
    """Points and segments that are mirror images in an axis, a segment or a point."""
    first = built.near()
    point = built.shape("point", built.name("P"), first)
    if built.segments() and built.chance.random() < 0.5:
        line = built.chance.choice(built.segments())
        start, end = (built.spot(f"{line}.{each}") for each in ("start", "end"))
        turn = math.atan2(end[1] - start[1], end[0] - start[0])
        away = math.atan2(first[1] - start[1], first[0] - start[0])
        image = ahead(start, 2 * turn - away, math.dist(start, first))
        other = built.shape("point", built.name("P"), image)
        built.ask("symmetric", point, other, "about", line)
        return
    if built.chance.random() < 0.5:
        other = built.shape("point", built.name("P"), (-first[0], first[1]))
        built.ask("symmetric", point, other, "about", "YAxis")
        return
    end = built.near()
    middle = built.shape("point", built.name("P"), ((first[0] + end[0]) / 2, (first[1] + end[1]) / 2))
    other = built.shape("point", built.name("P"), end)
    built.ask("symmetric", point, other, "about", middle)


def arm(built: Building) -> None:
    """A segment from a point that stands."""
    points = [name for name in built.points()]
    if not points:
        return strip(built)
    begin = built.chance.choice(points)
    built.shape("segment", built.name("S"), begin, ahead(built.spot(begin), built.turn(), built.size()))


def lone_points(built: Building) -> None:
    """Points by themselves."""
    for _ in range(built.chance.randint(1, 2)):
        built.shape("point", built.name("P"), built.near())


BLOCKS: tuple[tuple[Callable[[Building], None], int], ...] = (
    (rectangle, 5), (polygon, 4), (kite, 3), (strip, 4), (slot, 2), (fillet, 3), (half_circle, 2),
    (holes, 4), (touching_circles, 2), (touching_line, 3), (points_on_lines, 4), (mirrored, 3),
    (arm, 3), (lone_points, 2))


MOST_BLOCKS = 4


def built(chance: random.Random, most: int = MOST_BLOCKS) -> Building:
    """One to four blocks, or at most so many, side by side or over each other; the first begins at
    the origin."""
    found = Building(chance)
    makes, weights = zip(*BLOCKS)
    for block in range(min(most, chance.choice((1, 1, 2, 2, 3, 4)))):
        found.block = block
        if block:
            found.corner = (chance.uniform(0, 2) * BLOCK, chance.uniform(0, 1) * BLOCK)
        chance.choices(makes, weights)[0](found)
    return found
