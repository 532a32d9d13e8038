"""The vertices and edges of a shape that FreeCAD stored as Open Cascade's text (`.brp`).

Only what a sketch can refer to is read: places of vertices, and of edges their straight or
circular curve. Edges and vertices are counted as FreeCAD counts them, Edge1, Vertex1 and so on:
in the order in which a walk through the shape meets them first.
"""

from __future__ import annotations

import math
import re
from collections.abc import Iterator
from dataclasses import dataclass, field
from enum import IntEnum

from pertxogai.files.freecad.space import Motion, Vector, add, scaled
from pertxogai.files.limits import SOLIDS_LINES, SOLIDS_PARTS, Count

_SECTIONS = ("Locations", "Curve2ds", "Curves", "Polygon3D", "PolygonOnTriangulations", "Surfaces",
             "Triangulations", "TShapes")
_PARTS = frozenset({"Ve", "Ed", "Wi", "Fa", "Sh", "So", "CS", "Co"})
_MATRIX = "1"
"""The kind of a motion that is told by its matrix; the other kind names motions before it."""
_CURVE_IN_SPACE = "1"
"""How a line of an edge begins that names a curve in space: its number, that of its motion, and the
parameters at which the edge begins and ends."""
_CHILDREN = re.compile(r"\s*(?:[-+io]\d+\s+\d+\s*)+")
"""A line of parts within a part, each with the number of its motion."""
_MOST_POWER = 8
"""The greatest power of a motion that another names."""
_MOST_FACTORS = 200
"""The most motions of which one is made."""
_MOST_DEPTH = 50
"""The most parts within each other."""


class _Curve(IntEnum):
    """The kinds of curves in space, by Open Cascade's numbers."""

    LINE = 1
    CIRCLE = 2
    ELLIPSE = 3
    PARABOLA = 4
    HYPERBOLA = 5
    BEZIER = 6
    B_SPLINE = 7
    TRIMMED = 8
    OFFSET = 9


_WORDS = {_Curve.LINE: 7, _Curve.CIRCLE: 14, _Curve.ELLIPSE: 15, _Curve.PARABOLA: 14,
          _Curve.HYPERBOLA: 15}
"""How many words a curve takes, with its kind, where that is always the same."""
_WORDS_BEFORE = {_Curve.TRIMMED: 3, _Curve.OFFSET: 5}
"""How many words stand before the curve that another is a piece of, or runs beside."""
_READ = (_Curve.LINE, _Curve.CIRCLE)
"""The kinds of curves of which the numbers are read."""


class BadShape(Exception):
    """The text isn't read as a shape."""


@dataclass(frozen=True)
class Straight:
    """A straight edge, from place to place."""

    start: Vector
    end: Vector


@dataclass(frozen=True)
class Round:
    """A circular edge: its centre, its axis, its ends, its radius; a whole circle where these
    are one place."""

    centre: Vector
    axis: Vector
    start: Vector
    end: Vector
    radius: float
    whole: bool


Edge = Straight | Round | None
"""An edge; nothing where its curve is another one."""


@dataclass(frozen=True)
class Solid:
    """The vertices and edges of a shape."""

    vertices: tuple[Vector, ...]
    edges: tuple[Edge, ...]


@dataclass(frozen=True)
class _Location:
    """A motion as a product of the file's own: the number and the power of each, in the order in
    which they are done, without what cancels out. Two are one where these are the same, as Open
    Cascade has it: a part that is met at one location twice is one."""

    factors: tuple[tuple[int, int], ...] = ()
    motion: Motion = field(default=Motion(), compare=False)

    def after(self, first: _Location) -> _Location:
        """This motion after another. Raises ValueError where that is made of too many."""
        factors = list(first.factors)
        for number, power in self.factors:
            _add_factor(factors, number, power)
        return _Location(tuple(factors), self.motion.after(first.motion))


def _add_factor(factors: list[tuple[int, int]], number: int, power: int) -> None:
    """Adds a motion behind others, which it may cancel. Raises ValueError where these are too
    many."""
    if factors and factors[-1][0] == number:
        power += factors.pop()[1]
    if power:
        factors.append((number, power))
    if len(factors) > _MOST_FACTORS:
        raise ValueError(len(factors))


@dataclass(frozen=True)
class _Child:
    """A part within a part: its number, and the number of its motion."""

    part: int
    motion: int


@dataclass(frozen=True)
class _Part:
    """A part of a shape: its word, its lines, and the parts within."""

    word: str
    lines: tuple[str, ...]
    children: tuple[_Child, ...]


@dataclass
class Budget:
    """What may still be read of the shapes of a file: lines, and parts that are met."""

    lines: Count = field(default_factory=lambda: Count("lines in its stored shapes", SOLIDS_LINES))
    parts: Count = field(default_factory=lambda: Count("parts in its stored shapes", SOLIDS_PARTS))


def read_solid(text: str, budget: Budget) -> Solid:
    """The vertices and edges of a shape's text. Raises BadShape, and TooMuch where the budget is
    spent."""
    budget.lines.add(text.count("\n"))
    try:
        sections = _sections(text)
        locations = _locations(sections["Locations"], budget.parts)
        curves = tuple(_curves(" ".join(sections["Curves"]).split()))
        return _Walk(locations, curves, sections["TShapes"], budget.parts).solid()
    except (LookupError, ValueError, ArithmeticError, StopIteration):
        raise BadShape("its shape isn't stored as FreeCAD stores it") from None


def _sections(text: str) -> dict[str, list[str]]:
    """The lines of each section."""
    sections: dict[str, list[str]] = {}
    lines: list[str] = []
    for line in text.splitlines():
        words = line.split()
        if len(words) == 2 and words[0] in _SECTIONS:
            lines = sections[words[0]] = []
        else:
            lines.append(line)
    return sections


def _locations(lines: list[str], met: Count) -> list[_Location]:
    """The motions by their numbers; 0 is none. Each of which another is made counts as a part."""
    found = [_Location()]
    words = iter(" ".join(lines).split())
    for kind in words:
        if kind == _MATRIX:
            rows = [[float(next(words)) for _ in range(4)] for _ in range(3)]
            first, second, third = ((row[0], row[1], row[2]) for row in rows)
            motion = Motion((first, second, third), (rows[0][3], rows[1][3], rows[2][3]))
            found.append(_Location(((len(found), 1),), motion))
        else:
            found.append(_product(words, found, met))
    return found


def _product(words: Iterator[str], found: list[_Location], met: Count) -> _Location:
    """A motion that is made of others before it, each told by its matrix, in the order in which
    they are done. Raises ValueError where it is made otherwise, or a power is too great."""
    factors: list[tuple[int, int]] = []
    motion = Motion()
    while (number := int(next(words))) != 0:
        power, one = int(next(words)), found[number]
        if one.factors != ((number, 1),) or abs(power) > _MOST_POWER:
            raise ValueError(power)
        _add_factor(factors, number, power)
        for _ in range(abs(power)):
            met.add()
            motion = (one.motion if power > 0 else one.motion.inverse()).after(motion)
    return _Location(tuple(factors), motion)


def _curves(words: list[str]) -> Iterator[tuple[_Curve, list[float]]]:
    """The curves: the kind of each, and its numbers where it is a line or a circle; a piece of a
    curve counts as the curve."""
    place = 0
    while place < len(words):
        end = place + _length(words, place)
        while (kind := _kind(words, place)) is _Curve.TRIMMED:
            place += _WORDS_BEFORE[kind]
        yield kind, [float(word) for word in words[place + 1:end]] if kind in _READ else []
        place = end


def _kind(words: list[str], place: int) -> _Curve:
    """The kind of the curve that begins at a place. Raises ValueError where it is none."""
    return _Curve(int(words[place]))


def _length(words: list[str], place: int) -> int:
    """How many words the curve has that begins at a place. Raises ValueError where its counts
    are none."""
    begin = place
    while (kind := _kind(words, place)) in _WORDS_BEFORE:
        place += _WORDS_BEFORE[kind]
    if kind in _WORDS:
        return place - begin + _WORDS[kind]
    numbers_of_a_pole = 3 + _count(words[place + 1])  # One more where the curve is rational.
    if kind is _Curve.BEZIER:
        degree = _count(words[place + 2])
        return place - begin + 3 + (degree + 1) * numbers_of_a_pole
    poles, knots = _count(words[place + 4]), _count(words[place + 5])
    return place - begin + 6 + poles * numbers_of_a_pole + 2 * knots


def _count(word: str) -> int:
    """A count among the words of a curve. Raises ValueError where it is below 0."""
    if not word.isdecimal():
        raise ValueError(word)
    return int(word)


class _Walk:
    """A walk through the parts of a shape."""

    def __init__(self, locations: list[_Location],
                 curves: tuple[tuple[_Curve, list[float]], ...], lines: list[str],
                 met: Count) -> None:
        self._locations = locations
        self._curves = curves
        self._parts = list(_parts(lines))
        self._root = _children(lines[-1])[0] if lines[-1].strip() else _children(lines[-2])[0]
        self._met: dict[tuple[int, _Location], str] = {}
        self._count = met

    def solid(self) -> Solid:
        """All that the walk meets."""
        self._visit(self._root, _Location(), 0)
        vertices = tuple(at.motion.place(self._vertex(part))
                         for (part, at), word in self._met.items() if word == "Ve")
        edges = tuple(self._edge(part, at.motion)
                      for (part, at), word in self._met.items() if word == "Ed")
        return Solid(vertices, edges)

    def _visit(self, child: _Child, above: _Location, depth: int) -> None:
        self._count.add()
        if depth > _MOST_DEPTH:
            raise BadShape("its shape has parts within each other that are too many")
        part = self._part(child.part)
        at = above.after(self._locations[child.motion]) if child.motion else above
        if part.word in ("Ve", "Ed"):
            self._met.setdefault((child.part, at), part.word)
        for within in part.children:
            self._visit(within, at, depth + 1)

    def _part(self, number: int) -> _Part:
        """A part by its number; they are written from the last to the first."""
        return self._parts[len(self._parts) - number]

    def _vertex(self, number: int) -> Vector:
        x, y, z = (float(word) for word in self._part(number).lines[1].split())
        return (x, y, z)

    def _edge(self, number: int, motion: Motion) -> Edge:
        for line in self._part(number).lines[1:]:
            words = line.split()
            if words[:1] == [_CURVE_IN_SPACE] and len(words) == 5:
                within = motion.after(self._locations[int(words[2])].motion)
                kind, numbers = self._curves[int(words[1]) - 1]
                return _edge_between(kind, numbers, within, float(words[3]), float(words[4]))
        return None


def _parts(lines: list[str]) -> Iterator[_Part]:
    """The parts, each from its word to a line that ends in a star. Before that are lines of ten of
    the parts within each, where there are more."""
    word = ""
    gathered: list[str] = []
    for line in lines:
        if line.strip() in _PARTS:
            word, gathered = line.strip(), []
        elif line.rstrip().endswith("*"):
            within = [line]
            while gathered and _CHILDREN.fullmatch(gathered[-1]):
                within.append(gathered.pop())
            yield _Part(word, tuple(gathered), tuple(_children(" ".join(reversed(within)))))
        else:
            gathered.append(line)


def _children(line: str) -> list[_Child]:
    """The parts that a line names: `+16 0 -15 0 *`."""
    words = line.replace("*", " ").split()
    return [_Child(int(words[place].lstrip("+-io")), int(words[place + 1]))
            for place in range(0, len(words) - 1, 2)]


def _edge_between(kind: _Curve, numbers: list[float], motion: Motion, first: float, last: float
                  ) -> Edge:
    """The edge of a curve between two of its parameters: of a circle they are angles."""
    vectors = [(numbers[i], numbers[i + 1], numbers[i + 2]) for i in range(0, len(numbers) - 2, 3)]
    if kind is _Curve.LINE:
        at, along = vectors
        return Straight(*(motion.place(add(at, scaled(along, value))) for value in (first, last)))
    if kind is _Curve.CIRCLE:
        (centre, axis, right, up), radius = vectors, numbers[12]
        start, end = (motion.place(add(centre, add(scaled(right, radius * math.cos(value)),
                                                   scaled(up, radius * math.sin(value)))))
                      for value in (first, last))
        whole = abs(last - first - 2 * math.pi) < 1e-9
        return Round(motion.place(centre), motion.way(axis), start, end, radius, whole)
    return None
