"""A drawing's text, read from what python/DRAWING.md says of it, and from nothing else."""
from __future__ import annotations

from collections.abc import Iterator
from dataclasses import dataclass, field

Spot = tuple[float, float]
DATUM = frozenset({"Origin", "XAxis", "YAxis"})
POINTS_OF = {"point": ("",), "segment": (".start", ".end"), "circle": (".centre",),
             "arc": (".centre", ".start", ".end")}
EACH_ALONE = frozenset({"horizontal", "vertical", "fixed", "length", "radius", "diameter"})
LEVELS = frozenset({"horizontal", "vertical"})
"""These take segments, or two points."""
EACH_WITH_THE_FIRST = frozenset({"coincident", "parallel", "collinear", "equal", "concentric"})
MM_PER_INCH = 25.4


@dataclass(frozen=True)
class Shape:
    """A shape: its kind, its name, whether it is given from outside, and its points' names."""

    kind: str
    name: str
    outer: bool

    def points(self) -> tuple[str, ...]:
        """The names of its points."""
        return tuple(self.name + which for which in POINTS_OF[self.kind])


@dataclass(frozen=True)
class Word:
    """One constraint: its word, the names that it speaks of, its value as it is written, and the
    number of its line, from 0."""

    kind: str
    names: tuple[str, ...]
    value: str | None
    line: int

    def number(self) -> float:
        """The value in mm."""
        assert self.value is not None
        text = self.value
        if text.endswith("in"):
            return float(text[:-2]) * MM_PER_INCH
        return float(text.removesuffix("mm"))

    def is_signed(self) -> bool:
        """Whether the value has a sign."""
        return self.value is not None and self.value[0] in "+-"


@dataclass
class Sheet:
    """A drawing: its lines, its shapes and words in their order; which unknown each point is,
    where each unknown point is drawn, and how large each circle."""

    lines: list[str] = field(default_factory=list)
    shapes: dict[str, Shape] = field(default_factory=dict)
    words: list[Word] = field(default_factory=list)
    unknown: dict[str, str] = field(default_factory=dict)
    drawn: dict[str, Spot] = field(default_factory=dict)
    radii: dict[str, float] = field(default_factory=dict)

    def point(self, name: str) -> str:
        """The unknown that a point's name stands for; a rim alone stands for its centre."""
        shape = self.shapes.get(name)
        centred = shape is not None and shape.kind in ("circle", "arc")
        return self.unknown[f"{name}.centre" if centred else name]

    def is_line(self, name: str) -> bool:
        """Whether it is a segment or an axis."""
        return name in ("XAxis", "YAxis") or name in self.shapes and self.shapes[name].kind == "segment"

    def is_rim(self, name: str) -> bool:
        """Whether it is a circle or an arc."""
        return name in self.shapes and self.shapes[name].kind in ("circle", "arc")


def read(text: str) -> Sheet:
    """The drawing of a text."""
    sheet = Sheet(text.splitlines())
    sheet.unknown["Origin"] = "Origin"
    sheet.drawn["Origin"] = (0.0, 0.0)
    for count, line in enumerate(sheet.lines):
        said = line.partition("#")[0]
        words = said.rpartition(":")[2].split()
        if words and words != ["drawing", "1"]:
            _take(sheet, words, count)
    return sheet


def _take(sheet: Sheet, words: list[str], count: int) -> None:
    flags = [word for word in words if word in ("construction", "outer")]
    kind, *rest = [word for word in words if word not in flags]
    if kind in POINTS_OF:
        _draw(sheet, Shape(kind, rest[0], "outer" in flags), rest[1:])
    elif kind == "rectangle":
        _rectangle(sheet, rest, count)
    elif kind == "polyline":
        _polyline(sheet, rest)
    else:
        sheet.words += _asked(sheet, kind, rest, count)


def _draw(sheet: Sheet, shape: Shape, rest: list[str]) -> None:
    """A shape whose spots are two numbers each, or the name of a point."""
    sheet.shapes[shape.name] = shape
    for name in shape.points():
        rest = _spot(sheet, name, rest)
    if shape.kind == "circle":
        sheet.radii[shape.name] = float(rest[0])


def _spot(sheet: Sheet, name: str, rest: list[str]) -> list[str]:
    """Takes a spot for a point, and returns the words behind it."""
    if rest[0][0].isalpha():
        sheet.unknown[name] = sheet.point(rest[0])
        return rest[1:]
    sheet.unknown[name] = name
    sheet.drawn[name] = (float(rest[0]), float(rest[1]))
    return rest[2:]


def _rectangle(sheet: Sheet, rest: list[str], count: int) -> None:
    """A rectangle by numbers: four segments round it from the lower left corner."""
    name, *numbers = rest
    (x, u), (y, v) = (sorted(map(float, numbers[k::2])) for k in (0, 1))
    _chain(sheet, [name + side for side in ("Bottom", "Right", "Top", "Left")],
           [[f"{a}", f"{b}"] for a, b in ((x, y), (u, y), (u, v), (x, v))])
    sheet.words += [Word(kind, (name + side,), None, count) for side, kind in
                    (("Bottom", "horizontal"), ("Right", "vertical"), ("Top", "horizontal"),
                     ("Left", "vertical"))]


def _polyline(sheet: Sheet, rest: list[str]) -> None:
    """Segments from corner to corner, by numbers or names."""
    name, *spots = rest
    closed = spots[-1] == "closed"
    corners: list[list[str]] = []
    for word in spots[:-1] if closed else spots:
        if corners and len(corners[-1]) == 1 and not corners[-1][0][0].isalpha():
            corners[-1].append(word)
        else:
            corners.append([word])
    sides = len(corners) - (not closed)
    _chain(sheet, [f"{name}{side + 1}" for side in range(sides)], corners)


def _chain(sheet: Sheet, names: list[str], corners: list[list[str]]) -> None:
    begin = corners[0]
    for place, name in enumerate(names, 1):
        end = corners[place] if place < len(corners) else [f"{names[0]}.start"]
        _draw(sheet, Shape("segment", name, False), begin + end)
        begin = [f"{name}.end"]


def _asked(sheet: Sheet, kind: str, rest: list[str], count: int) -> Iterator[Word]:
    """The constraints that a line asks for."""
    rest = [word for word in rest if word != "about"]
    value = rest.pop() if rest[-1][0] in "+-0123456789" else None
    of_points = kind in LEVELS and not sheet.is_line(rest[0])
    if kind in EACH_ALONE and not of_points:
        yield from (Word(kind, (name,), value, count) for name in rest)
    elif kind in EACH_WITH_THE_FIRST or of_points:
        yield from (Word(kind, (rest[0], name), value, count) for name in rest[1:])
    else:
        yield Word(kind, tuple(rest), value, count)
