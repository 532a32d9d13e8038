"""Sketches, their clusters and parts, as plainly as they are defined: no index, no shortcut.

Elements are numbered from 1 in the order of their lines, and so are constraints. Places are in
whole micrometres; a circle stands for its centre.
"""
from __future__ import annotations

from collections.abc import Callable, Iterable
from dataclasses import dataclass
from fractions import Fraction
from functools import reduce
from itertools import combinations, product

Elements = frozenset[int]
Numbers = frozenset[int]
# The elements of a cluster, and the numbers of the constraints that it owns.
Cluster = tuple[Elements, Numbers]
# Two or three clusters, and whether they may merge.
Some = tuple[Cluster, ...]
Rule = Callable[[Some], bool]
Place = tuple[int, int]


@dataclass(frozen=True)
class Element:
    """A point, a circle or a line by its name, with its first place and, for a line, the way to
    its second."""

    name: str
    kind: str
    at: Place
    way: Place = (0, 0)

    @property
    def is_line(self) -> bool:
        """Whether it is a line."""
        return self.kind == "line"


@dataclass(frozen=True)
class Constraint:
    """A constraint by its line, with the elements that it ties and its weight: 2k - 3 for a block
    of k pins."""

    line: str
    elements: Elements
    weight: int = 1


@dataclass(frozen=True)
class Sketch:
    """Elements and constraints in order."""

    elements: tuple[Element, ...]
    constraints: tuple[Constraint, ...]

    def element(self, number: int) -> Element:
        """The element of a number."""
        return self.elements[number - 1]

    def is_line(self, number: int) -> bool:
        """Whether the element of a number is a line."""
        return self.element(number).is_line

    @property
    def numbers(self) -> range:
        """The numbers of its elements."""
        return range(1, len(self.elements) + 1)

    def starts(self, numbers: Iterable[int] | None = None) -> list[Cluster]:
        """The starting clusters of all constraints, or of those of some numbers."""
        among = range(1, len(self.constraints) + 1) if numbers is None else numbers
        return [(self.constraints[k - 1].elements, frozenset([k])) for k in among]

    def held(self, among: Elements) -> int:
        """What the constraints weigh that lie among some elements."""
        return sum(it.weight for it in self.constraints if it.elements <= among)

    def is_over(self, part: Elements) -> bool:
        """Whether a part holds more than is due."""
        return self.held(part) > max(2 * len(part) - 3, 0)


def read(text: str) -> Sketch:
    """The sketch of a canonical text."""
    elements: list[Element] = []
    constraints: list[Constraint] = []
    numbers: dict[str, int] = {}
    for line in text.splitlines()[1:-1]:
        word, *rest = line.split(" ")
        if word in ("point", "line", "circle"):
            numbers[rest[0]] = len(elements) + 1
            elements.append(_element(word, rest))
        elif word == "block":
            pins = frozenset(numbers[name] for name in rest[::3])
            constraints.append(Constraint(line, pins, 2 * len(pins) - 3))
        else:
            constraints.append(Constraint(line, frozenset(numbers[name] for name in rest[:2])))
    return Sketch(tuple(elements), tuple(constraints))


def _element(kind: str, words: list[str]) -> Element:
    name, *spelled = words
    places = [int(Fraction(word) * 1000) for word in spelled]
    at = places[0], places[1]
    way = (places[2] - at[0], places[3] - at[1]) if kind == "line" else (0, 0)
    return Element(name, kind, at, way)


def millimetres(length: int) -> str:
    """A length in micrometres as the language spells it."""
    whole, rest = divmod(abs(length), 1000)
    spelled = f"{whole}.{rest:03}".rstrip("0").rstrip(".")
    return f"-{spelled}" if length < 0 else spelled


def merged(clusters: list[Cluster], some: Some) -> list[Cluster]:
    """The clusters with some of them as one."""
    one = reduce(lambda a, b: (a[0] | b[0], a[1] | b[1]), some)
    return [*(it for it in clusters if it not in some), one]


def are_corners(sketch: Sketch, corners: tuple[int, int, int]) -> bool:
    """Whether three elements are different, and not all lines."""
    return len(set(corners)) == 3 and not all(map(sketch.is_line, corners))


def may_merge(sketch: Sketch, some: Some) -> bool:
    """The pair rule of two clusters, the triangle rule of three."""
    if len(some) == 2:
        return len(some[0][0] & some[1][0]) >= 2
    a, b, c = (it[0] for it in some)
    return any(are_corners(sketch, it) for it in product(a & b, b & c, c & a))


def first_merge(clusters: list[Cluster], may: Rule) -> Some | None:
    """Two or three clusters that may merge by a rule."""
    some = (it for count in (2, 3) for it in combinations(clusters, count) if may(it))
    return next(some, None)


def closed(sketch: Sketch, clusters: list[Cluster]) -> list[Cluster]:
    """What merging leads to by the pair rule and the triangle rule."""
    while some := first_merge(clusters, lambda it: may_merge(sketch, it)):
        clusters = merged(clusters, some)
    return clusters


def tied(sketch: Sketch, clusters: list[Cluster]) -> list[Elements]:
    """The classes of tied lines: lines in one cluster are of one class. A line in no cluster is in
    none."""
    classes: list[Elements] = []
    for elements, _ in clusters:
        lines = frozenset(filter(sketch.is_line, elements))
        if lines:
            apart = [it for it in classes if not it & lines]
            classes = [*apart, lines.union(*(it for it in classes if it & lines))]
    return classes


def widely_closed(sketch: Sketch, clusters: list[Cluster]) -> list[Cluster]:
    """The same by a third rule too: two clusters share a point, and lines of both are tied."""

    def may(some: Some) -> bool:
        if may_merge(sketch, some):
            return True
        if len(some) == 3 or all(map(sketch.is_line, some[0][0] & some[1][0])):
            return False
        return any(it & some[0][0] and it & some[1][0] for it in tied(sketch, clusters))

    while some := first_merge(clusters, may):
        clusters = merged(clusters, some)
    return clusters


def parts(sketch: Sketch) -> list[Elements]:
    """The parts in order: the clusters, and the elements that no constraint names."""
    clusters = [it[0] for it in closed(sketch, sketch.starts())]
    named = frozenset().union(*clusters)
    lone = [frozenset([it]) for it in sketch.numbers if it not in named]
    return sorted([*clusters, *lone], key=sorted)


def verdict(sketch: Sketch) -> str:
    """The verdict: well, over or open."""
    all_parts = parts(sketch)
    if any(map(sketch.is_over, all_parts)):
        return "over"
    return "well" if len(all_parts) == 1 else "open"
