"""The completion of a sketch as it is defined: one constraint after another, the least of all."""
from __future__ import annotations

from collections.abc import Iterator
from dataclasses import replace
from math import isqrt

from plain_sketches import (
    Constraint,
    Element,
    Elements,
    Place,
    Sketch,
    closed,
    millimetres,
    parts,
    tied,
    verdict,
    widely_closed,
)

MOST = 10**9  # the greatest length, in micrometres
BASES = 8


def minus(to: Place, start: Place) -> Place:
    """The way from a place to another."""
    return to[0] - start[0], to[1] - start[1]


def dot(a: Place, b: Place) -> int:
    """How far the one goes along the other, times its length."""
    return a[0] * b[0] + a[1] * b[1]


def cross(a: Place, b: Place) -> int:
    """How far the second goes to the left of the first, times its length."""
    return a[0] * b[1] - a[1] * b[0]


def square(a: Place) -> int:
    """The square of a length."""
    return dot(a, a)


def nearest_root(over: int, under: int) -> int:
    """The whole number nearest to the root of a quotient."""
    root = isqrt(over // under)
    return root + (4 * over >= (2 * root + 1) ** 2 * under)


def nearest_fraction(over: int, under: int) -> tuple[int, int]:
    """The fraction nearest to a quotient, of denominators up to 10,000; of several the one with
    the least."""
    best = (0, 1)
    for m in range(1, 10_001):
        for n in (over * m // under, over * m // under + 1):
            # |n/m - over/under| < |best - over/under|, without the common denominator
            if abs(n * under - over * m) * best[1] < abs(best[0] * under - over * best[1]) * m:
                best = n, m
    return best


def drawn_ratio(first: Element, second: Element) -> str | None:
    """The ratio of the angle between two lines; None where it is 0."""
    c, d = cross(first.way, second.way), dot(first.way, second.way)
    n, m = nearest_fraction(min(abs(c), abs(d)), max(abs(c), abs(d)))
    p, q = (n, m) if abs(c) <= abs(d) else (m, n)
    if p == 0:
        return None
    return f"{'-' if c * d < 0 and q else ''}{p}/{q}"


def is_turned(first: Element, second: Element) -> bool:
    """Whether the ratio isn't 0: the tangent is nearer to 1/10,000 than to 0."""
    return 20_000 * abs(cross(first.way, second.way)) > abs(dot(first.way, second.way))


def drawn_length(u: Element, v: Element) -> int:
    """How far two elements, not both lines, are drawn apart, in micrometres."""
    if u.is_line or v.is_line:
        line, point = (u, v) if u.is_line else (v, u)
        return nearest_root(cross(line.way, minus(point.at, line.at)) ** 2, square(line.way))
    return nearest_root(square(minus(v.at, u.at)), 1)


def drawn_size(u: Element, v: Element) -> int | None:
    """The size of what is drawn between two elements: its length, 0 for an angle; None where
    nothing can be said."""
    if u.is_line and v.is_line:
        return 0 if is_turned(u, v) else None
    length = drawn_length(u, v)
    least = 0 if u.is_line or v.is_line else 1
    return length if least <= length <= MOST else None


def drawn_line(sketch: Sketch, one: int, other: int) -> str:
    """The line of the constraint that says what is drawn between two elements."""
    first, second = (sketch.element(it) for it in sorted([one, other]))
    if first.is_line and second.is_line:
        return f"angle {first.name} {second.name} {drawn_ratio(first, second)}"
    if first.is_line:
        first, second = second, first
    length = drawn_length(first, second)
    if length == 0:
        return f"on {first.name} {second.name}"
    return f"distance {first.name} {second.name} {millimetres(length)}"


def firmness(w: Element, u: Element, v: Element) -> tuple[int, int]:
    """X and the grade of a constraint of u and v that holds two bodies which share w alone."""
    if u.is_line and v.is_line and not w.is_line:
        return 1, 16
    if w.is_line and (u.is_line or v.is_line):
        x, m = _sine(w.way, (u if u.is_line else v).way)
    elif w.is_line:
        x, m = _cosine(w.way, minus(v.at, u.at))
    elif u.is_line or v.is_line:
        line, point = (u, v) if u.is_line else (v, u)
        x, m = _cosine(line.way, minus(point.at, w.at))
    else:
        first, second = minus(u.at, w.at), minus(v.at, w.at)
        x = cross(first, second)
        m = max(square(first), square(second)) * square(minus(v.at, u.at))
    return x, x * x // (m // 16 + 1)


def _sine(a: Place, b: Place) -> tuple[int, int]:
    return cross(a, b), square(a) * square(b)


def _cosine(a: Place, b: Place) -> tuple[int, int]:
    return dot(a, b), square(a) * square(b)


def chained(start: Elements, all_parts: list[Elements]) -> Elements:
    """The elements of all parts that a chain of parts joins to one."""
    reached = start
    while more := reached.union(*(it for it in all_parts if it & reached)) - reached:
        reached |= more
    return reached


def pairs(sketch: Sketch, base: Elements) -> Iterator[tuple[tuple[int, ...], int, int]]:
    """The allowed pairs, each with what decides between them."""
    all_parts = parts(sketch)
    whole = next(it for it in all_parts if base <= it)
    wide = widely_closed(sketch, sketch.starts())
    classes = tied(sketch, wide)
    reached = chained(whole, all_parts)
    for u in sketch.numbers:
        if u in whole:
            continue
        hinges = [w for w in whole if any({u, w} <= it for it in all_parts if it != whole)]
        for v in whole:
            size = drawn_size(sketch.element(u), sketch.element(v))
            is_told = any({u, v} <= it[0] for it in wide) or any({u, v} <= it for it in classes)
            if size is None or is_told:
                continue
            rank, grade = _rank(sketch, u, v, hinges, u in reached)
            yield (rank, u, 16 - grade, size, v), u, v


def _rank(sketch: Sketch, u: int, v: int, hinges: list[int], is_reached: bool) -> tuple[int, int]:
    if not hinges:
        return (3, 0) if is_reached else (1, 0)
    w, first, second = (sketch.element(it) for it in (min(hinges), u, v))
    x, grade = firmness(w, first, second)
    return (0 if grade > 0 else 2 if x else 4), grade


def grown(sketch: Sketch, base: Elements, missing: int) -> Sketch | None:
    """The sketch with as many constraints as are missing, from a base; None where there are not so
    many."""
    for _ in range(missing):
        best = min(pairs(sketch, base), default=None)
        if best is None:
            return None
        _, u, v = best
        added = Constraint(drawn_line(sketch, u, v), frozenset([u, v]))
        sketch = replace(sketch, constraints=(*sketch.constraints, added))
    return sketch


def hindrance(sketch: Sketch) -> str | None:
    """Why no completion is sought of a sketch that isn't well."""
    lines = [it for it in sketch.numbers if sketch.is_line(it)]
    if verdict(sketch) == "over":
        return "over"
    if len(lines) == len(sketch.elements) > 2:
        return "lines"
    clusters = closed(sketch, sketch.starts())
    classes = tied(sketch, clusters)
    alone = len(lines) - len(frozenset().union(*classes))
    angles = sum(max(sum(map(sketch.is_line, it)) - 1, 0) for it, _ in clusters)
    if angles > len(lines) - (len(classes) + alone):
        return "angles"
    return "enough" if missing_in(sketch) <= 0 else None


def missing_in(sketch: Sketch) -> int:
    """How much weight is missing."""
    return 2 * len(sketch.elements) - 3 - sum(it.weight for it in sketch.constraints)


def completion(sketch: Sketch) -> Sketch | str:
    """The completion, or the reason for which there is none."""
    if verdict(sketch) == "well":
        return sketch
    if reason := hindrance(sketch):
        return reason
    bases = sorted(parts(sketch), key=lambda it: (-len(it), sorted(it)))[:BASES]
    for base in bases:
        whole = grown(sketch, base, missing_in(sketch))
        if whole and verdict(whole) == "well":
            return whole
    return "stuck"
