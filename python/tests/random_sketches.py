"""Sketches at random, in canonical text: open, over and well, of all kinds of elements.

Places are often whole millimetres, so that elements are drawn in one place, in a row, level or
square.
"""
from __future__ import annotations

from collections.abc import Iterator
from random import Random

from plain_sketches import millimetres


def place(random: Random) -> list[str]:
    """A place, mostly on a coarse grid, in the language's spelling."""
    step = random.choice([1000, 1000, 10_000, 1])
    most = random.choice([3000, 40_000])
    return [millimetres(random.randint(-most, most) // step * step) for _ in range(2)]


def element(random: Random, name: str) -> str:
    """The line of an element."""
    kind = random.choices(["point", "line", "circle"], [5, 4, 1])[0]
    first = place(random)
    if kind == "line":
        second = place(random)
        while second == first:
            second = place(random)
        return " ".join([kind, name, *first, *second])
    return " ".join([kind, name, *first, *(["2"] if kind == "circle" else [])])


def tie(random: Random, kinds: dict[str, str]) -> str | None:
    """A constraint between two elements, of which one has a centre or both are lines."""
    one, other = random.sample(sorted(kinds), 2)
    if kinds[one] == kinds[other] == "line":
        return f"angle {one} {other} {random.choice(['1/0', '1/1', '-2/3'])}"
    if kinds[other] == "line" and random.random() < 0.2:
        return f"on {one} {other}"
    return f"distance {one} {other} {random.randint(1, 30)}"


def block(random: Random, kinds: dict[str, str]) -> str | None:
    """A block of points and circles, at places that differ; None where there are too few."""
    centred = sorted(name for name, kind in kinds.items() if kind != "line")
    count = random.randint(2, 4)
    if len(centred) < count:
        return None
    pins = random.sample(centred, count)
    given = [word for at, name in enumerate(pins) for word in (name, str(5 * at), str(at * at))]
    return " ".join(["block", *given])


def sketch(random: Random) -> str:
    """A canonical text of 1 to 9 elements."""
    elements = [element(random, f"E{at}") for at in range(random.randint(1, 9))]
    kinds = {line.split(" ")[1]: line.split(" ")[0] for line in elements}
    ties: set[str] = set()
    if len(elements) > 1:
        due = 2 * len(elements) - 3
        for _ in range(max(0, due + random.choice([-8, -6, -5, -4, -3, -2, -1, 0, 1]))):
            ties.add(tie(random, kinds) or "")
    ties |= {block(random, kinds) or "" for _ in range(random.choice([0, 0, 0, 0, 1]))}
    constraints = random.sample(sorted(ties - {""}), len(ties - {""}))
    version = 2 if any(line.startswith("block") for line in constraints) else 1
    return "\n".join([f"sketch {version}", *elements, *constraints, "end", ""])


def sketches(count: int, seed: int) -> Iterator[str]:
    """So many sketches."""
    random = Random(seed)
    for _ in range(count):
        yield sketch(random)
