"""Claims about sketches, true ones and changed ones, for several checkers to agree on.

A sketch is made by placing its elements first and reading the dimensions off their places, so that
it can be constructed: each new element has two constraints to elements that stand already. What
`plan` and `solve` print of it is a true claim.
"""
from __future__ import annotations

import math
import subprocess
from collections.abc import Iterator
from dataclasses import dataclass, field
from fractions import Fraction
from itertools import islice
from pathlib import Path
from random import Random

from changed_claims import changed

TOP = Path(__file__).resolve().parents[2]


@dataclass
class Drawn:
    """An element at its true place, in mm: a point or circle at x, y, or a line through x, y in the
    direction `angle`."""

    name: str
    kind: str
    x: float
    y: float
    angle: float = 0.0
    radius: float = 0.0

    def line(self, random: Random) -> str:
        """The line that draws it, a little beside its place."""
        x, y = self.x + random.uniform(-0.2, 0.2), self.y + random.uniform(-0.2, 0.2)
        if self.kind == "line":
            ahead = x + 10 * math.cos(self.angle), y + 10 * math.sin(self.angle)
            return f"line {self.name} {x:.3f} {y:.3f} {ahead[0]:.3f} {ahead[1]:.3f}"
        radius = f" {self.radius:.3f}" if self.kind == "circle" else ""
        return f"{self.kind} {self.name} {x:.3f} {y:.3f}{radius}"

    def height(self, point: Drawn) -> float:
        """How far a point lies from the line, in mm; above 0 on its left."""
        return math.cos(self.angle) * (point.y - self.y) - math.sin(self.angle) * (point.x - self.x)


@dataclass
class Growing:
    """A sketch that grows, element by element."""

    random: Random
    elements: list[Drawn] = field(default_factory=list)
    constraints: list[str] = field(default_factory=list)

    def tie(self, one: Drawn, other: Drawn) -> str | None:
        """A constraint of two elements that holds at their places, to a micrometre; None where
        there is none."""
        if one.kind == other.kind == "line":
            ratio = ratio_of(other.angle - one.angle)
            return f"angle {one.name} {other.name} {ratio}" if ratio else None
        if "line" in (one.kind, other.kind):
            line, point = (one, other) if one.kind == "line" else (other, one)
            length = abs(line.height(point))
        else:
            length = math.hypot(one.x - other.x, one.y - other.y)
        return f"distance {one.name} {other.name} {length:.3f}" if length >= 0.001 else None

    def touch(self, new: Drawn, other: Drawn) -> str | None:
        """A constraint by which a new circle touches the other, or has it on its rim, with the
        radius that this takes."""
        apart = math.hypot(new.x - other.x, new.y - other.y)
        across = abs(other.height(new)) if other.kind == "line" else apart
        is_inside = other.kind == "circle" and self.random.random() < 0.5
        radius = round(across + other.radius * (1 if is_inside else -1), 3)
        if radius <= 0:
            return None
        new.radius = radius
        if other.kind == "circle":
            return f"{'inside' if is_inside else 'outside'} {new.name} {other.name}"
        return f"{'tangent' if other.kind == 'line' else 'on'} {other.name} {new.name}"

    def add(self, kind: str) -> None:
        """Adds an element with two constraints to others, unless none can be said."""
        x, y, angle = (self.random.uniform(-most, most) for most in (80, 80, math.pi))
        name = f"{kind[0].upper()}{len(self.elements)}"
        new = Drawn(name, kind, x, y, angle, self.random.randint(1, 9))
        others = self.random.sample(self.elements, 2)
        if kind == "line" and all(it.kind == "line" for it in others):
            return
        touches = kind == "circle" and self.random.random() < 0.6
        first = self.touch(new, others[0]) if touches else self.tie(new, others[0])
        ties = [first, self.tie(new, others[1])]
        if all(ties):
            self.elements.append(new)
            self.constraints += [tie for tie in ties if tie]

    def begin(self) -> None:
        """A pair of points with their distance, or a block of 2 to 10 points and circles, of which
        some lie on one line."""
        blocked = self.random.random() < 0.4
        level = self.random.randint(2, 5)
        for number in range(self.random.choice([2, 3, 3, 4, 10]) if blocked else 2):
            y = 0 if blocked and number < level else self.random.randint(-20, 20)
            kind = self.random.choice(["point", "point", "circle"]) if blocked else "point"
            self.elements.append(Drawn(f"B{number}", kind, 9 * number, y, radius=1))
        if blocked:
            given = " ".join(f"{it.name} {it.x:g} {it.y:g}" for it in self.elements)
            self.constraints.append(f"block {given}")
        else:
            self.constraints += [tie for tie in [self.tie(*self.elements)] if tie]

    def text(self) -> str:
        """The sketch, with its header and `end`; in version 2 some lines have comments."""
        has_block = any(line.startswith("block") for line in self.constraints)
        version = 2 if has_block else self.random.choice([1, 2])
        lines = [*(it.line(self.random) for it in self.elements), *self.constraints]
        if version == 2:
            comments = ["", "", " # as drawn", "#", "\n\t# point"]
            lines = [line + self.random.choice(comments) for line in lines]
        return "\n".join([f"sketch {version}", *lines, "end", ""])


def ratio_of(turn: float) -> str | None:
    """The tangent of a turn in radians as the language has it, where it can be said."""
    if abs(math.cos(turn)) < 1e-9:
        return "1/0"
    ratio = Fraction(math.tan(turn)).limit_denominator(9000)
    is_said = 0 < abs(ratio.numerator) <= 10000
    return f"{ratio.numerator}/{ratio.denominator}" if is_said else None


def random_sketch(random: Random) -> str:
    """A sketch of 3 to 12 elements that is well, but for chance."""
    growing = Growing(random)
    growing.begin()
    for _ in range(random.randint(1, 9)):
        growing.add(random.choice(["point", "point", "circle", "line", "line"]))
    return growing.text()


def gallery() -> Iterator[str]:
    """The sketches of the gallery."""
    for path in sorted((TOP / "examples").glob("*.sketch")):
        yield path.read_text()


def claim_of(text: str, program: Path) -> str | None:
    """The sketch with what `plan` and `solve` print of it; None where they print no
    construction."""
    said = {}
    for command in ("plan", "solve"):
        words = [str(program), command]
        run = subprocess.run(words, input=text, capture_output=True, text=True, check=False)
        if run.returncode:
            return None
        said[command] = run.stdout.splitlines()
    steps = [line for line in said["plan"] if line.startswith("step ")]
    places = [line for line in said["solve"] if line.split()[0] in ("point", "circle", "line")]
    tolerances = [line.split()[2] for line in said["solve"][-2:]]
    front = text[: text.index("\nend") + len("\nend\n")]
    return front + "\n".join([*steps, *places, "tolerance " + " ".join(tolerances), ""])


def claims(program: Path, count: int, seed: int) -> Iterator[str]:
    """`count` claims by a seed: those of the gallery as they are, then random ones, of which a
    fourth is true."""
    return islice(_endless(program, Random(seed)), count)


def _endless(program: Path, random: Random) -> Iterator[str]:
    true = [claim for text in gallery() if (claim := claim_of(text, program))]
    yield from true
    while True:
        if made := claim_of(random_sketch(random), program):
            true.append(made)
            yield made
        yield from (changed(random.choice(true[-20:] + true[:20]), random) for _ in range(3))
