"""What `flips` reads: a sketch, and behind it lists of steps whose choices are to be turned
over."""
from __future__ import annotations

from collections.abc import Sequence
from dataclasses import dataclass

from pertxogai.language.clusters import ClusterName, read_cluster
from pertxogai.language.lines import check_words, read_lines_behind, rows_of
from pertxogai.language.refusal import Code, Faulty
from pertxogai.language.sketch import Sketch, read_sketch

MOST_FLIPS = 64
MOST_STEPS = 16
_COUNTS = {"flip": range(1, MOST_STEPS + 2), "end": (1,)}


@dataclass(frozen=True)
class Flip:
    """Up to 16 steps of the plan, by their numbers from 1 to 999999, each once. Without steps it is
    the drawing as it is."""

    steps: tuple[int, ...]

    def __post_init__(self) -> None:
        if len(self.steps) > MOST_STEPS or len(set(self.steps)) < len(self.steps):
            raise ValueError(f"a flip names up to {MOST_STEPS} steps, each once")
        if any(not 1 <= step <= 999_999 for step in self.steps):
            raise ValueError("the number of a step is from 1 to 999999")

    def text(self) -> str:
        """The line of the language."""
        return " ".join(["flip", *(ClusterName(True, step).text() for step in self.steps)])


@dataclass(frozen=True)
class Flips:
    """A sketch, and up to 64 lists of steps to flip, which are answered in turn."""

    sketch: Sketch
    flips: tuple[Flip, ...]

    def __post_init__(self) -> None:
        if len(self.flips) > MOST_FLIPS:
            raise ValueError(f"there are at most {MOST_FLIPS} flips for a sketch")

    def text(self) -> str:
        """The text that `flips` reads."""
        return self.sketch.text() + "\n".join([*(flip.text() for flip in self.flips), "end", ""])

    @staticmethod
    def parse(text: str) -> Flips:
        """Reads a sketch and the lists that follow it. Raises Refusal."""
        rows = rows_of(text)
        sketch, rest = read_sketch(rows)
        flips: list[Flip] = []
        read_lines_behind(rest, lambda words: _take(words, flips), len(rows))
        return Flips(sketch, tuple(flips))


def _take(words: Sequence[str], flips: list[Flip]) -> bool:
    """Adds a line, and returns whether it is the `end`. Raises Faulty: E2, E3, E4, E10, E21."""
    check_words(words, _COUNTS)
    if words[0] == "end":
        return True
    steps = [_step(word) for word in words[1:]]
    if len(set(steps)) < len(steps):
        raise Faulty(Code.E10)
    if len(flips) >= MOST_FLIPS:
        raise Faulty(Code.E21)
    flips.append(Flip(tuple(steps)))
    return False


def _step(word: str) -> int:
    name = read_cluster(word)
    if name is None or not name.is_step:
        raise Faulty(Code.E4)
    return name.number
