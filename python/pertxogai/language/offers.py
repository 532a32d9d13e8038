"""What `offers` reads: a sketch, and behind it merges that workers offer."""
from __future__ import annotations

import re
from collections.abc import Sequence
from dataclasses import dataclass

from pertxogai.language.clusters import ClusterName, read_cluster
from pertxogai.language.lines import check_words, read_lines_behind, rows_of
from pertxogai.language.refusal import Code, Faulty
from pertxogai.language.sketch import Sketch, read_sketch

MOST_WORKERS = 64
_COUNTS = {"offer": (4, 5), "end": (1,)}
_WORKER = re.compile("[1-9][0-9]?")


@dataclass(frozen=True)
class Offer:
    """A worker, 1 to 64, offers to merge two or three different clusters."""

    worker: int
    clusters: tuple[ClusterName, ...]

    def __post_init__(self) -> None:
        if not 1 <= self.worker <= MOST_WORKERS:
            raise ValueError(f"a worker is a number from 1 to {MOST_WORKERS}")
        if not len(set(self.clusters)) == len(self.clusters) in (2, 3):
            raise ValueError("an offer names two or three different clusters")

    def text(self) -> str:
        """The line of the language."""
        return " ".join(["offer", str(self.worker), *(name.text() for name in self.clusters)])


@dataclass(frozen=True)
class Offers:
    """A sketch, and the offers in their order."""

    sketch: Sketch
    offers: tuple[Offer, ...]

    def text(self) -> str:
        """The text that `offers` reads."""
        return self.sketch.text() + "\n".join(
            [*(offer.text() for offer in self.offers), "end", ""]
        )

    @staticmethod
    def parse(text: str) -> Offers:
        """Reads a sketch and the offers that follow it. Raises Refusal."""
        rows = rows_of(text)
        sketch, rest = read_sketch(rows)
        offers: list[Offer] = []
        read_lines_behind(rest, lambda words: _take(words, offers), len(rows))
        return Offers(sketch, tuple(offers))


def _take(words: Sequence[str], offers: list[Offer]) -> bool:
    """Adds a line, and returns whether it is the `end`. Raises Faulty: E2, E3, E8, E4, E10."""
    check_words(words, _COUNTS)
    if words[0] == "end":
        return True
    if not _WORKER.fullmatch(words[1]) or int(words[1]) > MOST_WORKERS:
        raise Faulty(Code.E8)
    names = tuple(name for name in map(read_cluster, words[2:]) if name)
    if len(names) < len(words) - 2:
        raise Faulty(Code.E4)
    if len(set(names)) < len(names):
        raise Faulty(Code.E10)
    offers.append(Offer(int(words[1]), names))
    return False
