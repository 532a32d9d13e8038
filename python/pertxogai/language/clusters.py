"""Clusters by their names, and the steps that join them."""
from __future__ import annotations

import re
from dataclasses import dataclass
from enum import Enum

_CLUSTER = re.compile("([cs])([1-9][0-9]{0,5})")


@dataclass(frozen=True)
class ClusterName:
    """A cluster: the one of the constraint `number`, or the one that the step `number` made."""

    is_step: bool
    number: int

    def text(self) -> str:
        """As reports write it: `c3` or `s1`."""
        return f"{'s' if self.is_step else 'c'}{self.number}"


def read_cluster(word: str) -> ClusterName | None:
    """The cluster of a word, or None where it is no cluster's name: a number goes from 1 to
    999999."""
    found = _CLUSTER.fullmatch(word)
    return ClusterName(found[1] == "s", int(found[2])) if found else None


class Choice(Enum):
    """Which of two solutions a step takes."""

    TURN_PLUS = "turn +"
    TURN_MINUS = "turn -"
    ADVANCE_PLUS = "advance +"
    ADVANCE_MINUS = "advance -"
    NONE = "none"


@dataclass(frozen=True)
class Step:
    """A step of a plan: the three clusters that it joins; the elements shared by the first and
    second, the second and third, and the third and first; the cluster that isn't moved; and the
    choice."""

    number: int
    joins: tuple[ClusterName, ClusterName, ClusterName]
    at: tuple[str, str, str]
    keeps: ClusterName
    choice: Choice

    def text(self) -> str:
        """The line of a plan or claim."""
        joins = " ".join(name.text() for name in self.joins)
        return (
            f"step s{self.number} joins {joins} at {' '.join(self.at)} keeps {self.keeps.text()}"
            f" {self.choice.value}"
        )
