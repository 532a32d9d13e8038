"""What `verify` answers: that a claim is right, or what fails of it first."""
from __future__ import annotations

from dataclasses import dataclass
from enum import Enum

from pertxogai.language.clusters import ClusterName
from pertxogai.program.reports.rows import CLUSTER, COUNT, NAME, cluster, whole

_VERIFIED = f"verified steps ({COUNT}) length ({COUNT}) nm angle ({COUNT}) ppb"
_FAILS = (
    f"verify fails (?:({CLUSTER})|(parts)|(element|line) ({NAME})|(sign) ({CLUSTER}))"
)


@dataclass(frozen=True)
class Verified:
    """The claim is right: its steps are a plan, each length holds within length_nm, and each angle
    within angle_ppb."""

    steps: int
    length_nm: int
    angle_ppb: int

    def text(self) -> str:
        """The line that the program writes."""
        return (
            f"verified steps {self.steps} length {self.length_nm} nm angle {self.angle_ppb} ppb\n"
        )


class Failing(Enum):
    """What may fail in a claim; the value is the word in the report."""

    CLUSTER = ""  #: a step isn't legal, or a constraint doesn't hold
    PARTS = "parts"  #: the steps leave more than one part
    ELEMENT = "element"  #: an element has no line, or another radius
    LINE = "line"  #: a normal hasn't length 1
    SIGN = "sign"  #: a step, angle or block turns otherwise than it is drawn


@dataclass(frozen=True)
class ClaimFails:
    """The first failure of a claim: what fails, and the step, constraint or element; None for the
    parts."""

    what: Failing
    of: ClusterName | str | None

    def text(self) -> str:
        """The line that the program writes."""
        of = self.of.text() if isinstance(self.of, ClusterName) else self.of
        return " ".join(["verify fails", *(word for word in (self.what.value, of) if word)]) + "\n"


def read_verify(text: str) -> Verified | ClaimFails:
    """Reads the report of `verify`. Raises NotAReport."""
    with whole(text, "verify") as rows:
        if found := rows.take_if(_VERIFIED):
            return Verified(int(found[1]), int(found[2]), int(found[3]))
        found = rows.take(_FAILS)
        if found[1]:
            return ClaimFails(Failing.CLUSTER, cluster(found[1]))
        if found[2]:
            return ClaimFails(Failing.PARTS, None)
        if found[3]:
            return ClaimFails(Failing(found[3]), found[4])
        return ClaimFails(Failing.SIGN, cluster(found[6]))
