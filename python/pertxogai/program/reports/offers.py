"""What `offers` answers: to each offered merge, and then the report of `check`."""
from __future__ import annotations

import re
from dataclasses import dataclass

from pertxogai.language.clusters import ClusterName
from pertxogai.program.reports.check import CheckReport, take_check
from pertxogai.program.reports.rows import CLUSTER, COUNT, cluster, whole

_OFFER = f"offer ({COUNT}) (?:taken s({COUNT})|stale ({CLUSTER})|idle)"


@dataclass(frozen=True)
class Taken:
    """The merge is done; it made the cluster of that step."""

    step: ClusterName


@dataclass(frozen=True)
class Stale:
    """That cluster doesn't exist any more."""

    cluster: ClusterName


@dataclass(frozen=True)
class Idle:
    """All clusters of the offer exist, and no rule merges them."""


@dataclass(frozen=True)
class Offered:
    """The answer to an offer of a worker."""

    worker: int
    answer: Taken | Stale | Idle

    def text(self) -> str:
        """The line of the report."""
        said = "idle"
        if isinstance(self.answer, Taken):
            said = f"taken {self.answer.step.text()}"
        if isinstance(self.answer, Stale):
            said = f"stale {self.answer.cluster.text()}"
        return f"offer {self.worker} {said}\n"


@dataclass(frozen=True)
class OffersReport:
    """The answers in the order of the offers, and the report of `check`, which doesn't depend on
    the offers."""

    answers: tuple[Offered, ...]
    check: CheckReport

    def text(self) -> str:
        """The report as the program writes it."""
        return "".join(it.text() for it in self.answers) + self.check.text()


def read_offers(text: str) -> OffersReport:
    """Reads the report of `offers`. Raises NotAReport."""
    with whole(text, "offers") as rows:
        answers = tuple(_offer_of(found) for found in rows.take_all(_OFFER))
        return OffersReport(answers, take_check(rows))


def _offer_of(found: re.Match[str]) -> Offered:
    answer: Taken | Stale | Idle = Idle()
    if found[2]:
        answer = Taken(ClusterName(True, int(found[2])))
    elif found[3]:
        answer = Stale(cluster(found[3]))
    return Offered(int(found[1]), answer)
