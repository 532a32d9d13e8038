"""What `derive` answers: the clusters that hold together where angles add up."""
from __future__ import annotations


from pertxogai.program.reports.rows import COUNT, NAMES, Rows, whole

_CLUSTERS = f"clusters ({COUNT})"
_CLUSTER = f"cluster ({COUNT}) : ({NAMES})"


def read_derive(text: str) -> tuple[tuple[str, ...], ...]:
    """Reads the report of `derive`: the names of each cluster, in order. Raises NotAReport."""
    with whole(text, "derive") as rows:
        count = int(rows.take(_CLUSTERS)[1])
        return tuple(_cluster(rows, number) for number in range(1, count + 1))


def write_derive(clusters: tuple[tuple[str, ...], ...]) -> str:
    """The report as the program writes it."""
    lines = [f"cluster {number} : {' '.join(names)}" for number, names in enumerate(clusters, 1)]
    return "\n".join([f"clusters {len(clusters)}", *lines, ""])


def _cluster(rows: Rows, number: int) -> tuple[str, ...]:
    found = rows.take(_CLUSTER)
    rows.claim(int(found[1]) == number)
    return tuple(found[2].split())
