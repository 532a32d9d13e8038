"""What is left out of what is over, and what each follows from, as it is defined: one by one."""
from __future__ import annotations

from plain_sketches import Elements, Numbers, Sketch, closed, parts


def is_tied(sketch: Sketch, numbers: Numbers, elements: Elements) -> bool:
    """Whether the constraints of some numbers make a cluster with all of the elements."""
    return any(elements <= it for it, _ in closed(sketch, sketch.starts(sorted(numbers))))


def own_numbers(sketch: Sketch, part: Elements) -> Numbers:
    """The constraints that lie in a part."""
    return frozenset(
        k for k, it in enumerate(sketch.constraints, 1) if it.elements <= part
    )


def left_out(sketch: Sketch, part: Elements) -> Numbers:
    """What a minimal choice leaves out: from the last on, each without which it is one still."""
    kept = own_numbers(sketch, part)
    for k in sorted(kept, reverse=True):
        if is_tied(sketch, kept - {k}, part):
            kept -= {k}
    return own_numbers(sketch, part) - kept


def because(sketch: Sketch, kept: Numbers, elements: Elements) -> list[int]:
    """Those of the kept ones that tie the elements: from the last on, each leaves that may."""
    for k in sorted(kept, reverse=True):
        if is_tied(sketch, kept - {k}, elements):
            kept -= {k}
    return sorted(kept)


def groups(sketch: Sketch) -> dict[int, list[int]]:
    """Of each constraint that is left out those that it follows from."""
    found = {}
    for part in filter(sketch.is_over, parts(sketch)):
        left = left_out(sketch, part)
        kept = own_numbers(sketch, part) - left
        for k in left:
            found[k] = because(sketch, kept, sketch.constraints[k - 1].elements)
    return found
