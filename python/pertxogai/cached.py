"""What is worked out once for a thing that never changes."""
from __future__ import annotations

from collections.abc import Callable
from copy import copy
from functools import cached_property, wraps
from typing import TypeVar

Thing = TypeVar("Thing")
Value = TypeVar("Value")


def cached_on(of: Callable[[Thing], Value]) -> Callable[[Thing], Value]:
    """A function of one thing that never changes, which keeps its answer beside the fields of the
    thing: so what an edit leaves as it was isn't worked out again."""
    name = f"{of.__module__}.{of.__name__}"

    @wraps(of)
    def found(thing: Thing) -> Value:
        known: dict[str, Value] = vars(thing)
        if name not in known:
            known[name] = of(thing)
        return known[name]

    return found


def copied(thing: Thing) -> Thing:
    """A copy that is to be changed, without what was worked out of the thing once: neither by
    `cached_on`, whose answers have names with points, nor by its `cached_property`s."""
    other = copy(thing)
    for name in list(vars(other)):
        if "." in name or isinstance(getattr(type(thing), name, None), cached_property):
            del vars(other)[name]
    return other
