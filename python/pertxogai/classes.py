"""Things that belong together, in classes that grow by joining two at a time."""
from __future__ import annotations

from collections.abc import Hashable
from typing import Generic, TypeVar

T = TypeVar("T", bound=Hashable)


class Classes(Generic[T]):
    """Classes of things, each led by one of its own; what was joined to none leads itself."""

    def __init__(self) -> None:
        self._above: dict[T, T] = {}

    def leader(self, one: T) -> T:
        """What leads the class of a thing."""
        leader = one
        while (above := self._above.get(leader)) is not None:
            leader = above
        if leader is not one:
            self._above[one] = leader
        return leader

    def join(self, first: T, second: T) -> bool:
        """Joins the classes of two things, led by what leads the first; False where they are one
        already."""
        above, below = self.leader(first), self.leader(second)
        if above == below:
            return False
        self._above[below] = above
        return True

    def are_one(self, first: T, second: T) -> bool:
        """Whether two things belong together."""
        return self.leader(first) == self.leader(second)

    def led(self) -> list[T]:
        """All that lead no class, in the order in which they were joined."""
        return list(self._above)
