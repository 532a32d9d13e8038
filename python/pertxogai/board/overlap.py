"""The program, and what is done while it answers."""
from __future__ import annotations

from collections.abc import Callable, Sequence
from concurrent.futures import ThreadPoolExecutor
from dataclasses import dataclass, field
from functools import cached_property
from typing import Generic, TypeVar

from pertxogai.program import Answer, Solver

Value = TypeVar("Value")


@dataclass
class Deferred(Generic[Value]):
    """A value that is worked out once, when it is asked for, or before, while there is time."""

    make: Callable[[], Value]

    @cached_property
    def value(self) -> Value:
        """The value."""
        return self.make()


@dataclass
class Overlapping:
    """A program that is asked from a thread of its own, while there is something to do beside."""

    program: Solver
    _pool: ThreadPoolExecutor = field(default_factory=lambda: ThreadPoolExecutor(1))
    _waiting: list[Deferred[object]] = field(default_factory=list)

    def begin(self) -> None:
        """A call begins."""
        self._waiting.clear()

    def meanwhile(self, make: Callable[[], Value]) -> Deferred[Value]:
        """A value that is worked out while the program is next waited for."""
        later = Deferred(make)
        self._waiting.append(later)  # type: ignore[arg-type]
        return later

    def ask(self, words: Sequence[str], text: str) -> Answer:
        """Asks, and does meanwhile what there is to do. Raises ProgramError."""
        if not self._waiting:
            return self.program.ask(words, text)
        answer = self._pool.submit(self.program.ask, words, text)
        while self._waiting:
            self._waiting.pop().value
        return answer.result()
