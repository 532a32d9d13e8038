"""What comes of cases, worked out in several processes before each case is asked for."""
from __future__ import annotations

from collections.abc import Callable, Container, Iterator, Mapping, Sequence
from contextlib import contextmanager
from signal import SIG_IGN, SIGINT, signal
from typing import TYPE_CHECKING

from pertxogai.fitting.offs import Offs
from pertxogai.fitting.tries import AskBy, Tries
from pertxogai.program import ProgramError

if TYPE_CHECKING:  # For few cases neither is imported.
    from concurrent.futures import Future, ProcessPoolExecutor

Work = Callable[[Offs, Sequence[AskBy]], Tries]
"""Tries ways to ask for a case."""
Chunk = Sequence[tuple[Offs, Sequence[AskBy]]]
"""Cases that one process works out, and the ways to ask for each."""
FEW = 16
"""For fewer cases no processes are started: that takes as long as a few cases do."""
CHUNKS = 3
"""Each process gets its share of the cases in this number of parts: some take longer."""


class ProcessKilled(ProgramError):
    """One of the processes was killed."""


class Ahead:
    """Works out cases in that number of processes; with one of them, nothing. What comes of a case
    mustn't depend on what was asked for before. The processes have what there is when they are
    started."""

    def __init__(self, work: Work, jobs: int) -> None:
        self._work, self.jobs = work, jobs
        self._pool: ProcessPoolExecutor | None = None
        self._waiting: dict[Offs, tuple[Future[list[Tries]], int]] = {}

    def want(self, cases: Mapping[Offs, Sequence[AskBy]]) -> None:
        """Says which cases are asked for next, and the ways to ask for each. What was wanted before
        and isn't begun is given up. Raises ProcessKilled."""
        if self.jobs == 1 or len(cases) < (FEW if self._pool is None else 2):
            return
        self._give_up(cases)
        anew = [each for each in cases.items() if each[0] not in self._waiting]
        size = -(-len(anew) // (CHUNKS * self.jobs)) or 1
        with _alive():
            for start in range(0, len(anew), size):
                self._submit(anew[start:start + size])

    def _give_up(self, cases: Container[Offs]) -> None:
        """Gives up what isn't begun, without these cases."""
        wanted = {future for offs, (future, _) in self._waiting.items() if offs in cases}
        for future, _ in self._waiting.values():
            if future not in wanted:
                future.cancel()
        self._waiting = {offs: waiting for offs, waiting in self._waiting.items()
                         if not waiting[0].cancelled()}

    def _submit(self, chunk: Chunk) -> None:
        if self._pool is None:
            self._pool = _pool(self._work, self.jobs)
        future = self._pool.submit(_worked_out, chunk)
        self._waiting.update((offs, (future, place)) for place, (offs, _) in enumerate(chunk))

    def taken(self, offs: Offs) -> Tries:
        """What came of a case; nothing where it wasn't wanted. Raises ProcessKilled."""
        waiting = self._waiting.pop(offs, None)
        if waiting is None:
            return {}
        with _alive():
            return waiting[0].result()[waiting[1]]

    def close(self) -> None:
        """Ends the processes."""
        if self._pool is not None:
            self._pool.shutdown(cancel_futures=True)


def _pool(work: Work, jobs: int) -> ProcessPoolExecutor:
    """Processes that have what there is now."""
    from concurrent.futures import ProcessPoolExecutor
    from multiprocessing import get_context

    return ProcessPoolExecutor(jobs, get_context("fork"), _begin, (work,))


@contextmanager
def _alive() -> Iterator[None]:
    """Raises ProcessKilled where a process was killed."""
    from concurrent.futures import BrokenExecutor

    try:
        yield
    except BrokenExecutor:
        raise ProcessKilled("a process that places cases was killed, perhaps because memory ran "
                            "out: try again with one process, by --jobs 1") from None


_at_work: list[Work] = []
"""In a process of the pool: what it does."""


def _begin(work: Work) -> None:
    """Begins a process. Ctrl-C is left to the one that asks, which ends the others."""
    signal(SIGINT, SIG_IGN)
    _at_work[:] = [work]


def _worked_out(chunk: Chunk) -> list[Tries]:
    """What comes of some cases."""
    (work,) = _at_work
    return [work(offs, ways) for offs, ways in chunk]
