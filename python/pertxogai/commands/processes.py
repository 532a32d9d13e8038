"""Processes that judge side by side."""
from __future__ import annotations

from collections.abc import Callable, Iterator
from concurrent.futures import ProcessPoolExecutor
from concurrent.futures.process import BrokenProcessPool
from contextlib import contextmanager
from signal import SIG_IGN, SIGINT, signal

from pertxogai.exits import CommandError


@contextmanager
def processes(count: int,
              begin: Callable[[], None] | None = None) -> Iterator[ProcessPoolExecutor]:
    """That number of processes, each of which begins so. Ctrl-C is left to the one that asks: it
    gives up what isn't begun, and waits for what is. Raises CommandError where one of them was
    killed."""
    pool = ProcessPoolExecutor(count, initializer=_begin, initargs=(begin,))
    try:
        yield pool
    except BrokenProcessPool:
        raise CommandError("a process that judges was killed, perhaps because memory ran out: try "
                           "again with --jobs 1") from None
    finally:
        pool.shutdown(cancel_futures=True)


def _begin(begin: Callable[[], None] | None) -> None:
    """Begins a process, in which Ctrl-C is passed over."""
    signal(SIGINT, SIG_IGN)
    if begin is not None:
        begin()
