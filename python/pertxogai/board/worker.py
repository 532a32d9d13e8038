"""One worker: a process that answers calls, a line of JSON each, until its input ends.

`python -m pertxogai.board.worker PROGRAM SECONDS MEMORY_MIB`
"""
from __future__ import annotations

import gc
import json
import resource
import select
import sys
from collections.abc import Sequence
from contextlib import suppress
from dataclasses import dataclass, field, replace
from functools import cache
from importlib import import_module
from time import monotonic

from pertxogai.board import protocol
from pertxogai.board.calls import Desk, too_long, trouble
from pertxogai.program import Answer, Program, ProgramTimedOut

MEBIBYTE = 1 << 20
PAUSE = 0.5
"""Seconds without a call after which garbage is collected."""
MOST_RUBBISH = 100_000
"""How many more objects than after the last collection have garbage collected behind the call."""


@dataclass
class WithDeadline:
    """The program, with one limit of time over all that a call asks of it."""

    program: Program
    seconds: float
    ends: float = 0.0
    answered: dict[tuple[tuple[str, ...], str], Answer] = field(default_factory=dict)
    """What was answered in this call."""

    def begin(self) -> None:
        """A call begins now."""
        self.ends = monotonic() + self.seconds
        self.answered.clear()

    def ask(self, words: Sequence[str], text: str) -> Answer:
        """Asks within what is left of the time, and what was asked in this call already not again.
        Raises ProgramError."""
        key = tuple(words), text
        if key not in self.answered:
            self.answered[key] = self._ask(words, text)
        return self.answered[key]

    def _ask(self, words: Sequence[str], text: str) -> Answer:
        left = self.ends - monotonic()
        try:
            if left > 0:
                return replace(self.program, seconds=left).ask(words, text)
        except ProgramTimedOut:
            pass
        raise ProgramTimedOut(too_long(self.seconds))


def main(words: Sequence[str]) -> None:
    """Answers calls from standard input on standard output. Rubbish is collected while no call
    comes, since that takes longer than a call may."""
    path, seconds, memory_mib = words
    limit_memory(int(memory_mib))
    program = WithDeadline(Program(path, memory_mib=int(memory_mib) or None), float(seconds))
    desk = Desk(program)
    gc.disable()
    gc.freeze()
    while line := sys.stdin.readline():
        program.begin()
        print(json.dumps(_answer(desk, line)), flush=True)
        is_idle = not select.select([sys.stdin], [], [], PAUSE)[0]
        if is_idle:
            _warm()
        if is_idle or gc.get_count()[0] > MOST_RUBBISH:
            gc.collect()


@cache
def _warm() -> None:
    """Loads what the search reckons by, which takes longer than a call may, while no call comes."""
    with suppress(ImportError, MemoryError):
        import_module("pertxogai.search.dragging")
        import_module("pertxogai.search.searched")


def _answer(desk: Desk, line: str) -> protocol.Answer:
    """The answer to a line; a fault of this side is told as one, and ends nothing."""
    began = monotonic()
    try:
        call = json.loads(line)
        found = desk.answer(call["call"], call["given"])
        found["ms"] = round((monotonic() - began) * 1000)
        return found
    except MemoryError:
        return trouble("memory", "the call took more memory than allowed: draw less at once")
    except RecursionError:
        return trouble("call", "the request is nested too deeply")
    except Exception as error:  # pylint: disable=broad-except
        return trouble("fault", f"a fault of the board, please report it: {error!r}")


def limit_memory(mib: int) -> None:
    """Limits this process, and what it starts, where `mib` isn't 0. A lower limit that stands
    already, as by `ulimit -v`, is kept."""
    if mib:
        standing = resource.getrlimit(resource.RLIMIT_AS)
        lower = [each for each in standing if each != resource.RLIM_INFINITY]
        resource.setrlimit(resource.RLIMIT_AS, (min([mib * MEBIBYTE, *lower]), standing[1]))


if __name__ == "__main__":
    main(sys.argv[1:])
