"""One run of a file: bytes in, bytes out, limited in time, in memory and in what it may write."""
from __future__ import annotations

import os
import resource
import selectors
import signal
import subprocess
import threading
import time
from collections.abc import Sequence
from contextlib import suppress
from typing import IO, NamedTuple

from pertxogai.program.errors import MissingProgram, ProgramSpoke, ProgramTimedOut

MEBIBYTE = 1 << 20
MOST_BYTES = 64 * MEBIBYTE
CHUNK = 1 << 16
LONGEST = 3600.0
"""The most seconds of one wait: no wait for pipes takes more than some weeks."""


class Limits(NamedTuple):
    """seconds: the most that a run may take; memory_mib: the most memory that it may have, None
    for no limit."""

    seconds: float
    memory_mib: int | None


class Ended(NamedTuple):
    """How a run ended: its exit status, or minus the signal that ended it, and all that it
    wrote."""

    code: int
    written: bytes
    complaint: bytes

    def how(self) -> str:
        """How it ended, in words, with the last line that it wrote to standard error."""
        last = self.complaint.decode("ascii", "replace").strip().splitlines()[-1:]
        end = f"ended with status {self.code}"
        if self.code < 0:
            end = f"was ended by signal {-self.code} ({signal.strsignal(-self.code)})"
        return " and said: ".join([end, *last])


def run_process(words: Sequence[str], given: bytes, limits: Limits) -> Ended:
    """Runs a file with words on bytes. Raises MissingProgram, ProgramTimedOut or ProgramSpoke."""
    pipe = subprocess.PIPE
    try:
        process = subprocess.Popen(
            words, stdin=pipe, stdout=pipe, stderr=pipe, bufsize=0, start_new_session=True
        )
    except (OSError, ValueError) as error:
        raise MissingProgram(f"{words[0]} can't be run: {error}") from None
    with process:
        try:
            limit_memory(process, limits)
            return _Talk(words, process, given, limits).to_the_end()
        except BaseException:
            stop(process)
            _wait(process)
            raise


class _Taken(threading.local):
    """What the runs that a thread has waited for took."""

    seconds = 0.0


_TAKEN = _Taken()


def seconds_of_runs() -> float:
    """The seconds of a processor that the runs of this thread have taken, those that have ended.
    What else the process has started isn't among them, but for what another thread waits for in the
    moment in which a run ends."""
    return _TAKEN.seconds


def _wait(process: subprocess.Popen[bytes], seconds: float | None = None) -> int:
    """The exit status of a run, for whose end it waits. Raises TimeoutExpired."""
    before = _seconds_of_children()
    try:
        return process.wait(seconds)
    finally:
        _TAKEN.seconds += _seconds_of_children() - before


def _seconds_of_children() -> float:
    """The seconds of a processor of all that this process has started and waited for."""
    usage = resource.getrusage(resource.RUSAGE_CHILDREN)
    return usage.ru_utime + usage.ru_stime


def stop(process: subprocess.Popen[bytes]) -> None:
    """Ends a run and all that it started."""
    with suppress(ProcessLookupError):
        os.killpg(process.pid, signal.SIGKILL)


def limit_memory(process: subprocess.Popen[bytes], limits: Limits) -> None:
    """Takes effect before the program has read its text, since that is handed on after this. A
    lower limit that stands already, as by `ulimit -v`, is kept."""
    if limits.memory_mib is None:
        return
    with suppress(ProcessLookupError):
        standing = resource.prlimit(process.pid, resource.RLIMIT_AS)
        lower = [each for each in standing if each != resource.RLIM_INFINITY]
        most = min([limits.memory_mib * MEBIBYTE, *lower])
        resource.prlimit(process.pid, resource.RLIMIT_AS, (most, most))


class _Talk:
    """The pipes of a running file: what is still to be given, and what it wrote so far."""

    def __init__(
        self, words: Sequence[str], process: subprocess.Popen[bytes], given: bytes, limits: Limits
    ) -> None:
        assert process.stdin and process.stdout and process.stderr
        self.words, self.process, self.limits = words, process, limits
        self.left = memoryview(given)
        self.given: IO[bytes] = process.stdin
        self.written = {process.stdout: bytearray(), process.stderr: bytearray()}
        self.ends = time.monotonic() + limits.seconds

    def to_the_end(self) -> Ended:
        """Gives and takes until the run ends. Raises ProgramTimedOut or ProgramSpoke."""
        with selectors.DefaultSelector() as ready:
            ready.register(self.given, selectors.EVENT_WRITE)
            os.set_blocking(self.given.fileno(), False)
            for pipe in self.written:
                ready.register(pipe, selectors.EVENT_READ)
            while ready.get_map():
                for key, _ in ready.select(min(self._seconds_left(), LONGEST)):
                    self._serve(ready, key.fileobj)  # type: ignore[arg-type]
        try:
            code = _wait(self.process, self._seconds_left())
        except subprocess.TimeoutExpired:
            raise self._late() from None
        return Ended(code, *map(bytes, self.written.values()))

    def _serve(self, ready: selectors.BaseSelector, pipe: IO[bytes]) -> None:
        is_done = self._give() if pipe is self.given else self._take(pipe)
        if is_done:
            ready.unregister(pipe)
            pipe.close()

    def _give(self) -> bool:
        """Hands on some bytes, and returns whether that is all: a program may end before it has
        read everything."""
        try:
            self.left = self.left[os.write(self.given.fileno(), self.left[:CHUNK]) :]
        except BrokenPipeError:
            return True
        return not self.left

    def _take(self, pipe: IO[bytes]) -> bool:
        """Takes some bytes, and returns whether the pipe has ended."""
        found = os.read(pipe.fileno(), CHUNK)
        self.written[pipe] += found
        if len(self.written[pipe]) > MOST_BYTES:
            raise ProgramSpoke(
                f"{self.words[0]} wrote over {MOST_BYTES // MEBIBYTE} MiB and was stopped: is it"
                " the program `sketch`?"
            )
        return not found

    def _seconds_left(self) -> float:
        left = self.ends - time.monotonic()
        if left <= 0:
            raise self._late()
        return left

    def _late(self) -> ProgramTimedOut:
        return ProgramTimedOut(
            f"{' '.join(self.words)} took over {self.limits.seconds:g} s and was stopped: give it"
            " more seconds, or a smaller sketch"
        )
