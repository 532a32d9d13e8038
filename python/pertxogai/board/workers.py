"""Up to four workers, each a process of its own: so a call is limited in time and memory, and
its end ends nothing else."""
from __future__ import annotations

import json
import os
import selectors
import signal
import subprocess
import sys
from contextlib import suppress
from dataclasses import dataclass, field
from pathlib import Path
from threading import Lock, Semaphore
from time import monotonic
from typing import IO

from pertxogai.board.calls import too_long, trouble

MOST_AT_ONCE = 4
BESIDE = frozenset({"weigh", "complete", "fit", "range"})
"""Calls that a page makes beside all else, and which may take long."""
MOST_BESIDE = MOST_AT_ONCE - 1
"""How many of them are answered at once: so what a hand does finds a worker."""
GRACE = 2.0
"""Seconds beyond the program's own limit that a worker has for a call."""
ONE_THREAD = {"OMP_NUM_THREADS": "1", "OPENBLAS_NUM_THREADS": "1"}
"""A worker reckons on one processor: its matrices are small."""
PACKAGES = Path(__file__).resolve().parents[2]


@dataclass(frozen=True)
class Bounds:
    """What a call may take: seconds, and MiB of memory; 0 for no limit of memory."""

    seconds: float = 10.0
    memory_mib: int = 4096


class Busy(Exception):
    """Four calls are being answered, or three of those that a page makes beside all else."""


class WorkerLost(Exception):
    """A worker ended, or was stopped, before it answered. The message is one line."""


@dataclass
class Worker:
    """A process that answers calls, one after the other. drag: the drag that it knows best."""

    process: subprocess.Popen[bytes]
    seconds: float
    drag: str = ""
    rest: bytearray = field(default_factory=bytearray)

    @staticmethod
    def start(program: str, bounds: Bounds) -> Worker:
        """Starts one."""
        path = os.pathsep.join([str(PACKAGES), *filter(None, [os.environ.get("PYTHONPATH")])])
        words = [sys.executable, "-m", "pertxogai.board.worker", program, str(bounds.seconds),
                 str(bounds.memory_mib)]
        process = subprocess.Popen(
            words, stdin=subprocess.PIPE, stdout=subprocess.PIPE, start_new_session=True,
            env={**os.environ, **ONE_THREAD, "PYTHONPATH": path}, bufsize=0)
        return Worker(process, bounds.seconds)

    def text(self, call: str, given: object) -> str:
        """What the worker answers, as JSON. Raises WorkerLost."""
        line = json.dumps({"call": call, "given": given}).encode() + b"\n"
        ends = monotonic() + self.seconds + GRACE
        pipe = self.process.stdin
        assert pipe is not None
        try:
            left = memoryview(line)
            while left:
                left = left[pipe.write(left):]
        except OSError:
            raise WorkerLost("the call ended before it was answered: try it again") from None
        return self._line(ends).decode("ascii")

    def _line(self, ends: float) -> bytes:
        pipe = self.process.stdout
        assert pipe is not None
        with selectors.DefaultSelector() as ready:
            ready.register(pipe, selectors.EVENT_READ)
            while b"\n" not in self.rest:
                if not ready.select(max(0.0, ends - monotonic())):
                    raise WorkerLost(too_long(self.seconds))
                self._take(pipe)
        line, _, rest = bytes(self.rest).partition(b"\n")
        self.rest = bytearray(rest)
        return line

    def _take(self, pipe: IO[bytes]) -> None:
        found = pipe.read(1 << 16)
        if not found:
            raise WorkerLost("the call ended before it was answered, perhaps because memory ran "
                             "out: draw less at once")
        self.rest += found

    def stop(self) -> None:
        """Ends it, and all that it started."""
        with suppress(ProcessLookupError):
            os.killpg(self.process.pid, signal.SIGKILL)
        self.process.wait()
        for pipe in (self.process.stdin, self.process.stdout):
            if pipe is not None:
                with suppress(OSError):
                    pipe.close()


class Workers:
    """The workers of a server. Those that are free are taken last in, first out, so that calls
    that follow each other come to the one that remembers; the frames of a drag come to the one that
    had the frame before, where that is free."""

    def __init__(self, program: str, bounds: Bounds) -> None:
        self._program, self.bounds = program, bounds
        self._free: list[Worker] = []
        self._busy = 0
        self._beside = Semaphore(MOST_BESIDE)
        self._lock = Lock()

    def text(self, call: str, given: object) -> str:
        """What a free worker answers, as JSON. Raises Busy."""
        if call not in BESIDE:
            return self._told(call, given)
        if not self._beside.acquire(blocking=False):
            raise Busy
        try:
            return self._told(call, given)
        finally:
            self._beside.release()

    def _told(self, call: str, given: object) -> str:
        drag = _drag_of(given)
        try:
            worker = self._taken(drag)
        except WorkerLost as error:
            return json.dumps(trouble("stopped", str(error)))
        try:
            found = worker.text(call, given)
        except (WorkerLost, ValueError) as error:
            worker.stop()
            self._back(None)
            return json.dumps(trouble("stopped", str(error)))
        except BaseException:
            worker.stop()
            self._back(None)
            raise
        worker.drag = drag or worker.drag
        self._back(worker)
        return found

    def _taken(self, drag: str = "") -> Worker:
        with self._lock:
            if self._busy >= MOST_AT_ONCE:
                raise Busy
            self._busy += 1
            while self._free:
                worker = self._next(drag)
                if worker.process.poll() is None:
                    return worker
                worker.stop()
        try:
            return Worker.start(self._program, self.bounds)
        except OSError as error:
            self._back(None)
            why = error.strerror
            raise WorkerLost(f"no process could be started for the call: {why}") from None

    def _next(self, drag: str) -> Worker:
        """Of those that are free, the one that knows a drag; else the last that became so."""
        places = range(len(self._free) - 1, -1, -1)
        place = next((each for each in places if drag and self._free[each].drag == drag), -1)
        return self._free.pop(place)

    def _back(self, worker: Worker | None) -> None:
        with self._lock:
            self._busy -= 1
            if worker is not None:
                self._free.append(worker)

    def stop(self) -> None:
        """Ends those that are free."""
        with self._lock:
            while self._free:
                self._free.pop().stop()


def _drag_of(given: object) -> str:
    """The name of the drag that a call is of; empty of all others."""
    drag = given.get("drag") if isinstance(given, dict) else None
    return drag if isinstance(drag, str) else ""
