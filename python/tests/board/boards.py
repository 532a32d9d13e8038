"""A board that is served for tests. A module that imports this is passed over without Flask."""
from __future__ import annotations

import os
import shutil
import threading
import time
from collections.abc import Callable, Iterator
from contextlib import contextmanager
from dataclasses import dataclass, field
from pathlib import Path

import pytest

pytest.importorskip("flask", reason="the board needs Debian's python3-flask")

from pertxogai.board.guard import Guard  # noqa: E402
from pertxogai.board.serve import listening, server_at  # noqa: E402
from pertxogai.board.workers import Bounds, Workers  # noqa: E402
from pertxogai.program import Program  # noqa: E402

DRAWINGS = Path(__file__).resolve().parents[1] / "drawings"
FILES = DRAWINGS.parent / "files"
CHROMIUM = shutil.which("chromium")
DRIVER = shutil.which("chromedriver")
PATIENCE = float(os.environ.get("PERTXOGAI_PATIENCE", "1"))
"""How many times as long as usual is waited, on a machine that is slow or does something else."""
SECONDS = 60.0 * PATIENCE
"""So long is waited for anything."""


def drawing(name: str) -> str:
    """The text of a drawing of the gallery."""
    return (DRAWINGS / f"{name}.drawing").read_text(encoding="utf-8")


@dataclass
class Served:
    """A board at a port of this machine, that can be stopped and started again."""

    workers: Workers
    guard: Guard = field(init=False)

    def __post_init__(self) -> None:
        self._start(None)

    def _start(self, guard: Guard | None) -> None:
        with listening(guard.port if guard else 0) as found:
            self.guard = guard or Guard(found.getsockname()[1])
            self.server = server_at(found, self.guard, self.workers)
        self.thread = threading.Thread(target=self.server.serve_forever, daemon=True)
        self.thread.start()

    def stop(self) -> None:
        """Stops it; its port is free then."""
        self.server.shutdown()
        self.server.server_close()
        self.thread.join()

    def start_again(self) -> None:
        """Starts it at the same port, with the same token."""
        self._start(self.guard)


@contextmanager
def served(program: Program) -> Iterator[Served]:
    """A board that is served while it is used."""
    workers = Workers(program.path, Bounds(SECONDS, program.memory_mib or 0))
    found = Served(workers)
    try:
        yield found
    finally:
        found.stop()
        workers.stop()


def wait_for(what: str, is_so: Callable[[], object], seconds: float = SECONDS) -> object:
    """Waits until something is so, and gives it."""
    ends = time.monotonic() + seconds
    while time.monotonic() < ends:
        found = is_so()
        if found:
            return found
        time.sleep(0.03)
    raise AssertionError(f"waited {seconds:g} s in vain: {what}")
