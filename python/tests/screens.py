"""A screen that isn't seen, by Xvfb."""
from __future__ import annotations

import os
import select
import shutil
import subprocess
from collections.abc import Iterator
from contextlib import contextmanager

XVFB = shutil.which("Xvfb")
WIDTH, HEIGHT = 1600, 1000
SECONDS = 60
"""How long Xvfb may take to begin."""


@contextmanager
def screen() -> Iterator[str]:
    """A screen by its display, as `:3`: Xvfb takes the first number that no other has, and is ended
    with what is done within."""
    assert XVFB is not None
    told, tells = os.pipe()
    words = [XVFB, "-displayfd", str(tells), "-screen", "0", f"{WIDTH}x{HEIGHT}x24",
             "-nolisten", "tcp"]
    with subprocess.Popen(words, pass_fds=[tells], stdin=subprocess.DEVNULL,
                          stdout=subprocess.DEVNULL, stderr=subprocess.DEVNULL) as process:
        os.close(tells)
        try:
            with open(told) as number:
                assert select.select([number], [], [], SECONDS)[0], "Xvfb doesn't begin"
                display = number.readline().strip()
            assert display, "Xvfb has ended"
            yield f":{display}"
        finally:
            process.terminate()
