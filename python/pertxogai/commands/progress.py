"""How far a command is, on a terminal."""
from __future__ import annotations

import sys


def show_progress(done: int, of: int) -> None:
    """Shows how many are done, as `3 of 12`, and clears the line once all are. Writes nothing if
    standard error is no terminal."""
    if sys.stderr.isatty():
        end = "\r" if done < of else "\r\033[K"
        print(f"{done} of {of}", end=end, file=sys.stderr, flush=True)
