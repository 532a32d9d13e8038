"""Commands that are run for a release."""
import os
import subprocess
from typing import Any

from .refusal import Refused


def said(*words: object, **how: Any) -> str:
    """What a command writes on standard output. Raises Refused with its last complaint where it fails."""
    line = [str(word) for word in words]
    try:
        done = subprocess.run(line, capture_output=True, text=True, **how)
    except FileNotFoundError:
        raise Refused(f"the command {line[0]} isn't found: install it, and try again") from None
    if done.returncode:
        last = (done.stderr or done.stdout).strip().splitlines()[-1:] or ["no word of why"]
        raise Refused(f"{' '.join(line[:3])} failed: {last[0]}")
    return str(done.stdout)


def at_time(seconds: int) -> dict[str, str]:
    """The environment in which packers write that time, in seconds since 1970, so that the same commit packs alike."""
    return {**os.environ, "SOURCE_DATE_EPOCH": str(seconds), "LC_ALL": "C", "TZ": "UTC"}
