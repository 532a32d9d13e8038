"""What the user calls the commands by, in a clone of the repository and where it is installed."""
from __future__ import annotations

from pathlib import Path

TOP = Path(__file__).resolve().parents[3]
IS_CLONE = (TOP / "crates").is_dir()
COMMAND = "./pertxogai" if IS_CLONE else "pertxogai"
PROGRAM = "./sketch" if IS_CLONE else "sketch"
