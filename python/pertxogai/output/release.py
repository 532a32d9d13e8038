"""The versions of DXF that are written."""
from __future__ import annotations

from enum import Enum


class Release(Enum):
    """The version of DXF to write; the value is ezdxf's name for it."""

    R12 = "R12"
    R2010 = "R2010"
