"""How a drawing is encoded, and which of its dimensions lie off."""
from __future__ import annotations

from collections.abc import Mapping
from dataclasses import dataclass
from fractions import Fraction

from pertxogai.spelling import Axes, Rails, Spelled

Offs = Mapping[int, Fraction]
"""How far the dimensions of some numbers lie off, in micrometres or degrees."""


@dataclass(frozen=True)
class Encoding:
    """How a drawing is encoded: its axes, rails and sketch."""

    axes: Axes
    rails: Rails
    spelled: Spelled
