"""The program's verdict, with the trade's word beside it."""
from __future__ import annotations

from pertxogai.program.reports import Verdict


def verdict_text(verdict: Verdict) -> str:
    """A verdict, for a person."""
    return f"{verdict.value} ({verdict.gloss})"
