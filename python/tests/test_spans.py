"""Whether expressions go smoothly while a value goes from one number to another, by hand."""
from __future__ import annotations

from fractions import Fraction

import pytest

from pertxogai.drawing import read_drawing
from pertxogai.ranging.spans import is_smooth

BAR = "value V 7\nsegment S 0 0 40 0\n"


@pytest.mark.parametrize(("lines", "low", "high", "smooth"), [
    ("length S V", 1, 100, True),
    ("length S V", -1, 100, False),          # No length is 0 or less.
    ("x S.end +V", -1, 100, True),
    ("x S.end V", -1, 100, False),
    ("length S 100/(50-V)", 7, 49, True),
    ("length S 100/(50-V)", 7, 51, False),   # It divides by 0 at 50.
    ("x S.end +100/(50-V)", 51, 9_999_999, True),
    ("value W 9-V\nlength S 100/W", 7, 8, True),
    ("value W 9-V\nlength S 100/W", 7, 10, False),
    ("x S.end +sqrt(V-3)", 3, 9, True),
    ("x S.end +sqrt(V-3)", 2, 9, False),
    ("length S 10/min(V,4)", 5, 9, True),
    ("length S 10/min(V,4)", 4, 9, True),
    ("length S 10/min(V,4)", 1, 4, True),
    ("length S 10/min(V,4)", 3, 5, False),   # The other one is the least from 4 on.
    ("length S max(V,100-V,7)", 51, 90, True),
    ("length S max(V,100-V,7)", 45, 55, False),
    ("x S.end +10/(0-V)", 1, 2, True),
    ("x S.end +10/(0-V)", -1, 2, False),
    ("length S 10mm/(V*V)", 1, 2, True),
    ("segment T 0 0 3 40\nangle S T 20deg*V", 1, 8, True),
    ("segment T 0 0 3 40\nangle S T 20deg*V", 1, 10, False),   # 180 degrees are parallel.
])
def test_what_goes_smoothly(lines: str, low: int, high: int, smooth: bool) -> None:
    drawing = read_drawing(BAR + lines + "\n")
    assert is_smooth(drawing, "V", Fraction(low), Fraction(high)) is smooth
