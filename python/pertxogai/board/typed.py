"""Values as a hand types them on the board."""
from __future__ import annotations

import re

from pertxogai.drawing import WordFault, read_expression

_APART = re.compile(r"(?<=[0-9])\s+(?=[^\s0-9.,+-])|(?<=/)\s+(?=[0-9])|(?<=^[+-])\s+(?=[0-9])")
"""A blank between a number and its unit, around the stroke of a ratio, and behind a sign."""


def value_word(value: str) -> str:
    """The word of a value, as `40mm` of `40 mm`, `1/2` of `1 / 2`; or an expression as it is typed,
    as `Width / 2`. Raises WordFault where it is neither."""
    words = _APART.sub("", value.strip()).split()
    if len(words) == 1:
        return words[0]
    try:
        return read_expression(value).text
    except WordFault:
        raise WordFault(value, "isn't one value: write a number such as 40, 0.5in or 60deg, or "
                               "an expression such as Width/2") from None
