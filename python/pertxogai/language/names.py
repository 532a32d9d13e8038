"""Names of elements, as the language has them."""
from __future__ import annotations

import re

_NAME = re.compile(r"[A-Za-z][A-Za-z0-9_]{0,15}")


class NotAName(ValueError):
    """A word that can't be the name of an element."""


def is_name(word: str) -> bool:
    """Whether a word is a name: a letter and up to 15 letters, digits or `_`, all ASCII."""
    return _NAME.fullmatch(word) is not None


def checked_name(word: str) -> str:
    """The word, where it is a name. Raises NotAName."""
    if not is_name(word):
        raise NotAName(f"{word!r} is no name: take a letter and up to 15 letters, digits or _")
    return word
