"""What a person is shown of a text that comes from elsewhere."""
from __future__ import annotations


def printable(text: str) -> str:
    """A text of which a letter that would steer a terminal, or can't be printed, is written as
    Python escapes it: a name with an escape sequence shows as `\\x1b[31m`."""
    return "".join(letter if letter.isprintable() else _escape(letter) for letter in text)


def _escape(letter: str) -> str:
    return letter.encode("unicode_escape", "surrogatepass").decode("ascii")
