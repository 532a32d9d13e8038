"""Names of shapes and of constraints."""

from __future__ import annotations

import re
from collections.abc import Iterable

from pertxogai.drawing.references import DATUM_NAMES
from pertxogai.drawing.refusal import WordFault

MOST_LETTERS = 40
"""The length of the longest name of a shape."""

MOST_CALLED = 80
"""The length of the longest name of a constraint."""

PARTICLES = frozenset({"about", "closed"})
"""Words that stand between names, so no shape is called so."""

_PLACE = re.compile(r"constraint [0-9]+\Z")


def check_shape_name(name: str) -> None:
    """Raises WordFault unless a shape may be called so: a letter, then letters, digits or _."""
    if name in DATUM_NAMES:
        raise WordFault(name, "is the datum's own name: take another name")
    if name in PARTICLES:
        raise WordFault(name, "is a word of the text: take another name")
    if not name.isidentifier() or name.startswith("_"):
        raise WordFault(name, "is no name: write a letter and then letters, digits or _, "
                              "without blanks")
    if len(name) > MOST_LETTERS:
        raise WordFault(name, f"is too long: write {MOST_LETTERS} letters at most")


def check_constraint_name(name: str) -> None:
    """Raises WordFault unless a constraint may be called so: any words without `:` and `#`."""
    if not name or name != " ".join(name.split()) or not name.isprintable():
        raise WordFault(name, "is no name of a constraint: write a word or two, with single "
                              "blanks between them")
    if ":" in name or "#" in name:
        raise WordFault(name, "has a : or #, which no name of a constraint has")
    if _PLACE.match(name):
        raise WordFault(name, "is how a constraint without a name is called: take another name")
    if len(name) > MOST_CALLED:
        raise WordFault(name, f"is too long: write {MOST_CALLED} letters at most")


def nearest(word: str, known: Iterable[str]) -> str:
    """`, or do you mean X?`, where a known word is like this one, else nothing."""
    from difflib import get_close_matches

    lowered = {each.lower(): each for each in known}
    found = get_close_matches(word.lower(), lowered, n=1, cutoff=0.7)
    return f", or do you mean {lowered[found[0]]}?" if found else ""
