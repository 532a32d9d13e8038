"""The least drawing of which an answer is still wrong in the same way."""
from __future__ import annotations

import re
from collections.abc import Callable, Iterator
from dataclasses import replace

import numpy as np

from .asking import Answer, asked
from .making import Made
from .plane import Vector
from .reading import read
from .truth import Model, Untold, truth
from .wrongs import Cause, wrongs

Ask = Callable[[str], Answer]
"""Asks of a text."""


def shrunk(made: Made, cause: Cause, ask: Ask = asked) -> Made:
    """The drawing with lines taken away, one after the other, while the cause stays. ask: how the
    drawing was asked about: another way may give another answer."""
    again = True
    while again:
        again = False
        for less in _lesser(made):
            if any(found.cause is cause for found in wrongs(less, ask(less.text))):
                made, again = less, True
                break
    return made


def _lesser(made: Made) -> Iterator[Made]:
    """The drawing without one of its lines, and without what speaks of it."""
    lines = made.text.splitlines()
    for place in reversed(range(len(lines))):
        found = _without(made, lines, place)
        if found is not None:
            yield found


def _without(made: Made, lines: list[str], place: int) -> Made | None:
    """None where the rest is no drawing of which the truth can be told."""
    rest = _rest(lines, place)
    if not rest or rest == lines:
        return None
    text = "\n".join(rest) + "\n"
    try:
        model = Model.of(read(text))
        exact = _kept(made, model)
        if exact is None:
            return None
        return replace(made, text=text, exact=exact, truth=truth(model, exact))
    except (Untold, KeyError, ZeroDivisionError, np.linalg.LinAlgError):
        return None


def _rest(lines: list[str], place: int) -> list[str]:
    """The lines without one, and without those that speak of what it draws."""
    words = lines[place].split()
    rest = lines[:place] + lines[place + 1:]
    if words[0] not in ("point", "segment", "circle", "arc", "rectangle", "polyline"):
        return rest
    name = re.compile(rf"\b{words[1]}\b")
    return [line for line in rest if not name.search(line)]


def _kept(made: Made, model: Model) -> Vector | None:
    """Where the words of a lesser drawing hold: where they did."""
    before = Model.of(read(made.text))
    plane = before.plane(made.exact)
    if set(model.index.points) - set(before.index.points):
        return None
    spots = {name: (plane.spot(name)[0].real, plane.spot(name)[1].real) for name in model.index.points}
    radii = {name: plane.radius(name).real for name in model.index.radii}
    return model.index.vector(spots, radii)
