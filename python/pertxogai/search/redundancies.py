"""What follows from others as a whole, so that it may go: by rank all of it at once."""
from __future__ import annotations

from collections.abc import Iterator, Sequence

from pertxogai.drawing import Drawing
from pertxogai.judging.freedoms import Freedoms, Gone, freedoms
from pertxogai.judging.jets import TooMany
from pertxogai.search.dependencies import Dependency, lateness
from pertxogai.search.unknowns import By, Source


def redundancies(drawing: Drawing, repeats: Sequence[Dependency]) -> Iterator[tuple[Source, ...]]:
    """Each constraint that follows from others, before these, of which the latest comes first.
    repeats: what is said twice, the latest first. Nothing comes of those in which each says more
    than the others do, or is needed once what was named before has gone. Where the rank isn't
    known, the latest of each is taken to follow."""
    free = freedoms(drawing)
    gone = Gone(free) if free is not None else None
    for each in repeats:
        if free is None or gone is None:
            yield each.sources
        elif (first := _first(each, free, gone)) is not None:
            yield first, *_others(first, each, repeats, free)


def _first(repeat: Dependency, free: Freedoms, gone: Gone) -> Source | None:
    """The latest without which nothing more is free, beside what has gone; it goes too. The latest
    of all where that takes no part in anything by rank, as where only these lengths say it twice,
    and where it takes too long to tell."""
    latest = repeat.sources[0]
    try:
        follows = (each for each in repeat.sources
                   if each.by is not By.SHAPE and gone.take(each.number, may_free=False))
        return next(follows, None if free.factors(latest.number) else latest)
    except TooMany:
        return latest


def _others(first: Source, repeat: Dependency, repeats: Sequence[Dependency],
            free: Freedoms) -> Sequence[Source]:
    """What a constraint follows from, the latest first: where several of its equations follow, from
    all by which one of them does."""
    is_one = len(free.factors(first.number)) < 2
    with_it = [repeat] if is_one else [each for each in repeats if first in each.sources]
    others = {each for it in with_it for each in it.sources} - {first}
    return sorted(others, key=lateness, reverse=True)
