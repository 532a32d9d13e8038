"""Drawings by chance of which the truth is known."""
from __future__ import annotations

import random
from collections.abc import Iterable
from dataclasses import dataclass, replace
from enum import Enum

import numpy as np

from .building import MOST_BLOCKS, Building, built
from .offered import WEIGHTS, Offer, offered
from .plane import Index, Vector
from .reading import Sheet, read
from .truth import HELD_MM, SOME, Matrix, Model, Truth, Untold, truth

TRIES = 40
JITTERS = (1.5, 0.4, 0.1, 0.0)
HOLDS_MM = 1e-6


class Kind(Enum):
    """What a drawing is."""

    COMPLETE = "complete"
    OPEN = "open"
    REPEATED = "repeated"
    CONTRADICTING = "contradicting"
    IMPOSSIBLE = "impossible"
    ELSEWHERE = "tied elsewhere"
    """A value that the drawn places don't have contradicts no other: nothing else ties the whole
    to the datum, or the one shape to another, so that it moves or turns them."""


WANTED = (Kind.COMPLETE, Kind.OPEN, Kind.REPEATED, Kind.CONTRADICTING, Kind.IMPOSSIBLE)
"""What a drawing may be made to be; it may come out otherwise, since of what hangs loose a word more
says neither again nor against others what they say."""


@dataclass(frozen=True)
class Made:
    """A drawing: its kind and seed, its text, where its words hold (but for those of the lines
    `wrong`, whose value was changed, so that with the lines `against` there is no such shape), and
    what is true of it."""

    kind: Kind
    seed: int
    text: str
    exact: Vector
    truth: Truth
    wrong: frozenset[str] = frozenset()
    against: frozenset[str] = frozenset()

    def is_impossible(self) -> bool:
        """Whether no shape has these dimensions."""
        lines = set(self.text.splitlines())
        return self.kind is Kind.IMPOSSIBLE and self.wrong | self.against <= lines

    def contradicts(self) -> bool:
        """Whether its words contradict each other."""
        sheet = read(self.text)
        return any(number in self.truth.spare and sheet.lines[word.line] in self.wrong
                   for number, word in enumerate(sheet.words, 1))


class NotMade(Exception):
    """No drawing came of a try."""


def made(seed: int, kind: Kind | None = None, most: int = MOST_BLOCKS) -> Made:
    """The drawing of a seed, of so many blocks at most."""
    chance = random.Random(seed)
    wanted = kind or chance.choice(WANTED)
    for _ in range(TRIES):
        try:
            return _tried(seed, wanted, chance, most)
        except (NotMade, Untold, np.linalg.LinAlgError, ZeroDivisionError, OverflowError):
            continue
    raise NotMade(f"no drawing of seed {seed}")


def _tried(seed: int, kind: Kind, chance: random.Random, most: int) -> Made:
    shapes = built(chance, most)
    model, exact = _model(shapes, shapes.asked, shapes.spots, shapes.radii)
    pool = _ordered(list(offered(model.plane(exact), chance)), shapes, chance)
    first = _triangle(pool, shapes, chance) if kind is Kind.IMPOSSIBLE else []
    kept, spare = _chosen(model, exact, shapes, first + pool)
    if kind is Kind.OPEN:
        kept = _fewer(kept, chance, chance.randint(1, 3))
    return _Finish(shapes, exact, chance).made(seed, kind, kept, spare, first)


def _model(shapes: Building, words: Iterable[str], spots: dict[str, tuple[float, float]],
           radii: dict[str, float]) -> tuple[Model, Vector]:
    """The model of shapes that are drawn so, with words; and where they really lie."""
    model = Model.of(read(written(shapes, words, spots, radii, 12)))
    return model, model.index.vector({**shapes.spots, "Origin": (0, 0)}, shapes.radii)


def written(shapes: Building, words: Iterable[str], spots: dict[str, tuple[float, float]],
            radii: dict[str, float], digits: int) -> str:
    """The text of shapes, drawn at these places, and words."""
    lines = []
    for drawn in shapes.drawn:
        line = []
        for word in drawn:
            if word.startswith("@"):
                line += [_number(part, digits) for part in spots[word[1:]]]
            elif word.startswith("%"):
                line.append(_number(radii[word[1:]], digits))
            else:
                line.append(word)
        lines.append(" ".join(line))
    return "\n".join([*lines, *words]) + "\n"


def _number(value: float, digits: int) -> str:
    text = f"{value:.{digits}f}".rstrip("0").rstrip(".") if digits else f"{value:.0f}"
    return "0" if text == "-0" else text


def _ordered(offers: list[Offer], shapes: Building, chance: random.Random) -> list[Offer]:
    """Offers block by block, by chance within each; about the datum in most drawings, of the
    directions alone in some, without the datum in others."""
    tie = chance.choice(("pinned", "pinned", "pinned", "level", "loose"))
    found = []
    for offer in offers:
        if tie == "loose" and offer.is_datum():
            continue
        if tie == "level" and offer.is_datum() and offer.kind not in ("horizontal", "vertical", "angle"):
            continue
        block = max((shapes.owners.get(name.partition(".")[0], 0) for name in offer.names), default=0)
        found.append((block, -chance.random() ** (1 / WEIGHTS[offer.kind]), offer))
    return [offer for _, _, offer in sorted(found, key=lambda each: each[:2])]


def _triangle(pool: list[Offer], shapes: Building, chance: random.Random) -> list[Offer]:
    """Three distances of three points."""
    points = {*shapes.spots, "Origin"}
    sides = [offer for offer in pool if offer.kind == "length"
             or offer.kind == "distance" and set(offer.names) <= points]
    chance.shuffle(sides)
    ends = {offer: _points(offer) for offer in sides}
    for one in sides:
        for other in sides:
            if len(ends[one] & ends[other]) != 1:
                continue
            third = ends[one] ^ ends[other]
            for last in sides:
                if ends[last] == third:
                    return [one, other, last]
    raise NotMade("no triangle")


def _points(offer: Offer) -> frozenset[str]:
    if offer.kind == "length":
        return frozenset({f"{offer.names[0]}.start", f"{offer.names[0]}.end"})
    return frozenset(offer.names)


def _chosen(model: Model, exact: Vector, shapes: Building, pool: list[Offer]
            ) -> tuple[list[Offer], list[Offer]]:
    """The offers, in their order, of which each says something that those before don't, beside
    the words that come with the shapes; and the rest."""
    sheet = read("\n".join(model.sheet.lines + [offer.line() for offer in pool]))
    whole = Model.of(sheet)
    slopes = whole.slopes(exact)
    begin = len(model.sheet.words) + 1
    basis = _Basis(model.index.size)
    for block in slopes[:begin]:
        if basis.take(block) < len(block):
            raise NotMade("the shapes say something twice")
    kept: list[Offer] = []
    rest: list[Offer] = []
    for offer, block in zip(pool, slopes[begin:]):
        (kept if basis.take(block, whole=True) == len(block) else rest).append(offer)
    return kept, rest


class _Basis:
    """What rows say so far: orthonormal rows."""

    def __init__(self, size: int) -> None:
        self._rows: Matrix = np.zeros((0, size))

    def take(self, block: Matrix, whole: bool = False) -> int:
        """Takes rows, and returns how many said something new; `whole`: none where not all do."""
        grown = self._rows
        for row in block:
            norm = np.linalg.norm(row)
            if norm < HELD_MM:
                continue
            row = row / norm
            for _ in range(2):
                row = row - (grown @ row) @ grown
            left = np.linalg.norm(row)
            if left > SOME:
                grown = np.vstack([grown, row / left])
        new = len(grown) - len(self._rows)
        if not whole or new == len(block):
            self._rows = grown
        return new


def _fewer(offers: list[Offer], chance: random.Random, count: int) -> list[Offer]:
    """Some of the offers."""
    gone = set(chance.sample(range(len(offers)), min(count, len(offers))))
    return [offer for place, offer in enumerate(offers) if place not in gone]


def rounded(offer: Offer, chance: random.Random) -> str:
    """The line of a word with a value that a designer would give."""
    digits = chance.choice((0, 0, 1, 1, 3)) if offer.kind == "angle" else chance.choice((0, 1, 1, 3))
    return offer.line(digits)


@dataclass(frozen=True)
class _Finish:
    """Makes a text of shapes and chosen words."""

    shapes: Building
    exact: Vector
    chance: random.Random

    def made(self, seed: int, kind: Kind, kept: list[Offer], spare: list[Offer],
             first: list[Offer]) -> Made:
        lines = {offer: rounded(offer, self.chance) for offer in kept}
        self._place([*self.shapes.asked, *lines.values()])
        words = list(lines.values())
        wrong: set[str] = set()
        against: set[str] = set()
        if kind in (Kind.REPEATED, Kind.CONTRADICTING):
            words, wrong = self._more(words, spare, kind)
        if kind is Kind.IMPOSSIBLE:
            against, wrong = self._broken(lines, first)
            words = [line for offer, line in lines.items() if offer != first[-1]] + sorted(wrong)
        self.chance.shuffle(words)
        return self._drawn(seed, kind, words, frozenset(wrong), frozenset(against))

    def _place(self, words: list[str]) -> None:
        """Moves the shapes to where the rounded values hold."""
        spots = self._fixed_spots(words)
        model, at = _model(self.shapes, words, spots, self.shapes.radii)
        found = model.solved(at)
        if found is None or np.abs(found - at).max(initial=0) > 6:
            raise NotMade("no such shape near by")
        plane = model.plane(found)
        for name in self.shapes.spots:
            x, y = plane.spot(name)
            self.shapes.spots[name] = (x.real, y.real)
        for name in self.shapes.radii:
            self.shapes.radii[name] = plane.radius(name).real
            if self.shapes.radii[name] < 0.5:
                raise NotMade("no radius is left")

    def _fixed_spots(self, words: list[str]) -> dict[str, tuple[float, float]]:
        """Where points are drawn: those that are fixed at round places."""
        fixed = {line.split()[1] for line in words if line.startswith("fixed ")}
        return {name: (round(x, 2), round(y, 2)) if name in fixed else (x, y)
                for name, (x, y) in self.shapes.spots.items()}

    def _more(self, words: list[str], spare: list[Offer], kind: Kind) -> tuple[list[str], set[str]]:
        """The words with some that say something again, or one against what they say."""
        model, at = _model(self.shapes, self.shapes.asked, self.shapes.spots, self.shapes.radii)
        again = set(offered(model.plane(at), random.Random(self.chance.random())))
        chosen = [offer for offer in again if offer.kind != "fixed" and offer.form != "ratio"
                  and offer.line(9) not in words and offer.names not in _named(words, offer.kind)]
        chosen.sort(key=lambda offer: offer.line())
        if kind is Kind.CONTRADICTING:
            chosen = [offer for offer in chosen if offer.value is not None]
        if not chosen:
            raise NotMade("nothing to say again")
        more = self.chance.sample(chosen, min(len(chosen), self.chance.choice((1, 1, 1, 2))))
        if kind is Kind.REPEATED:
            return words + [offer.line(9) for offer in more], set()
        line = self._changed(more[0])
        return [*words, line], {line}

    def _changed(self, offer: Offer) -> str:
        """An offer with a value that it doesn't have."""
        assert offer.value is not None
        if offer.kind == "angle":
            by = self.chance.choice((1, -1)) * self.chance.uniform(2, 12)
            if not 1 < abs(offer.value + by) < 179:
                by = -by
            return replace(offer, value=offer.value + by).line(1)
        by = self.chance.uniform(0.05, 0.3) * offer.value
        by += 1 if by > 0 else -1
        return replace(offer, value=offer.value + by).line(2)

    def _broken(self, lines: dict[Offer, str], first: list[Offer]) -> tuple[set[str], set[str]]:
        """Two sides of a triangle, and the third, longer than both."""
        if any(offer not in lines for offer in first):
            raise NotMade("the triangle isn't told")
        sides = [lines[offer] for offer in first[:2]]
        value = sum(float(line.split()[-1]) for line in sides) + self.chance.uniform(2, 9)
        return set(sides), {replace(first[2], value=value).line(2)}

    def _drawn(self, seed: int, kind: Kind, words: list[str], wrong: frozenset[str],
               against: frozenset[str]) -> Made:
        """The drawing, roughly drawn, so that its words hold all the same by what is drawn."""
        words = [*self.shapes.asked, *words]
        for jitter in JITTERS:
            spots, radii, digits = self._rough(words, jitter)
            model, exact = self._read(words, spots, radii, digits)
            if _holds(model, exact, wrong) and _turns_alike(model, exact):
                if not can_be_parallel(model, exact, wrong):
                    raise NotMade("edges that have a distance aren't parallel")
                text = written(self.shapes, words, spots, radii, digits)
                return _as_it_is(Made(kind, seed, text, exact, truth(model, exact), wrong, against))
        raise NotMade("not drawn so that it holds")

    def _read(self, words: list[str], spots: dict[str, tuple[float, float]],
              radii: dict[str, float], digits: int) -> tuple[Model, Vector]:
        model = Model.of(read(written(self.shapes, words, spots, radii, digits)))
        return model, model.index.vector({**self.shapes.spots, "Origin": (0, 0)}, self.shapes.radii)

    def _rough(self, words: list[str], jitter: float
               ) -> tuple[dict[str, tuple[float, float]], dict[str, float], int]:
        """Places near to the true ones, to whole or tenths of mm."""
        held = self._fixed_spots(words)
        fixed = {line.split()[1] for line in words if line.startswith("fixed ")}

        def move(value: float) -> float:
            return value + self.chance.uniform(-jitter, jitter)

        digits = 12 if fixed or jitter == 0 else self.chance.choice((0, 1, 2))
        spots = {name: held[name] if name in fixed else (round(move(x), 3), round(move(y), 3))
                 if jitter else (x, y) for name, (x, y) in self.shapes.spots.items()}
        radii = {name: max(1.0, move(radius)) if jitter else radius
                 for name, radius in self.shapes.radii.items()}
        return spots, radii, digits


def _as_it_is(made: Made) -> Made:
    """A drawing of the kind that came out."""
    if made.kind is Kind.CONTRADICTING and not made.contradicts():
        return replace(made, kind=Kind.ELSEWHERE)
    if made.kind is Kind.REPEATED and not made.truth.excess:
        return replace(made, kind=Kind.OPEN if made.truth.lacks else Kind.COMPLETE)
    return made


def _named(words: list[str], kind: str) -> set[tuple[str, ...]]:
    """The names that words of a kind speak of."""
    split = [line.split() for line in words]
    return {tuple(name for name in each[1:] if name[0].isalpha()) for each in split if each[0] == kind}


def can_be_parallel(model: Model, exact: Vector, wrong: frozenset[str]) -> bool:
    """Whether near the exact places each two edges that have a distance can be parallel beside all
    other words: a distance doesn't say it, and is met only where they are."""
    sheet = model.sheet
    held = [word for word in sheet.words if sheet.lines[word.line] not in wrong]
    pairs = [word for word in held
             if word.kind == "distance" and all(map(sheet.is_line, word.names))]
    parallel = [replace(word, kind="parallel", value=None) for word in pairs]
    beside = replace(model, sheet=replace(sheet, words=held + parallel))
    return not pairs or beside.solved(exact) is not None


def _turns_alike(model: Model, exact: Vector) -> bool:
    """Whether each three points are drawn the way round that they lie, so that the drawing chooses
    the shape that was meant wherever its words leave two."""
    drawn = model.index.vector(model.sheet.drawn, model.sheet.radii)
    before, after = turns(model, exact), turns(model, drawn)
    return not ((np.abs(before) > HOLDS_MM) & (before * after <= 0)).any()


def turns(model: Model, at: Vector) -> Matrix:
    """For each three points twice their triangle's area at a vector, above 0 where they go round to
    the left."""
    plane = model.plane(at)
    spots = np.array([complex(x.real, y.real) for x, y in map(plane.spot, model.sheet.drawn)])
    ways = spots[None, :] - spots[:, None]
    found: Matrix = (np.conj(ways)[:, :, None] * ways[:, None, :]).imag
    return found


def _holds(model: Model, exact: Vector, wrong: frozenset[str]) -> bool:
    """Whether each word holds at the exact places, but for those of the wrong lines."""
    plane = model.plane(exact)
    for word in model.sheet.words:
        if model.sheet.lines[word.line] in wrong:
            continue
        if any(abs(row.off) > HOLDS_MM or row.backward for row in model.ruler.rows(plane, word)):
            return False
    return all(abs(row.off) < HOLDS_MM for row in model.ruler.implied(plane))


__all__ = ["Index", "Kind", "Made", "NotMade", "Sheet", "can_be_parallel", "made", "turns"]
