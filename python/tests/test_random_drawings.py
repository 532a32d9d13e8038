"""Drawings by chance, of what the board offers: each is spelled in every reading and style, whatever
is joined, fixed and told twice in it."""
from __future__ import annotations

import random

import pytest

from pertxogai.board.offers import Offer, offers
from pertxogai.drawing import Drawing, DrawingRefusal, read_drawing
from pertxogai.judging.limits import DrawingRefused, check_fits
from pertxogai.language import Sketch
from pertxogai.spelling import Care, Rails, Spelled, Style, readings, written

X = (0, 0, 10, 20, 30, -10, 7, 12.5)
Y = (0, 0, 10, 20, 30, -10, 9, 3.5)
LENGTHS = ("10", "20", "12.5", "5", "-10", "+10")
ANGLES = ("60deg", "90deg", "30deg", "1/2", "+30deg", "45deg")
KINDS = {"point": (), "segment": ("start", "end"), "circle": ("centre",),
         "arc": ("centre", "start", "end")}


class Hand:
    """What draws by chance: lines of a drawing, each of which it takes."""

    def __init__(self, seed: int) -> None:
        self.chance = random.Random(seed)
        self.lines: list[str] = []
        self.points: list[str] = []
        self.shapes: list[str] = []

    def drawing(self) -> Drawing:
        """A few shapes, and a few constraints of those that are offered."""
        for number in range(self.chance.randint(1, 4)):
            self._shape(number)
        for _ in range(self.chance.randint(1, 7)):
            self._constraint()
        return read_drawing(self._text())

    def _text(self, *more: str) -> str:
        return "".join(f"{line}\n" for line in (*self.lines, *more))

    def _add(self, line: str) -> bool:
        """Writes a line; False where the drawing can't have it."""
        try:
            read_drawing(self._text(line))
        except DrawingRefusal:
            return False
        self.lines.append(line)
        return True

    def _place(self) -> str:
        return f"{self.chance.choice(X)} {self.chance.choice(Y)}"

    def _spot(self) -> str:
        """A place, or a point that is drawn already."""
        if self.points and self.chance.random() < 0.4:
            return self.chance.choice(self.points)
        return self._place()

    def _shape(self, number: int) -> None:
        kind = self.chance.choice(["point", "segment", "segment", "segment", "circle", "arc"])
        name = f"{kind[0].upper()}{number}"
        spots = [self._spot() for _ in KINDS[kind]] or [self._place()]
        size = [self.chance.choice(["5", "10", "12.5"])] if kind == "circle" else []
        if self._add(" ".join([kind, name, *spots, *size])):
            self.points += [f"{name}.{each}" for each in KINDS[kind]] or [name]
            self.shapes += [name] if KINDS[kind] else []

    def _constraint(self) -> None:
        names = [*self.points, *self.shapes, "Origin", "XAxis", "YAxis"]
        count = min(len(names), self.chance.choice([1, 1, 2, 2, 2, 3]))
        offered = list(offers(read_drawing(self._text()), self.chance.sample(names, count)))
        if offered:
            self._add(self._asked(self.chance.choice(offered)))

    def _asked(self, offer: Offer) -> str:
        """A line of what is offered, with a value that is drawn so or isn't."""
        if offer.value is None:
            return " ".join(offer.words)
        others = ANGLES if "deg" in offer.value else LENGTHS
        return " ".join([*offer.words, self.chance.choice([offer.value, offer.value, *others])])


def spelled(drawing: Drawing) -> list[Spelled]:
    """All that a drawing may be spelled as."""
    found = []
    for each in readings(drawing):
        for style in Style:
            found.append(each.spelled(style))
            found += [written(each.axes, Rails(each.axes, style), style, care)
                      for care in (Care(insist=True), Care(fine=True))]
    return found


@pytest.mark.parametrize("seed", range(6))
def test_drawings_by_chance_are_spelled(seed: int) -> None:
    for turn in range(10):
        drawing = Hand(100 * seed + turn).drawing()
        try:
            check_fits(drawing)
        except DrawingRefused:
            continue
        for each in spelled(drawing):
            assert Sketch.parse(each.sketch.text()) == each.sketch
            assert len(each.owners) == len(each.sketch.constraints)


@pytest.mark.parametrize("text", [
    "segment S0 24 5 26 -1\nsegment S1 S0.start S0.end\nsegment S2 -11 12 S0.start\n"
    "segment S3 Origin -20 30\nhorizontal S0\nangle S3 -50deg\nangle S1 20deg\nlength S0 30\n",
    "segment S0 Origin -16 7\nsegment S1 Origin -11 -29\nsegment S2 S1.end S0.end\n"
    "segment S3 S0.start 39 -22\nsegment S4 26 -38 -28 -12\nangle S4 S0 33deg\nparallel S0 S1\n"
    "angle S2 S1 100deg\nangle S1 45deg\nparallel S0 S3\n",
    "segment S0 -33 -27 -26 -2\nsegment S1 Origin -40 -31\nsegment S2 -18 5 25 -8\n"
    "segment S3 -3 -4 11 16\nparallel S3 S1\non S2.end S1\ncollinear S3 S0\nangle S1 70deg\n",
    "segment S1 -8 9 28 -29\nsegment S2 22 -15 S1.end\nsegment S3 7 9 -13 -21\n"
    "segment S4 -18 32 S3.start\nhorizontal S1\nangle S2 S3 33deg\nangle S3 S2 33deg\n"
    "length S1 30\ndistance Origin S2 10\nx S4.start S2.end 12\n",
])
def test_a_line_of_help_may_go_through_the_origin(text: str) -> None:
    """Where it is the only point of a line, or of an axis, that a line of help goes through."""
    for each in spelled(read_drawing(text)):
        assert Sketch.parse(each.sketch.text()) == each.sketch
