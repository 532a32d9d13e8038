"""What `verify` reads: a sketch, and behind it the steps, places and tolerances that someone
says of it."""
from __future__ import annotations

import re
from collections.abc import Sequence
from dataclasses import dataclass

from pertxogai.language.clusters import Choice, ClusterName, Step, read_cluster
from pertxogai.language.elements import Circle, Line, Point
from pertxogai.language.lines import check_words, read_lines_behind, rows_of
from pertxogai.language.names import is_name
from pertxogai.language.places import Placed, PlacedCircle, PlacedLine, PlacedPoint
from pertxogai.language.refusal import Code, Faulty
from pertxogai.language.sketch import Sketch, read_sketch

MOST_PLACE_NM = 1 << 60
MOST_NORMAL_PPB = 2_000_000_000
MOST_TOLERANCE = 1 << 62
_WHOLE = re.compile("-?[0-9]{1,19}")
_PLACE_COUNTS = {"point": (4,), "circle": (5,), "line": (5,)}
_COUNTS = {**_PLACE_COUNTS, "step": (13, 14), "tolerance": (3,)}


@dataclass(frozen=True)
class Claim:
    """A sketch, and a claim about it: the steps in order, the positions of the elements, the
    tolerance of each length in nm, and that of each angle and normal in parts per 10^9."""

    sketch: Sketch
    steps: tuple[Step, ...]
    places: tuple[Placed, ...]
    length_tolerance_nm: int
    angle_tolerance_ppb: int

    def text(self) -> str:
        """The text that `verify` reads."""
        lines = [
            *(step.text() for step in self.steps),
            *(placed.text() for placed in self.places),
            f"tolerance {self.length_tolerance_nm} {self.angle_tolerance_ppb}",
            "",
        ]
        return self.sketch.text() + "\n".join(lines)

    @staticmethod
    def parse(text: str) -> Claim:
        """Reads a sketch and a claim. Raises Refusal."""
        rows = rows_of(text)
        sketch, rest = read_sketch(rows)
        reader = _Reader(sketch)
        read_lines_behind(rest, reader.take, len(rows))
        return reader.claim()


class _Reader:
    """The claim so far."""

    def __init__(self, sketch: Sketch) -> None:
        self.sketch = sketch
        self.steps: list[Step] = []
        self.placed = PlacesReader(sketch)
        self.tolerances = (0, 0)

    def claim(self) -> Claim:
        """The claim of the lines that were taken."""
        places = tuple(self.placed.places.values())
        return Claim(self.sketch, tuple(self.steps), places, *self.tolerances)

    def take(self, words: Sequence[str]) -> bool:
        """Adds a line, and returns whether it is that of the tolerances. Raises Faulty."""
        check_words(words, _COUNTS)
        if words[0] == "tolerance":
            self.tolerances = _read_whole(words[1], 0, MOST_TOLERANCE), _read_whole(
                words[2], 0, MOST_TOLERANCE
            )
            return True
        if words[0] == "step":
            self.steps.append(self._step(words))
        else:
            self.placed.take(words)
        return False

    def _step(self, words: Sequence[str]) -> Step:
        """The step of a line. Raises Faulty: E2, E4, E6."""
        choices = [choice for choice in Choice if choice.value == " ".join(words[12:])]
        if (words[2], words[6], words[10]) != ("joins", "at", "keeps") or not choices:
            raise Faulty(Code.E2)
        number, one, two, three, keeps = (
            _read_cluster(word) for word in (words[1], *words[3:6], words[11])
        )
        if not number.is_step or not all(map(is_name, words[7:10])):
            raise Faulty(Code.E4)
        if any(name not in self.placed.kinds for name in words[7:10]):
            raise Faulty(Code.E6)
        return Step(
            number.number, (one, two, three), (words[7], words[8], words[9]), keeps, choices[0]
        )


class PlacesReader:
    """The places so far, by the names of their elements."""

    def __init__(self, sketch: Sketch) -> None:
        self.kinds = {element.name: type(element) for element in sketch.elements}
        self.places: dict[str, Placed] = {}

    def take(self, words: Sequence[str]) -> None:
        """Adds the place of a line. Raises Faulty: E2, E3, E4, E6, E7, E8, E5."""
        check_words(words, _PLACE_COUNTS)
        name = words[1]
        if not is_name(name):
            raise Faulty(Code.E4)
        if name not in self.kinds:
            raise Faulty(Code.E6)
        if self.kinds[name] is not {"point": Point, "line": Line, "circle": Circle}[words[0]]:
            raise Faulty(Code.E7)
        placed = _read_placed(words)
        if name in self.places:
            raise Faulty(Code.E5)
        self.places[name] = placed


def _read_placed(words: Sequence[str]) -> Placed:
    if words[0] == "line":
        a, b = (_read_whole(word, -MOST_NORMAL_PPB, MOST_NORMAL_PPB) for word in words[2:4])
        return PlacedLine(words[1], a, b, _read_nm(words[4]))
    if words[0] == "point":
        return PlacedPoint(words[1], _read_nm(words[2]), _read_nm(words[3]))
    return PlacedCircle(words[1], _read_nm(words[2]), _read_nm(words[3]), _read_nm(words[4]))


def _read_nm(word: str) -> int:
    return _read_whole(word, -MOST_PLACE_NM, MOST_PLACE_NM)


def _read_whole(word: str, least: int, most: int) -> int:
    if not _WHOLE.fullmatch(word) or not least <= int(word) <= most:
        raise Faulty(Code.E8)
    return int(word)


def _read_cluster(word: str) -> ClusterName:
    name = read_cluster(word)
    if name is None:
        raise Faulty(Code.E4)
    return name
