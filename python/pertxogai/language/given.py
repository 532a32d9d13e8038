"""What `measure` reads: a sketch, and behind it where someone says that its elements lie."""
from __future__ import annotations

from collections.abc import Sequence
from dataclasses import dataclass

from pertxogai.language.claim import PlacesReader
from pertxogai.language.places import Placed
from pertxogai.language.refusal import Code, Faulty
from pertxogai.language.lines import read_lines_behind, rows_of
from pertxogai.language.sketch import Sketch, read_sketch


@dataclass(frozen=True)
class Given:
    """A sketch, and positions of its elements to be measured."""

    sketch: Sketch
    places: tuple[Placed, ...]

    def text(self) -> str:
        """The text that `measure` reads."""
        return self.sketch.text() + "".join(it.text() + "\n" for it in self.places) + "end\n"

    @staticmethod
    def parse(text: str) -> Given:
        """Reads a sketch and the positions that follow it. Raises Refusal."""
        rows = rows_of(text)
        sketch, rest = read_sketch(rows)
        reader = PlacesReader(sketch)

        def take(words: Sequence[str]) -> bool:
            if words[0] != "end":
                reader.take(words)
            elif len(words) > 1:
                raise Faulty(Code.E3)
            return words[0] == "end"

        read_lines_behind(rest, take, len(rows))
        return Given(sketch, tuple(reader.places.values()))
