"""What became of one sketch of a file, as a command shows it: the same for a sketch of the language
and for a designer's drawing."""
from __future__ import annotations

from collections.abc import Iterator
from dataclasses import dataclass
from typing import TYPE_CHECKING, Protocol

from pertxogai.judging.good import (
    GoodJudgement, GoodSketch, NotGood, Reason, good_of, good_sketch_of, reasons_against)
from pertxogai.judging.judged_drawing import CountedDrawing
from pertxogai.output.release import Release
from pertxogai.program import Solver
from pertxogai.program.reports import Verdict

if TYPE_CHECKING:
    from pertxogai.judging.judged_sketch import JudgedSketch
    from pertxogai.output.picture.svg import Picture


class Sheet(Protocol):
    """A judged sketch or drawing, to be drawn."""

    def picture(self) -> Picture:
        """As SVG."""
        ...

    def dxf(self, release: Release) -> str:
        """As DXF. Raises NoPlaces, MissingLibrary and ProgramError."""
        ...

    def is_good(self) -> bool:
        """Whether it is good, and so drawn as placed; or drawn as drawn because that was asked
        for."""
        ...


class Outcome(Protocol):
    """A judged sketch or drawing."""

    @property
    def name(self) -> str:
        """The name that its designer gave it."""
        ...

    def verdict(self) -> Verdict:
        """The program's verdict."""
        ...

    def good(self) -> GoodJudgement | GoodSketch | NotGood:
        """The good judgement, or why it isn't good."""
        ...

    def reasons(self) -> tuple[Reason, ...]:
        """Why it isn't good; empty if it is."""
        ...

    def lines(self) -> Iterator[str]:
        """Everything that is reported of it, in lines to read."""
        ...

    def json(self) -> dict[str, object]:
        """Everything that is reported of it, as one JSON object."""
        ...

    def sheet(self, as_drawn: bool) -> Sheet:
        """How it is drawn: as placed, or as drawn."""
        ...


@dataclass(frozen=True)
class SketchOutcome:
    """A judged sketch of the language; the program is asked for the ends of its lines."""

    judged: JudgedSketch
    program: Solver

    @property
    def name(self) -> str:
        return self.judged.name

    def verdict(self) -> Verdict:
        return self.judged.check.verdict

    def good(self) -> GoodSketch | NotGood:
        return good_sketch_of(self.judged)

    def reasons(self) -> tuple[Reason, ...]:
        return reasons_against(self.judged)

    def lines(self) -> Iterator[str]:
        from pertxogai.output.sketch_text import sketch_lines

        return sketch_lines(self.judged)

    def json(self) -> dict[str, object]:
        from pertxogai.output.json_of_sketch import sketch_json

        return sketch_json(self.judged)

    def sheet(self, as_drawn: bool) -> Sheet:
        from pertxogai.output.sketch_sheet import SketchSheet

        return SketchSheet(self.judged, self.program, as_drawn)


@dataclass(frozen=True)
class DrawingOutcome:
    """A designer's drawing that was judged."""

    judged: CountedDrawing

    @property
    def name(self) -> str:
        return self.judged.name

    def verdict(self) -> Verdict:
        return self.judged.judgement.verdict

    def good(self) -> GoodJudgement | NotGood:
        return good_of(self.judged)

    def reasons(self) -> tuple[Reason, ...]:
        return reasons_against(self.judged)

    def lines(self) -> Iterator[str]:
        from pertxogai.output.drawing_text import drawing_lines

        return drawing_lines(self.judged)

    def json(self) -> dict[str, object]:
        from pertxogai.output.json_of_drawing import drawing_json

        return drawing_json(self.judged)

    def sheet(self, as_drawn: bool) -> Sheet:
        from pertxogai.output.drawing_sheet import DrawingSheet

        return DrawingSheet(self.judged, as_drawn)
