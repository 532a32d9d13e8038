"""A judged sketch as a picture, or as DXF."""
from __future__ import annotations

from dataclasses import dataclass

from pertxogai.judging.good import GoodSketch, good_sketch_of
from pertxogai.judging.judged_sketch import JudgedSketch
from pertxogai.output.drawing_sheet import NoPlaces
from pertxogai.output.dxf import dxf_text, marks_of
from pertxogai.output.picture.svg import Picture
from pertxogai.output.release import Release
from pertxogai.output.sketch_picture import picture_of_judged
from pertxogai.program import Solver, Status
from pertxogai.program.reports import NotAReport, read_dxf


@dataclass(frozen=True)
class SketchSheet:
    """A sketch of the language, to be drawn; the program is asked for the ends of its lines."""

    judged: JudgedSketch
    program: Solver
    as_drawn: bool

    def picture(self) -> Picture:
        """As placed, or cluster by cluster, or as drawn."""
        return picture_of_judged(self.judged, self.as_drawn)

    def is_good(self) -> bool:
        """Whether it is good, and so drawn as placed; or drawn as drawn because that was asked
        for."""
        return self.as_drawn or isinstance(good_sketch_of(self.judged), GoodSketch)

    def dxf(self, release: Release) -> str:
        """The program's own points, circles, and lines with their ends. Raises NoPlaces,
        ProgramError, and MissingLibrary without ezdxf."""
        found = good_sketch_of(self.judged)
        if self.as_drawn:
            raise NoPlaces(f"{self.judged.name}: no DXF is written of a sketch as it is drawn")
        if not isinstance(found, GoodSketch):
            raise NoPlaces(f"{self.judged.name}: no DXF is written of what isn't good: {found}")
        words = "dxf", f"within={self.judged.limit.amount}"
        answer = self.program.ask(words, self.judged.sketch.text())
        if answer.status is not Status.DONE:
            raise NotAReport(
                f"the program has places by solve and none by dxf (status {answer.status.value})"
            )
        return dxf_text(marks_of(read_dxf(answer.text)), release)
