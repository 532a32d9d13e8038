"""The command Complete: the dimensions that a sketch lacks, to be taken one by one or all."""
from __future__ import annotations

from collections.abc import Iterator, Sequence
from dataclasses import dataclass

from pertxogai.completing import Completion, NoProposal, Proposal, complete
from pertxogai.judging.measure import Limit
from pertxogai.judging.remembering import Remembering
from pertxogai.output.completion_text import completion_lines
from pertxogai.program import Program
from pertxogai_freecad import changes
from pertxogai_freecad.sketches import ReadSketch
from pertxogai_freecad.trouble import Trouble, troubles


@dataclass(frozen=True)
class Proposed:
    """What completes a sketch, or why nothing is proposed."""

    read: ReadSketch
    found: Completion | NoProposal

    @staticmethod
    def of(read: ReadSketch, program: Program, limit: Limit) -> Proposed:
        """What is proposed of a sketch. Raises Trouble, also without numpy or scipy."""
        with troubles():
            return Proposed(read, complete(read.drawing, Remembering(program), limit))

    @property
    def proposals(self) -> tuple[Proposal, ...]:
        """Each line that is proposed, what ties the whole last."""
        return tuple(self.found.all()) if isinstance(self.found, Completion) else ()

    def lines(self) -> Iterator[str]:
        """What is proposed, in lines to read."""
        return completion_lines(self.read.label, self.found, [*map(str, self.read.found.left_out)])

    def take(self, places: Sequence[int]) -> None:
        """Adds some of the proposals, by their places from 0, in one step of FreeCAD's undo. Raises
        Trouble where nothing is proposed, or the sketch was changed since."""
        if not isinstance(self.found, Completion) or not places:
            raise Trouble("nothing is proposed, so nothing is added")
        added = [self.proposals[place].constraint for place in places]
        changes.add(self.read, self.found.drawing, added)

    def take_all(self) -> None:
        """Adds all of the proposals. Raises Trouble as `take`."""
        self.take(range(len(self.proposals)))
