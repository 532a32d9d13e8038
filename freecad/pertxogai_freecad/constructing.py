"""The command Construction: the program's plan of a sketch, step by step, to be watched."""
from __future__ import annotations

from collections.abc import Iterator
from dataclasses import dataclass

from pertxogai.judging import GoodJudgement, Judgement
from pertxogai.judging.trials import written_by
from pertxogai.language.clusters import ClusterName
from pertxogai.output.construction import Construction, Locus
from pertxogai.output.placed_elements import ElementPoint, elements_placed
from pertxogai.program import Program
from pertxogai.program.reports import Solved, read_plan
from pertxogai_freecad.judging import JudgedSketch
from pertxogai_freecad.trouble import NotGoodTrouble, troubles


@dataclass(frozen=True)
class Step:
    """A step of the construction. made: what it makes, by its name in the sketch, and where that
    lies, in millimetres; None of a line. joins: what it joins, in words, each once. loci: where
    what is made lies by the others. shapes: the shapes of which all points stand, once it is done,
    by FreeCAD's numbers."""

    number: int
    made: str
    at: tuple[float, float] | None
    joins: tuple[str, ...]
    loci: tuple[Locus, ...]
    shapes: frozenset[int]

    def line(self) -> str:
        """All of it, to read."""
        return f"step {self.number} makes {self.made} by {'; by '.join(self.joins)}"


@dataclass(frozen=True)
class Constructed:
    """The steps of a good sketch, in their order."""

    judged: JudgedSketch
    steps: tuple[Step, ...]

    def lines(self) -> Iterator[str]:
        """The steps, in lines to read."""
        steps = "1 step" if len(self.steps) == 1 else f"{len(self.steps)} steps"
        yield f"{self.judged.read.label} is constructed in {steps}"
        yield from (f"  {each.line()}" for each in self.steps)


def construct(judged: JudgedSketch) -> Constructed:
    """The construction of a good sketch, as the program has planned it. Raises NotGoodTrouble where
    the sketch isn't good, and Trouble."""
    if not isinstance(judged.good, GoodJudgement):
        raise NotGoodTrouble(
            f"{judged.read.label} isn't good, so it has no construction: {judged.good}")
    with troubles():
        construction = _planned(judged.judged.judgement, judged.program)
    return Constructed(judged, tuple(_steps(construction, judged)))


def _planned(judgement: Judgement, program: Program) -> Construction:
    """What the program plans of what it has placed. Raises ProgramError, Refusal."""
    asked = judgement.asked
    assert isinstance(asked.solved, Solved)
    plan = read_plan(written_by(program, "plan", asked.spelled.sketch.text()))
    return Construction(judgement, plan, elements_placed(judgement, asked.solved))


def _steps(construction: Construction, judged: JudgedSketch) -> Iterator[Step]:
    numbers = {shape.name: number for number, shape in judged.read.curves().items()}
    standing: frozenset[int] = frozenset()
    for each in construction.steps():
        made = construction.placed[each.made]
        stands = construction.shapes(ClusterName(True, each.number))
        standing |= {numbers[name] for name in stands if name in numbers}
        yield Step(each.number, construction.called(each.made),
                   made.at if isinstance(made, ElementPoint) else None,
                   tuple(dict.fromkeys(joined.called for joined in each.joins)), each.loci,
                   standing)
