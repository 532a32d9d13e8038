"""A line for each sketch of files of any kind, also if one can't be read: files.py FILE .."""
import sys
from pathlib import Path

from pertxogai.files import Input, InputRefused, SketchText, read_inputs
from pertxogai.judging import CountedDrawing, DrawingRefused, TextRefused, judge, judge_sketch
from pertxogai.language import NotHeld
from pertxogai.output import DrawingOutcome, Outcome, SketchOutcome
from pertxogai.program import Program, ProgramError

REFUSALS = InputRefused, DrawingRefused, TextRefused, NotHeld, ProgramError
program = Program.find()


def judged(found: Input) -> Outcome:
    """The judgement on a sketch. Raises one of REFUSALS."""
    if isinstance(found, SketchText):  # a text of the language
        return SketchOutcome(judge_sketch(found.name, found.text, program), program)
    judgement = judge(found.drawing, program)
    return DrawingOutcome(CountedDrawing(found.name, found.drawing, judgement, aside=found.aside))


for path in map(Path, sys.argv[1:]):
    try:
        for each in map(judged, read_inputs(path)):
            reasons = [it.text for it in each.reasons()] or ["good"]
            print(path.name, each.name, each.verdict().value, *reasons, sep=": ")
    except REFUSALS as refused:
        print(refused)
