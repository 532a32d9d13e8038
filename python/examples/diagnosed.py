"""What `pertxogai judge` prints of a drawing, and what is left without each removable constraint:
diagnosed.py FILE"""
import sys
from dataclasses import replace
from pathlib import Path

from pertxogai.completing import lines_to_add
from pertxogai.drawing import checked, read_drawing
from pertxogai.judging import CountedDrawing, judge, shortage_of
from pertxogai.output import drawing_lines
from pertxogai.program import Program
from pertxogai.program.reports import Verdict
from pertxogai.search import search_judged

program, path = Program.find(), Path(sys.argv[1])
drawing = read_drawing(path.read_text())
judgement = judge(drawing, program)
judged = CountedDrawing(path.stem, drawing, judgement, short=shortage_of(judgement, program))
if judgement.verdict is not Verdict.WELL:  # by numbers: this needs numpy and scipy
    judged = replace(judged, finding=search_judged(drawing, judgement, program))
if judgement.verdict is Verdict.OPEN:
    judged = replace(judged, proposed=lines_to_add(drawing, program, seconds=1))
print(*drawing_lines(judged), sep="\n")
for spare in judgement.surplus:
    kept = tuple(each for number, each in enumerate(drawing.constraints, start=1)
                 if number != spare.number)
    rest = judge(checked(replace(drawing, constraints=kept)), program)
    print(f"without {spare.name}: {rest.verdict.value}")
