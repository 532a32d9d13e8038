"""A drawing that is over as it was measured alone: what can't be spelled, and isn't so where the
rest is placed, is told to the program twice. That isn't certified, and is said wherever the verdict
is."""
from __future__ import annotations

from pertxogai.drawing import read_drawing
from pertxogai.judging import judge
from pertxogai.judging.good import Lack, reasons_against
from pertxogai.judging.judged_drawing import JudgedDrawing
from pertxogai.output import drawing_json, drawing_lines
from pertxogai.program.reports import Verdict

MIDDLE = ("point A 0 0\npoint B 40 0\npoint C 20 30\npoint D 60 60\n"
          "segment SAB A B\nsegment TBC B C\nsegment UAC A C\n"
          "length SAB 40\nlength TBC 30\nlength UAC 35\n"
          "segment V C D\nequal V SAB\nMiddle: midpoint D UAC\n")
"""D is the middle of the side of 35, so 17.5 from C, and is told to be 40 from it."""
TWICE = ("rectangle P 0 0 40 30\ncoincident PBottom.start Origin\nlength PBottom 40\n"
         "length PRight 30\nlength PTop 40\n")
LINE = "which isn't certified"


def judged(text: str, program) -> JudgedDrawing:
    drawing = read_drawing(text)
    return JudgedDrawing("it", drawing, judge(drawing, program))


def test_what_is_over_as_it_was_measured_says_so(program):
    found = judged(MIDDLE, program)
    middle = "Middle"
    assert found.judgement.verdict is Verdict.OVER
    assert found.judgement.measured_off == (middle,)
    assert drawing_json(found)["measured_over"] == [middle]
    line, = (each for each in drawing_lines(found) if LINE in each)
    assert line.startswith("  over-constrained as measured") and middle in line
    assert [each.lack for each in reasons_against(found)] == [Lack.VERDICT]


def test_what_the_program_calls_over_itself_does_not(program):
    found = judged(TWICE, program)
    assert found.judgement.verdict is Verdict.OVER
    assert drawing_json(found)["measured_over"] == []
    assert not any(LINE in each for each in drawing_lines(found))
