"""Judges a drawing with other numbers for one dimension or value: resize.py FILE NAME NUMBER .."""
import sys
from fractions import Fraction

from pertxogai.drawing import DrawingUnsound, parameters, read_drawing
from pertxogai.judging import CountedDrawing, GoodJudgement, good_of, judge
from pertxogai.program import Program

path, name, *numbers = sys.argv[1:]
with open(path) as file:
    drawing = read_drawing(file.read())
program = Program.find()
(parameter,) = (each for each in parameters(drawing) if each.called(drawing) == name)
for number in numbers:
    try:
        resized = parameter.on(drawing, Fraction(number))
    except DrawingUnsound as unsound:
        print(number, "-", unsound)
        continue
    judged = CountedDrawing(path, resized, judge(resized, program))
    good = good_of(judged)
    print(number, "-", "good" if isinstance(good, GoodJudgement) else good.reasons[0].text)
    for warning in judged.warnings():
        print("  check:", warning.text())
