"""A triangle by its three sides, in mm: triangle.py 4 5 3 OUT.svg"""
import sys

from pertxogai.judging import concerned, judge_sketch
from pertxogai.language import Distance, Point, Sketch, micrometres
from pertxogai.output import picture_of_judged
from pertxogai.program import Program

ab, ac, bc = map(micrometres, sys.argv[1:4])
corners = Point("A", 0, 0), Point("B", 4000, 0), Point("C", 4000, 3000)
sides = Distance("A", "B", ab), Distance("A", "C", ac), Distance("B", "C", bc)
judged = judge_sketch("triangle", Sketch(1, corners, sides), Program.find())
print(judged.check.verdict.value)
for line in judged.solved.places if judged.solved else concerned(judged):
    print(line.text())
picture_of_judged(judged).save(sys.argv[4])
