"""A plate of a width and a height in mm, with a hole in its middle: plate.py 120 80"""
import sys

from pertxogai.drawing import PointRef, Which, read_drawing, write_drawing
from pertxogai.judging import judge
from pertxogai.judging.measure import Unit, greatest
from pertxogai.program import Program

WORDS = """
rectangle Plate 0 0 100 50
circle Hole 50 25 5
coincident PlateBottom.start Origin
Width: length PlateBottom {}
Height: length PlateRight {}
symmetric PlateBottom.start PlateTop.start about Hole
diameter Hole 12
"""

drawing = read_drawing(WORDS.format(*sys.argv[1:3]))
judged = judge(drawing, Program.find())
print(judged.verdict.value)
if judged.solution is not None:
    x_nm, y_nm = judged.solution.spot(PointRef("Hole", Which.CENTRE))
    print("the hole lies at", x_nm, y_nm, "nm")
    off = greatest(judged.deviations, Unit.NM)
    print("the greatest deviation is", off.amount if off else 0, "nm")
print(*write_drawing(drawing).splitlines()[:3], sep="\n")
