from pertxogai.drawing import read_drawing
from pertxogai.judging import CountedDrawing, judge
from pertxogai.program import Program

drawing = read_drawing("rectangle Plate 0 0 118 79\nlength PlateBottom 120\nlength PlateRight 80\n")
part = CountedDrawing("plate", drawing, judge(drawing, Program.find()))
print(part.judgement.verdict.value, *(f"within {it.amount} {it.unit.value}" for it in part.worst()))
