"""Each sketch of a FreeCAD file; of one that is good its points and a DXF: placed.py FILE FOLDER"""
import sys
from pathlib import Path

from pertxogai.files.freecad import read_freecad
from pertxogai.judging import CountedDrawing, GoodJudgement, good_of, judge
from pertxogai.output import DrawingSheet, Release, drawing_lines
from pertxogai.program import Program

program, folder = Program.find(), Path(sys.argv[2])
for sketch in read_freecad(Path(sys.argv[1])):
    judged = CountedDrawing(sketch.label, sketch.drawing, judge(sketch.drawing, program))
    good = good_of(judged)
    if not isinstance(good, GoodJudgement):
        print(*drawing_lines(judged), sep="\n")
        continue
    for point, (x_nm, y_nm) in good.solution.points.items():
        print(point, x_nm, y_nm)
    text = DrawingSheet(judged, as_drawn=False).dxf(Release.R2010)
    (folder / Path(f"{sketch.label}.dxf").name).write_text(text)  # a label may have slashes
