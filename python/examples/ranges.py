from pertxogai.drawing import read_drawing
from pertxogai.program import Program
from pertxogai.ranging import Ranging

plate = read_drawing("value Width 120\nrectangle Plate 0 0 118 79\nlength PlateBottom Width\n"
                     "length PlateRight 80\ncircle Hole 40 40 9\nx PlateBottom.start Hole 45\n"
                     "y PlateBottom.start Hole 30\nradius Hole Width/12\n")
for each in Ranging.of(plate, Program.find()).ranges():
    print(each.of.called(plate), float(each.low.at), float(each.high.at), each.low.fault.text)
