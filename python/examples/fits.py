from pertxogai.drawing import read_drawing
from pertxogai.fitting import Fit, fit
from pertxogai.program import Program

blocks = read_drawing("check End x C.end 59.4 .. 59.8\ncheck Long distance A.start B.end 39 ..\n"
                      "segment A 0 0 20 0\nsegment B A.end 40 0\nsegment C B.end 59.5 0\n"
                      "coincident A.start Origin\nhorizontal A B C\nlength A 20 +-0.1\n"
                      "length B 20 +0.2-0\nlength C 19.5 +-0.05\n")
found = fit(blocks, Program.find())
for each in found.known if isinstance(found, Fit) else ():
    least, greatest, most = each.placed.least, each.placed.greatest, each.shares[0]
    print(each.check.name, least / 1e6, greatest / 1e6, each.answer.name)
    print("  most by", blocks.called(most.dimension.number), most.gives / 1e6)
