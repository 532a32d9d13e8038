"""Files that FreeCAD's console opens one after the other: LISTED names a file with a line for each,
TOLD the file to write."""

import os

import FreeCAD


def sketches(path):
    """Each sketch of one file, with the names of the file and of the sketch."""
    document = FreeCAD.openDocument(path)
    for sketch in document.Objects:
        if sketch.TypeId == "Sketcher::SketchObject":
            yield sketch, "%s %s" % (os.path.basename(path), sketch.Name)
    FreeCAD.closeDocument(document.Name)


def tell(lines):
    """Writes the lines that are told of each sketch and its names."""
    with open(os.environ["LISTED"], encoding="utf-8") as listed:
        paths = [line.strip() for line in listed if line.strip()]
    with open(os.environ["TOLD"], "w", encoding="utf-8") as told:
        for path in paths:
            for sketch, names in sketches(path):
                told.writelines(line + "\n" for line in lines(sketch, names))
