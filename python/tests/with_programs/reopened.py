"""Opens files in FreeCAD's console and tells how their sketches lie and what FreeCAD says of them.

    freecadcmd python/tests/with_programs/reopened.py

LISTED names a file with a line for each file to open; TOLD the file to write: for each sketch
`place FILE SKETCH SHAPE POSITION x y`, as stored, then `facts FILE SKETCH CODE fully`, and then
`solved ..` as `place`, once FreeCAD solved it itself. Lengths are millimetres.
"""

from listed_files import tell


def places(sketch):
    """The places of a sketch's own shapes: FreeCAD's numbers of shape and position, x, y."""
    for shape in range(len(sketch.Geometry)):
        for position in (1, 2, 3):
            try:
                at = sketch.getPoint(shape, position)
            except ValueError:
                continue
            yield "%d %d %.12f %.12f" % (shape, position, at.x, at.y)


def lines(sketch, names):
    """The lines of one sketch."""
    for place in places(sketch):
        yield "place %s %s" % (names, place)
    code = sketch.solve()
    fully = "yes" if sketch.FullyConstrained else "no"
    yield "facts %s %d %s" % (names, code, fully)
    for place in places(sketch):
        yield "solved %s %s" % (names, place)


tell(lines)
