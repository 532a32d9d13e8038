"""Counts by FreeCAD's own solver how many degrees of freedom each sketch of some files has.

    freecadcmd python/tests/with_programs/counted.py

LISTED names a file with a line for each file to open; TOLD the file to write, a line for each
sketch: `FILE SKETCH COUNT`, or `FILE SKETCH none` where FreeCAD itself doesn't solve it. FreeCAD
tells whether a sketch is fully constrained, and not how far it is from that: so x, y and radii are
told as they are, one after the other, each that FreeCAD doesn't call redundant, until it is.
"""

import Sketcher
from listed_files import tell

SOLVED = 0
START, END, CENTRE = 1, 2, 3


def unknowns(sketch):
    """Each x, y and radius of the sketch's own shapes, as a kind of constraint and its numbers."""
    for shape, geometry in enumerate(sketch.Geometry):
        for position in (CENTRE, START, END):
            try:
                at = sketch.getPoint(shape, position)
            except ValueError:
                continue
            yield "DistanceX", (shape, position, at.x)
            yield "DistanceY", (shape, position, at.y)
        if hasattr(geometry, "Radius"):
            yield "Radius", (shape, geometry.Radius)


def freedoms(sketch):
    """How many of these have to be told; None where FreeCAD doesn't solve the sketch."""
    if sketch.solve() != SOLVED:
        return None
    count = 0
    for kind, numbers in list(unknowns(sketch)):
        if sketch.FullyConstrained:
            break
        added = sketch.addConstraint(Sketcher.Constraint(kind, *numbers))
        if sketch.solve() == SOLVED:
            count += 1
        else:
            sketch.delConstraint(added)
            sketch.solve()
    return count if sketch.FullyConstrained else None


def lines(sketch, names):
    """The line of one sketch."""
    count = freedoms(sketch)
    yield "%s %s" % (names, "none" if count is None else count)


tell(lines)
