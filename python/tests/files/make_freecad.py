"""Draws the FreeCAD files of this directory, as a user draws them, and saves them by FreeCAD.

Run it in FreeCAD's console, with the directory to write into:

    freecadcmd python/tests/files/make_freecad.py

It writes NAME.FCStd for each drawing, and freecad.facts: a line for each sketch with what FreeCAD
itself says of it, `file sketch solve CODE fully yes|no`, and freecad.outer: where it sees the points
of outer geometry. CODE is what its `solve` answers: 0 is
solved, -2 redundant, -3 conflicting, -4 over-constrained.
"""

import math
import os

import FreeCAD
import Part
import Sketcher

HERE = os.environ.get("FILES", os.path.dirname(os.path.abspath(__file__)))
START, END, CENTRE = 1, 2, 3
ORIGIN, X_AXIS, Y_AXIS = (-1, START), -1, -2
SEEN = []
"""The lines of freecad.outer."""


def vector(x, y):
    """A place of the sketch, in millimetres."""
    return FreeCAD.Vector(x, y, 0)


class Sheet:
    """One sketch of a document, with a method for each tool that its user takes."""

    def __init__(self, document, name="Sketch"):
        self.sketch = document.addObject("Sketcher::SketchObject", name)

    def line(self, x1, y1, x2, y2, construction=False):
        """A segment."""
        return self.sketch.addGeometry(
            Part.LineSegment(vector(x1, y1), vector(x2, y2)), construction)

    def circle(self, x, y, radius, construction=False):
        """A circle."""
        return self.sketch.addGeometry(
            Part.Circle(vector(x, y), FreeCAD.Vector(0, 0, 1), radius), construction)

    def arc(self, x, y, radius, start, end, construction=False):
        """An arc, counter-clockwise from one angle to the other, in degrees."""
        round_it = Part.Circle(vector(x, y), FreeCAD.Vector(0, 0, 1), radius)
        return self.sketch.addGeometry(
            Part.ArcOfCircle(round_it, math.radians(start), math.radians(end)), construction)

    def point(self, x, y):
        """A point."""
        return self.sketch.addGeometry(Part.Point(vector(x, y)))

    def tie(self, kind, *numbers, name="", driving=True):
        """A constraint; answers its number. Angles are in radians."""
        number = self.sketch.addConstraint(Sketcher.Constraint(kind, *numbers))
        if name:
            self.sketch.renameConstraint(number, name)
        if not driving:
            self.sketch.setDriving(number, False)
        return number

    def chain(self, *corners):
        """A closed polyline, its corners joined; answers its edges."""
        edges = [self.line(*here, *there)
                 for here, there in zip(corners, corners[1:] + corners[:1])]
        for here, there in zip(edges, edges[1:] + edges[:1]):
            self.tie("Coincident", here, END, there, START)
        return edges

    def rectangle(self, x1, y1, x2, y2):
        """The rectangle tool: bottom, right, top, left."""
        edges = self.chain((x1, y1), (x2, y1), (x2, y2), (x1, y2))
        for edge, way in zip(edges, ("Horizontal", "Vertical", "Horizontal", "Vertical")):
            self.tie(way, edge)
        return edges

    def slot(self, x1, y1, x2, y2, radius):
        """The slot tool: two arcs, two segments, tangent at their ends, arcs equal."""
        turn = math.degrees(math.atan2(y2 - y1, x2 - x1))
        away = radius * math.cos(math.radians(turn)), radius * math.sin(math.radians(turn))
        first = self.arc(x1, y1, radius, turn + 90, turn + 270)
        second = self.arc(x2, y2, radius, turn - 90, turn + 90)
        low = self.line(x1 + away[1], y1 - away[0], x2 + away[1], y2 - away[0])
        high = self.line(x1 - away[1], y1 + away[0], x2 - away[1], y2 + away[0])
        self.tie("Tangent", first, START, high, START)
        self.tie("Tangent", first, END, low, START)
        self.tie("Tangent", low, END, second, START)
        self.tie("Tangent", high, END, second, END)
        self.tie("Equal", first, second)
        return first, second, low, high


def plate(sheet):
    """A plate with two holes, dimensioned from its corner."""
    bottom, right, _, _ = sheet.rectangle(1, 2, 57, 38)
    sheet.tie("Coincident", bottom, START, *ORIGIN)
    sheet.tie("DistanceX", bottom, START, bottom, END, 60)
    sheet.tie("DistanceY", right, START, right, END, 40)
    for x in (15, 45):
        hole = sheet.circle(x + 1, 19, 4)
        sheet.tie("Radius", hole, 5)
        sheet.tie("DistanceX", *ORIGIN, hole, CENTRE, x)
        sheet.tie("DistanceY", *ORIGIN, hole, CENTRE, 20)


def plate_by_lengths(sheet):
    """A plate whose far sides carry the lengths, and whose corner is pinned."""
    bottom, right, top, left = sheet.rectangle(0, 0, 80, 50)
    sheet.tie("Coincident", bottom, START, *ORIGIN)
    sheet.tie("Distance", top, 82.5)
    sheet.tie("Distance", right, 47.25)


def plate_centred(sheet):
    """A plate about the origin with two holes on the x axis."""
    bottom, right, top, left = sheet.rectangle(-29, -21, 31, 19)
    sheet.tie("Symmetric", bottom, START, right, END, *ORIGIN)
    sheet.tie("Distance", bottom, 60)
    sheet.tie("Distance", right, 40)
    first, second = sheet.circle(-19, 1, 4), sheet.circle(21, -1, 3)
    sheet.tie("PointOnObject", first, CENTRE, X_AXIS)
    sheet.tie("Symmetric", first, CENTRE, second, CENTRE, Y_AXIS)
    sheet.tie("Equal", first, second)
    sheet.tie("Diameter", first, 8)
    sheet.tie("DistanceX", first, CENTRE, second, CENTRE, 40)


def four_holes(sheet):
    """A plate with four equal holes, mirrored about both axes."""
    bottom, right, top, left = sheet.rectangle(-50, -30, 50, 30)
    sheet.tie("Symmetric", top, START, bottom, START, *ORIGIN)
    sheet.tie("DistanceX", bottom, START, bottom, END, 100)
    sheet.tie("DistanceY", right, START, right, END, 60)
    holes = [sheet.circle(x, y, 3) for x, y in ((-40, -20), (40, -20), (40, 20), (-40, 20))]
    for other in holes[1:]:
        sheet.tie("Equal", holes[0], other)
    sheet.tie("Radius", holes[0], 3.5)
    sheet.tie("Symmetric", holes[0], CENTRE, holes[1], CENTRE, Y_AXIS)
    sheet.tie("Symmetric", holes[1], CENTRE, holes[2], CENTRE, X_AXIS)
    sheet.tie("Symmetric", holes[2], CENTRE, holes[3], CENTRE, Y_AXIS)
    sheet.tie("DistanceX", holes[0], CENTRE, holes[1], CENTRE, 80)
    sheet.tie("DistanceY", holes[1], CENTRE, holes[2], CENTRE, 40)


def hole_grid(sheet):
    """Two rows of three holes, in line by horizontal and vertical constraints of centres."""
    holes = [[sheet.circle(10 + 20 * i, 10 + 15 * j, 2) for i in range(3)] for j in range(2)]
    flat = holes[0] + holes[1]
    for other in flat[1:]:
        sheet.tie("Equal", flat[0], other)
    sheet.tie("Diameter", flat[0], 4.2)
    for row in holes:
        sheet.tie("Horizontal", row[0], CENTRE, row[1], CENTRE)
        sheet.tie("Horizontal", row[1], CENTRE, row[2], CENTRE)
    for low, high in zip(*holes):
        sheet.tie("Vertical", low, CENTRE, high, CENTRE)
    sheet.tie("DistanceX", *ORIGIN, flat[0], CENTRE, 12)
    sheet.tie("DistanceY", *ORIGIN, flat[0], CENTRE, 9)
    sheet.tie("DistanceX", flat[0], CENTRE, flat[1], CENTRE, 22)
    sheet.tie("DistanceX", flat[1], CENTRE, flat[2], CENTRE, 18)
    sheet.tie("DistanceY", flat[0], CENTRE, flat[3], CENTRE, 16)


def slot(sheet):
    """A level slot, its first centre in the origin."""
    first, second, low, high = sheet.slot(0, 0, 30, 0, 6)
    sheet.tie("Horizontal", low)
    sheet.tie("Coincident", first, CENTRE, *ORIGIN)
    sheet.tie("Radius", first, 6.5)
    sheet.tie("DistanceX", first, CENTRE, second, CENTRE, 32)


def slot_sloped(sheet):
    """A slot at 30 degrees."""
    first, second, low, high = sheet.slot(5, 5, 35, 20, 5)
    sheet.tie("Angle", low, math.radians(30))
    sheet.tie("DistanceX", *ORIGIN, first, CENTRE, 6)
    sheet.tie("DistanceY", *ORIGIN, first, CENTRE, 8)
    sheet.tie("Distance", first, CENTRE, second, CENTRE, 34)
    sheet.tie("Radius", second, 5)


def slotted_plate(sheet):
    """A plate with a level slot in its middle."""
    bottom, right, top, left = sheet.rectangle(-40, -20, 40, 20)
    sheet.tie("Symmetric", bottom, START, right, END, *ORIGIN)
    sheet.tie("DistanceX", top, END, top, START, 90)
    sheet.tie("DistanceY", left, END, left, START, 44)
    first, second, low, high = sheet.slot(-15, 0, 15, 0, 5)
    sheet.tie("Symmetric", first, CENTRE, second, CENTRE, *ORIGIN)
    sheet.tie("Horizontal", high)
    sheet.tie("Distance", low, 36)
    sheet.tie("Radius", first, 4)


def bracket(sheet):
    """An angle with a fillet in its inner corner, made by the fillet tool."""
    edges = sheet.chain((0, 0), (50, 0), (50, 10), (10, 10), (10, 60), (0, 60))
    for edge, way in zip(edges, ("Horizontal", "Vertical") * 3):
        sheet.tie(way, edge)
    sheet.tie("Coincident", edges[0], START, *ORIGIN)
    sheet.tie("DistanceX", edges[0], START, edges[0], END, 52)
    sheet.tie("DistanceY", edges[5], END, edges[5], START, 64)
    sheet.tie("Distance", edges[1], 9)
    sheet.tie("Distance", edges[4], 11)
    sheet.sketch.fillet(edges[2], END, 8.0)
    sheet.tie("Radius", edges[5] + 1, 6)


def rounded_plate(sheet):
    """A plate with four rounded corners: arcs tangent to the edges at their ends, all equal."""
    width, height, radius = 70, 45, 6
    bottom = sheet.line(radius, 0, width - radius, 0)
    right = sheet.line(width, radius, width, height - radius)
    top = sheet.line(width - radius, height, radius, height)
    left = sheet.line(0, height - radius, 0, radius)
    arcs = [sheet.arc(width - radius, radius, radius, 270, 360),
            sheet.arc(width - radius, height - radius, radius, 0, 90),
            sheet.arc(radius, height - radius, radius, 90, 180),
            sheet.arc(radius, radius, radius, 180, 270)]
    edges = [bottom, right, top, left]
    for number, arc in enumerate(arcs):
        sheet.tie("Tangent", edges[number], END, arc, START)
        sheet.tie("Tangent", arc, END, edges[(number + 1) % 4], START)
    for edge, way in zip(edges, ("Horizontal", "Vertical", "Horizontal", "Vertical")):
        sheet.tie(way, edge)
    for arc in arcs[1:]:
        sheet.tie("Equal", arcs[0], arc)
    sheet.tie("Radius", arcs[0], 7)
    sheet.tie("PointOnObject", bottom, START, X_AXIS)
    sheet.tie("PointOnObject", left, END, Y_AXIS)
    sheet.tie("Distance", bottom, START, top, 46)
    sheet.tie("Distance", left, START, right, 72)


def hexagon(sheet):
    """The polygon tool: six equal sides, corners on a construction circle; one side level."""
    corners = [(20 * math.cos(math.radians(60 * i)), 20 * math.sin(math.radians(60 * i)))
               for i in range(6)]
    edges = sheet.chain(*corners)
    round_it = sheet.circle(0, 0, 20, True)
    for other in edges[1:]:
        sheet.tie("Equal", edges[0], other)
    for edge in edges:
        sheet.tie("PointOnObject", edge, END, round_it)
    sheet.tie("Coincident", round_it, CENTRE, *ORIGIN)
    sheet.tie("Horizontal", edges[1])
    sheet.tie("Radius", round_it, 18)


def flange(sheet):
    """A flange: rim, bore, and six equal holes on a construction circle, 60 degrees apart."""
    rim, bore = sheet.circle(0, 0, 50), sheet.circle(0, 0, 15)
    pitch = sheet.circle(0, 0, 35, True)
    for ring, radius in ((rim, 52), (bore, 14), (pitch, 36)):
        sheet.tie("Coincident", ring, CENTRE, *ORIGIN)
        sheet.tie("Radius", ring, radius)
    holes, spokes = [], []
    for i in range(6):
        x, y = (35 * f(math.radians(60 * i)) for f in (math.cos, math.sin))
        holes.append(sheet.circle(x, y, 4))
        spokes.append(sheet.line(0, 0, x, y, True))
        sheet.tie("Coincident", spokes[i], START, *ORIGIN)
        sheet.tie("Coincident", spokes[i], END, holes[i], CENTRE)
        sheet.tie("PointOnObject", spokes[i], END, pitch)
    sheet.tie("PointOnObject", spokes[0], END, X_AXIS)
    for here, there in zip(spokes, spokes[1:]):
        sheet.tie("Angle", here, START, there, START, math.radians(60))
    for other in holes[1:]:
        sheet.tie("Equal", holes[0], other)
    sheet.tie("Diameter", holes[0], 9)


def flange_of_four(sheet):
    """A flange with four holes on the axes."""
    rim, bore = sheet.circle(0, 0, 40), sheet.circle(1, 1, 10)
    sheet.tie("Coincident", rim, CENTRE, *ORIGIN)
    sheet.tie("Coincident", bore, CENTRE, *ORIGIN)
    sheet.tie("Diameter", rim, 84)
    sheet.tie("Diameter", bore, 22)
    for x, y, axis, way in ((30, 0, X_AXIS, "DistanceX"), (0, 30, Y_AXIS, "DistanceY"),
                            (-30, 0, X_AXIS, "DistanceX"), (0, -30, Y_AXIS, "DistanceY")):
        hole = sheet.circle(x, y, 3)
        sheet.tie("PointOnObject", hole, CENTRE, axis)
        sheet.tie(way, *ORIGIN, hole, CENTRE, 31 if x + y > 0 else -31)
        sheet.tie("Radius", hole, 3.25)


def tee(sheet):
    """A T profile, mirrored about the y axis by its corners."""
    edges = sheet.chain((-5, 0), (5, 0), (5, 40), (25, 40), (25, 50), (-25, 50), (-25, 40),
                        (-5, 40))
    for edge in edges[1::2]:
        sheet.tie("Vertical", edge)
    sheet.tie("Horizontal", edges[2])
    sheet.tie("Horizontal", edges[6])
    sheet.tie("Symmetric", edges[0], START, edges[0], END, Y_AXIS)
    sheet.tie("Symmetric", edges[4], END, edges[4], START, Y_AXIS)
    sheet.tie("PointOnObject", edges[0], START, X_AXIS)
    sheet.tie("Distance", edges[0], 12)
    sheet.tie("Distance", edges[4], 54)
    sheet.tie("Distance", edges[1], 41)
    sheet.tie("Distance", edges[3], 10.5)
    sheet.tie("Horizontal", edges[6], START, edges[2], END)


def beam(sheet):
    """An I profile about the origin: flanges equal, web in the middle."""
    half = [(-30, -40), (30, -40), (30, -32), (4, -32), (4, 32), (30, 32), (30, 40), (-30, 40),
            (-30, 32), (-4, 32), (-4, -32), (-30, -32)]
    edges = sheet.chain(*half)
    for edge in edges[1::2]:
        sheet.tie("Vertical", edge)
    for edge in edges[2::2]:
        sheet.tie("Horizontal", edge)
    sheet.tie("Symmetric", edges[0], START, edges[0], END, Y_AXIS)
    sheet.tie("Symmetric", edges[6], START, edges[0], END, X_AXIS)
    sheet.tie("Equal", edges[1], edges[5])
    sheet.tie("Equal", edges[1], edges[7])
    sheet.tie("Equal", edges[1], edges[11])
    sheet.tie("Equal", edges[2], edges[8])
    sheet.tie("Equal", edges[2], edges[10])
    sheet.tie("DistanceX", edges[0], START, edges[0], END, 64)
    sheet.tie("DistanceY", edges[0], END, edges[6], START, 84)
    sheet.tie("Distance", edges[1], 7)
    sheet.tie("DistanceX", edges[9], END, edges[4], START, 9)


def half_moon(sheet):
    """An arc over a chord on the x axis."""
    bow = sheet.arc(0, 0, 20, 0, 180)
    chord = sheet.line(-20, 0, 20, 0)
    sheet.tie("Coincident", bow, START, chord, END)
    sheet.tie("Coincident", bow, END, chord, START)
    sheet.tie("Coincident", bow, CENTRE, *ORIGIN)
    sheet.tie("PointOnObject", chord, START, X_AXIS)
    sheet.tie("PointOnObject", chord, END, X_AXIS)
    sheet.tie("Radius", bow, 21)


def hook(sheet):
    """A shank, an arc tangent to it, and a tip tangent to the arc."""
    shank = sheet.line(20, 60, 20, 0)
    bow = sheet.arc(0, 0, 20, 180, 360)
    tip = sheet.line(-20, 0, -20, 12)
    sheet.tie("Tangent", shank, END, bow, END)
    sheet.tie("Tangent", bow, START, tip, START)
    sheet.tie("Vertical", shank)
    sheet.tie("Vertical", tip)
    sheet.tie("Coincident", bow, CENTRE, *ORIGIN)
    sheet.tie("Radius", bow, 18.5)
    sheet.tie("Distance", shank, 62)
    sheet.tie("Distance", tip, 11)


def link(sheet):
    """Two eyes of different radii, and two straight flanks tangent to both."""
    big, small = sheet.arc(0, 0, 15, 80, 280), sheet.arc(50, 0, 8, 280, 440)
    high, low = sheet.line(2, 14.8, 51, 7.9), sheet.line(2, -14.8, 51, -7.9)
    sheet.tie("Tangent", big, START, high, START)
    sheet.tie("Tangent", high, END, small, END)
    sheet.tie("Tangent", big, END, low, START)
    sheet.tie("Tangent", low, END, small, START)
    sheet.tie("Coincident", big, CENTRE, *ORIGIN)
    sheet.tie("PointOnObject", small, CENTRE, X_AXIS)
    sheet.tie("Distance", big, CENTRE, small, CENTRE, 52)
    sheet.tie("Radius", big, 16)
    sheet.tie("Radius", small, 9)
    for eye, (x, radius) in ((big, (0, 6)), (small, (50, 4))):
        hole = sheet.circle(x, 1, radius)
        sheet.tie("Coincident", hole, CENTRE, eye, CENTRE)
        sheet.tie("Radius", hole, radius)


def rollers(sheet):
    """Three circles that touch: two from outside, one within a ring."""
    ring = sheet.circle(0, 0, 40)
    sheet.tie("Coincident", ring, CENTRE, *ORIGIN)
    sheet.tie("Radius", ring, 40)
    first, second = sheet.circle(-18, 0, 20), sheet.circle(20, 0, 18)
    sheet.tie("Radius", first, 15)
    sheet.tie("Radius", second, 10)
    sheet.tie("Tangent", first, ring)
    sheet.tie("Tangent", first, second)
    sheet.tie("PointOnObject", first, CENTRE, X_AXIS)
    sheet.tie("PointOnObject", second, CENTRE, X_AXIS)


def triangle_by_sides(sheet):
    """A triangle of three lengths on the x axis."""
    base, right, left = sheet.chain((0, 0), (70, 0), (30, 40))
    sheet.tie("Coincident", base, START, *ORIGIN)
    sheet.tie("PointOnObject", base, END, X_AXIS)
    sheet.tie("Distance", base, 75)
    sheet.tie("Distance", right, 60)
    sheet.tie("Distance", left, 45)


def triangle_by_angles(sheet):
    """A triangle of a base and two angles at it."""
    base, right, left = sheet.chain((0, 0), (70, 0), (30, 40))
    sheet.tie("Coincident", base, START, *ORIGIN)
    sheet.tie("Horizontal", base)
    sheet.tie("Distance", base, 75)
    sheet.tie("Angle", base, START, left, END, math.radians(45))
    sheet.tie("Angle", right, START, base, END, math.radians(60))


def wedge(sheet):
    """A wedge of 30 degrees with a right angle."""
    base, back, face = sheet.chain((0, 0), (60, 0), (60, 35))
    sheet.tie("Coincident", base, START, *ORIGIN)
    sheet.tie("PointOnObject", base, END, X_AXIS)
    sheet.tie("Perpendicular", base, back)
    sheet.tie("Angle", base, START, face, END, math.radians(30))
    sheet.tie("DistanceX", base, START, base, END, 60)


def trapezium(sheet):
    """A trapezium: level base and top, one flank by its angle to the x axis, one by its length."""
    base, right, top, left = sheet.chain((0, 0), (80, 0), (60, 30), (15, 30))
    sheet.tie("Coincident", base, START, *ORIGIN)
    sheet.tie("Horizontal", base)
    sheet.tie("Parallel", base, top)
    sheet.tie("Distance", base, 84)
    sheet.tie("Distance", top, START, base, 32)
    sheet.tie("Angle", right, math.radians(120))
    sheet.tie("Distance", left, 36)


def chamfered_plate(sheet):
    """A plate with two corners cut at 45 degrees."""
    edges = sheet.chain((0, 0), (60, 0), (60, 30), (50, 40), (10, 40), (0, 30))
    bottom, right, cut, top, other, left = edges
    for edge in (bottom, top):
        sheet.tie("Horizontal", edge)
    for edge in (right, left):
        sheet.tie("Vertical", edge)
    sheet.tie("Coincident", bottom, START, *ORIGIN)
    sheet.tie("DistanceX", bottom, START, bottom, END, 64)
    sheet.tie("DistanceY", bottom, START, top, END, 42)
    sheet.tie("Angle", cut, math.radians(135))
    sheet.tie("Angle", left, START, other, END, math.radians(135))
    sheet.tie("DistanceX", cut, END, cut, START, 8)
    sheet.tie("DistanceX", other, END, other, START, 12)


def keyhole(sheet):
    """A keyhole: a round head and a straight foot."""
    head = sheet.arc(0, 0, 10, -60, 240)
    left, foot, right = (sheet.line(-5, -9, -5, -30), sheet.line(-5, -30, 5, -30),
                         sheet.line(5, -30, 5, -9))
    sheet.tie("Coincident", head, END, left, START)
    sheet.tie("Coincident", left, END, foot, START)
    sheet.tie("Coincident", foot, END, right, START)
    sheet.tie("Coincident", right, END, head, START)
    sheet.tie("Coincident", head, CENTRE, *ORIGIN)
    sheet.tie("Vertical", left)
    sheet.tie("Vertical", right)
    sheet.tie("Symmetric", foot, START, foot, END, Y_AXIS)
    sheet.tie("Radius", head, 11)
    sheet.tie("Distance", foot, 10)
    sheet.tie("DistanceY", foot, START, head, CENTRE, 32)


def shaft(sheet):
    """Half of a turned shaft, on the x axis, three steps."""
    edges = sheet.chain((0, 0), (90, 0), (90, 8), (60, 8), (60, 15), (30, 15), (30, 10), (0, 10))
    for edge, way in zip(edges, ("Horizontal", "Vertical") * 4):
        sheet.tie(way, edge)
    sheet.tie("Coincident", edges[0], START, *ORIGIN)
    sheet.tie("DistanceX", *ORIGIN, edges[0], END, 95)
    sheet.tie("DistanceX", *ORIGIN, edges[3], END, 62.5)
    sheet.tie("DistanceX", edges[4], END, edges[4], START, 31.75)
    sheet.tie("DistanceY", *ORIGIN, edges[2], START, 7.5)
    sheet.tie("DistanceY", *ORIGIN, edges[4], START, 16)
    sheet.tie("DistanceY", *ORIGIN, edges[6], START, 9.525)


def gusset(sheet):
    """A right triangle whose corners are rounded by the fillet tool."""
    base, slope, back = sheet.chain((0, 0), (60, 0), (0, 45))
    sheet.tie("Coincident", base, START, *ORIGIN)
    sheet.tie("Horizontal", base)
    sheet.tie("Vertical", back)
    sheet.sketch.fillet(base, END, 5.0)
    sheet.sketch.fillet(slope, END, 5.0)
    first, second = back + 1, back + 2
    sheet.tie("Equal", first, second)
    sheet.tie("Radius", first, 4)
    sheet.tie("Distance", base, 50)
    sheet.tie("Distance", back, 38)


def vee_block(sheet):
    """A block with a V groove of 90 degrees in its top."""
    edges = sheet.chain((-30, 0), (30, 0), (30, 40), (15, 40), (0, 25), (-15, 40), (-30, 40))
    bottom, right, shoulder, fall, rise, other, left = edges
    for edge in (bottom, shoulder, other):
        sheet.tie("Horizontal", edge)
    for edge in (right, left):
        sheet.tie("Vertical", edge)
    sheet.tie("Symmetric", bottom, START, bottom, END, *ORIGIN)
    sheet.tie("Perpendicular", fall, rise)
    sheet.tie("Equal", fall, rise)
    sheet.tie("Equal", shoulder, other)
    sheet.tie("PointOnObject", fall, END, Y_AXIS)
    sheet.tie("Distance", bottom, 66)
    sheet.tie("Distance", right, 42)
    sheet.tie("Distance", shoulder, 14)


def parallelogram(sheet):
    """Opposite sides parallel, two lengths and an angle."""
    base, right, top, left = sheet.chain((0, 0), (50, 0), (65, 30), (15, 30))
    sheet.tie("Coincident", base, START, *ORIGIN)
    sheet.tie("PointOnObject", base, END, X_AXIS)
    sheet.tie("Parallel", base, top)
    sheet.tie("Parallel", right, left)
    sheet.tie("Distance", base, 52)
    sheet.tie("Distance", right, 33)
    sheet.tie("Angle", base, START, left, END, math.radians(60))


def rhombus(sheet):
    """Four equal sides about the origin, its corners on the axes."""
    edges = sheet.chain((30, 0), (0, 20), (-30, 0), (0, -20))
    sheet.tie("Equal", edges[0], edges[1])
    sheet.tie("Equal", edges[1], edges[2])
    for edge, axis in zip(edges, (X_AXIS, Y_AXIS, X_AXIS, Y_AXIS)):
        sheet.tie("PointOnObject", edge, START, axis)
    sheet.tie("DistanceX", edges[2], START, edges[0], START, 64)
    sheet.tie("DistanceY", edges[3], START, edges[1], START, 40)


def named(sheet):
    """A plate with named dimensions, one an expression of another."""
    bottom, right, top, left = sheet.rectangle(0, 0, 50, 30)
    sheet.tie("Coincident", bottom, START, *ORIGIN)
    sheet.tie("DistanceX", bottom, START, bottom, END, 48, name="width")
    sheet.tie("DistanceY", right, START, right, END, 30, name="height")
    hole = sheet.circle(20, 10, 5)
    sheet.tie("DistanceX", *ORIGIN, hole, CENTRE, 20, name="hole x")
    sheet.tie("DistanceY", *ORIGIN, hole, CENTRE, 10, name="hole_y")
    sheet.tie("Diameter", hole, 10, name="Bohrungsgröße")
    sheet.sketch.setExpression("Constraints.height", "Constraints.width * 3 / 8")


def reference(sheet):
    """A plate with two reference dimensions beside those that drive it."""
    bottom, right, top, left = sheet.rectangle(0, 0, 50, 30)
    sheet.tie("Coincident", bottom, START, *ORIGIN)
    sheet.tie("DistanceX", bottom, START, bottom, END, 54)
    sheet.tie("DistanceY", right, START, right, END, 28)
    sheet.tie("Distance", bottom, START, right, END, 60, driving=False, name="diagonal")
    sheet.tie("DistanceX", top, END, top, START, 54, driving=False)


def inches(sheet):
    """A plate dimensioned in inches by expressions."""
    bottom, right, top, left = sheet.rectangle(0, 0, 50, 30)
    sheet.tie("Coincident", bottom, START, *ORIGIN)
    sheet.tie("DistanceX", bottom, START, bottom, END, 50)
    sheet.sketch.setExpression("Constraints[%d]" % (sheet.sketch.ConstraintCount - 1), "2.5 in")
    sheet.tie("DistanceY", right, START, right, END, 30)
    sheet.sketch.setExpression("Constraints[%d]" % (sheet.sketch.ConstraintCount - 1), "1.125 in")


def blocked(sheet):
    """A base line held by a block constraint, and a triangle over it."""
    base, right, left = sheet.chain((5, 5), (65, 5), (30, 45))
    sheet.tie("Block", base)
    sheet.tie("Distance", right, 58)
    sheet.tie("Distance", left, 44)


def middles(sheet):
    """A plate with points in the middle of its sides, and a rhombus through them."""
    bottom, right, top, left = sheet.rectangle(0, 0, 60, 40)
    sheet.tie("Coincident", bottom, START, *ORIGIN)
    sheet.tie("DistanceX", bottom, START, bottom, END, 62)
    sheet.tie("DistanceY", right, START, right, END, 41)
    inner = sheet.chain((30, 0), (60, 20), (30, 40), (0, 20))
    for edge, side in zip(inner, (bottom, right, top, left)):
        sheet.tie("Symmetric", side, START, side, END, edge, START)


def washer(sheet):
    """Two circles round one centre that lies in the third quadrant, with a point on the rim."""
    rim, bore = sheet.circle(-20, -15, 12), sheet.circle(-19, -15, 6)
    mark = sheet.point(-8, -14)
    sheet.tie("Coincident", rim, CENTRE, bore, CENTRE)
    sheet.tie("DistanceX", rim, CENTRE, -1, START, 22)
    sheet.tie("DistanceY", rim, CENTRE, -1, START, 16)
    sheet.tie("Diameter", rim, 25)
    sheet.tie("Diameter", bore, 13)
    sheet.tie("PointOnObject", mark, START, rim)
    sheet.tie("Horizontal", mark, START, rim, CENTRE)


def star(sheet):
    """Two segments from a corner with an angle between them, and a bisecting third."""
    first, second, third = (sheet.line(0, 0, 40, 5), sheet.line(0, 0, 10, 40),
                            sheet.line(0, 0, 25, 25))
    for ray in (first, second, third):
        sheet.tie("Coincident", ray, START, *ORIGIN)
    sheet.tie("Angle", first, math.radians(10))
    sheet.tie("Angle", first, START, second, START, math.radians(70))
    sheet.tie("Angle", first, START, third, START, math.radians(35))
    for ray, length in ((first, 42), (second, 43), (third, 36)):
        sheet.tie("Distance", ray, length)


def cam(sheet):
    """An egg: two arcs on the y axis and two flanks of arcs, all tangent at their ends."""
    base = sheet.arc(0, 0, 20, 180, 360)
    nose = sheet.arc(0, 25, 8, 40, 140)
    right = sheet.arc(-30, 0, 50, 0, 38)
    left = sheet.arc(30, 0, 50, 142, 180)
    sheet.tie("Tangent", base, END, right, START)
    sheet.tie("Tangent", right, END, nose, START)
    sheet.tie("Tangent", nose, END, left, START)
    sheet.tie("Tangent", left, END, base, START)
    sheet.tie("Coincident", base, CENTRE, *ORIGIN)
    sheet.tie("PointOnObject", nose, CENTRE, Y_AXIS)
    sheet.tie("PointOnObject", right, START, X_AXIS)
    sheet.tie("PointOnObject", left, END, X_AXIS)
    sheet.tie("Radius", base, 20)
    sheet.tie("Radius", nose, 7)
    sheet.tie("DistanceY", *ORIGIN, nose, CENTRE, 27)


def plate_without_height(sheet):
    """A plate that lacks its height: one degree of freedom is left."""
    bottom, right, top, left = sheet.rectangle(0, 0, 60, 40)
    sheet.tie("Coincident", bottom, START, *ORIGIN)
    sheet.tie("DistanceX", bottom, START, bottom, END, 60)


def plate_with_loose_hole(sheet):
    """A plate whose hole has one distance alone."""
    bottom, right, top, left = sheet.rectangle(0, 0, 60, 40)
    sheet.tie("Coincident", bottom, START, *ORIGIN)
    sheet.tie("DistanceX", bottom, START, bottom, END, 60)
    sheet.tie("DistanceY", right, START, right, END, 40)
    hole = sheet.circle(20, 15, 5)
    sheet.tie("Radius", hole, 5)
    sheet.tie("DistanceX", left, START, hole, CENTRE, 20)


def hinge(sheet):
    """Two rigid leaves about one pin."""
    wall = sheet.chain((0, 0), (40, 0), (20, 20))
    door = sheet.chain((0, 0), (-30, 10), (-20, -20))
    sheet.tie("Coincident", wall[0], START, *ORIGIN)
    sheet.tie("Coincident", door[0], START, *ORIGIN)
    sheet.tie("PointOnObject", wall[0], END, X_AXIS)
    for edge, length in zip(wall, (42, 30, 29)):
        sheet.tie("Distance", edge, length)
    for edge, length in zip(door, (33, 31, 28)):
        sheet.tie("Distance", edge, length)


def free_plate(sheet):
    """A plate with all its sizes that isn't tied to the origin."""
    bottom, right, top, left = sheet.rectangle(7, 9, 60, 40)
    sheet.tie("Distance", bottom, 50)
    sheet.tie("Distance", right, 30)


def twice(sheet):
    """A plate with one width too many, which agrees: redundant."""
    bottom, right, top, left = sheet.rectangle(0, 0, 60, 40)
    sheet.tie("Coincident", bottom, START, *ORIGIN)
    sheet.tie("DistanceX", bottom, START, bottom, END, 60, name="below")
    sheet.tie("DistanceX", top, END, top, START, 60, name="above")
    sheet.tie("DistanceY", right, START, right, END, 40)


def contradiction(sheet):
    """A plate with two widths that differ: conflicting."""
    bottom, right, top, left = sheet.rectangle(0, 0, 60, 40)
    sheet.tie("Coincident", bottom, START, *ORIGIN)
    sheet.tie("DistanceX", bottom, START, bottom, END, 60, name="below")
    sheet.tie("DistanceY", right, START, right, END, 40)
    sheet.tie("DistanceX", top, END, top, START, 55, name="above")


def ellipse(sheet):
    """A plate with an ellipse in it, which the language doesn't have."""
    bottom, right, top, left = sheet.rectangle(0, 0, 60, 40)
    sheet.tie("Coincident", bottom, START, *ORIGIN)
    sheet.tie("DistanceX", bottom, START, bottom, END, 60)
    sheet.tie("DistanceY", right, START, right, END, 40)
    oval = sheet.sketch.addGeometry(Part.Ellipse(vector(42, 20), vector(30, 26), vector(30, 20)))
    sheet.sketch.exposeInternalGeometry(oval)
    sheet.tie("DistanceX", *ORIGIN, oval, CENTRE, 30)


def spline(sheet):
    """A segment, and a spline beside it."""
    edge = sheet.line(0, 0, 30, 0)
    sheet.tie("Coincident", edge, START, *ORIGIN)
    sheet.tie("PointOnObject", edge, END, X_AXIS)
    sheet.tie("Distance", edge, 32)
    curve = Part.BSplineCurve()
    curve.buildFromPoles([vector(0, 10), vector(10, 20), vector(20, 10), vector(30, 20)])
    sheet.sketch.addGeometry(curve)


def inactive(sheet):
    """A plate with a constraint that its user switched off."""
    bottom, right, top, left = sheet.rectangle(0, 0, 60, 40)
    sheet.tie("Coincident", bottom, START, *ORIGIN)
    sheet.tie("DistanceX", bottom, START, bottom, END, 60)
    sheet.tie("DistanceY", right, START, right, END, 40)
    off = sheet.tie("DistanceX", top, END, top, START, 58)
    sheet.sketch.setActive(off, False)


def perpendicular_ends(sheet):
    """An arc that ends at a right angle on a segment, and a segment across at its end."""
    base = sheet.line(0, 0, 50, 0)
    bow = sheet.arc(50, 20, 20, 180, 270)
    rise = sheet.line(50, 0, 50, 30)
    sheet.tie("Coincident", base, START, *ORIGIN)
    sheet.tie("Horizontal", base)
    sheet.tie("Distance", base, 52)
    sheet.tie("Perpendicular", base, END, rise, START)
    sheet.tie("Distance", rise, 31)
    sheet.tie("Coincident", bow, CENTRE, rise, END)
    sheet.tie("Radius", bow, 12)
    sheet.tie("PointOnObject", bow, END, rise)
    sheet.tie("Horizontal", bow, START, bow, CENTRE)


def symmetric_kite(sheet):
    """A kite, mirrored about a construction line through two of its corners."""
    right, high, left, low = sheet.chain((0, 0), (20, 30), (0, 45), (-20, 30))
    spine = sheet.line(0, 0, 0, 45, True)
    sheet.tie("Coincident", spine, START, right, START)
    sheet.tie("Coincident", spine, END, left, START)
    sheet.tie("Symmetric", right, END, left, END, spine)
    sheet.tie("Coincident", right, START, *ORIGIN)
    sheet.tie("Vertical", spine)
    sheet.tie("Distance", spine, 48)
    sheet.tie("Distance", right, 37)
    sheet.tie("Distance", high, 26)


def tangent_forms(sheet):
    """Tangency in the forms that the tool has: at an end on a curve, through a point, of lines."""
    ring = sheet.circle(0, 0, 20)
    sheet.tie("Coincident", ring, CENTRE, *ORIGIN)
    sheet.tie("Radius", ring, 20)
    tail = sheet.line(12, 16, -20, 40)
    sheet.tie("Tangent", tail, START, ring)
    sheet.tie("DistanceX", *ORIGIN, tail, START, 12)
    sheet.tie("Distance", tail, 41)
    bow, other = sheet.circle(32, 0, 12), sheet.point(20, 0)
    sheet.tie("PointOnObject", other, START, ring)
    sheet.tie("PointOnObject", other, START, bow)
    sheet.tie("TangentViaPoint", ring, bow, other, START)
    sheet.tie("PointOnObject", bow, CENTRE, X_AXIS)
    sheet.tie("Radius", bow, 13)
    first, second = sheet.line(-40, -30, -20, -31), sheet.line(-10, -30, 10, -30)
    sheet.tie("Tangent", first, second)
    sheet.tie("Horizontal", first)
    sheet.tie("DistanceY", *ORIGIN, second, START, -31)
    for end, x in (((first, START), -42), ((first, END), -22), ((second, START), -11),
                   ((second, END), 11)):
        sheet.tie("DistanceX", *ORIGIN, *end, x)
    third = sheet.line(11, -30, 30, -32)
    sheet.tie("Tangent", second, END, third, START)
    sheet.tie("Distance", third, 20)


def perpendicular_forms(sheet):
    """Right angles in the forms that the tool has: lines, at ends, on a curve, with a circle."""
    ring = sheet.circle(0, 0, 20)
    sheet.tie("Coincident", ring, CENTRE, *ORIGIN)
    sheet.tie("Radius", ring, 20)
    spoke = sheet.line(12, 16, 30, 40)
    sheet.tie("Perpendicular", spoke, START, ring)
    sheet.tie("DistanceX", *ORIGIN, spoke, START, 12)
    sheet.tie("Distance", spoke, 33)
    through = sheet.line(-30, 5, 40, -7)
    sheet.tie("Perpendicular", through, ring)
    sheet.tie("DistanceX", *ORIGIN, through, START, -32)
    sheet.tie("DistanceY", *ORIGIN, through, START, 8)
    sheet.tie("Distance", through, 70)
    cap = sheet.line(-32, 8, -30, 20)
    sheet.tie("Perpendicular", through, START, cap, START)
    sheet.tie("Distance", cap, 12)
    bow = sheet.arc(60, 30, 15, 180, 270)
    floor = sheet.line(60, 15, 60, 50)
    sheet.tie("Perpendicular", bow, END, floor, START)
    sheet.tie("Vertical", floor)
    sheet.tie("Distance", floor, 36)
    sheet.tie("DistanceX", *ORIGIN, bow, CENTRE, 61)
    sheet.tie("DistanceY", *ORIGIN, bow, CENTRE, 31)
    sheet.tie("Radius", bow, 14)
    sheet.tie("Horizontal", bow, START, bow, CENTRE)


def angle_forms(sheet):
    """Angles in the forms that the tool has, to both sides, from starts and from ends."""
    rays = [sheet.line(0, 0, x, y) for x, y in ((40, 0), (30, 25), (-20, 30), (-35, -10), (5, -40))]
    for ray in rays:
        sheet.tie("Coincident", ray, START, *ORIGIN)
        sheet.tie("Distance", ray, 38)
    sheet.tie("Angle", rays[0], math.radians(-5))
    sheet.tie("Angle", rays[0], rays[1], math.radians(41))
    sheet.tie("Angle", rays[2], START, rays[1], START, math.radians(-80))
    sheet.tie("Angle", X_AXIS, rays[3], math.radians(-165))
    sheet.tie("Angle", rays[4], START, rays[3], START, math.radians(-87.5))
    tail = sheet.line(60, 10, 36, 20)
    sheet.tie("Coincident", tail, END, rays[1], END)
    sheet.tie("Distance", tail, 20)
    sheet.tie("Angle", tail, END, rays[1], END, math.radians(-120))
    back = sheet.line(60, -30, 37, -4)
    sheet.tie("Coincident", back, END, rays[0], END)
    sheet.tie("Distance", back, 21)
    sheet.tie("Angle", rays[0], START, back, END, math.radians(-60))


def distance_forms(sheet):
    """Distances in the forms that the tool has: of a line alone, backwards, to the left, of 0."""
    first = sheet.line(30, 20, 5, 8)
    sheet.tie("DistanceX", first, -26)
    sheet.tie("DistanceY", first, -13)
    sheet.tie("DistanceX", first, START, 31)
    sheet.tie("DistanceY", first, START, 22)
    second = sheet.line(-20, 10, -21, 35)
    sheet.tie("DistanceX", second, 0)
    sheet.tie("DistanceX", second, START, first, END, 25)
    sheet.tie("DistanceY", first, END, second, START, 2)
    sheet.tie("Distance", second, END, X_AXIS, 36)
    mark = sheet.point(-10, 20)
    sheet.tie("Distance", mark, START, second, 9)
    sheet.tie("Distance", mark, START, *ORIGIN, 22)


DRAWINGS = (
    plate, plate_by_lengths, plate_centred, four_holes, hole_grid, slot, slot_sloped,
    slotted_plate, bracket, rounded_plate, hexagon, flange, flange_of_four, tee, beam, half_moon,
    hook, link, rollers, triangle_by_sides, triangle_by_angles, wedge, trapezium, chamfered_plate,
    keyhole, shaft, gusset, vee_block, parallelogram, rhombus, named, reference, inches, blocked,
    middles, washer, star, cam, plate_without_height, plate_with_loose_hole, hinge, free_plate,
    twice, contradiction, ellipse, spline, inactive, perpendicular_ends, symmetric_kite, tangent_forms,
    perpendicular_forms, angle_forms, distance_forms)


def facts(name, sketch):
    """The line of one sketch: what FreeCAD says of it."""
    code = sketch.solve()
    fully = "yes" if sketch.FullyConstrained else "no"
    return "%s %s solve %d fully %s" % (name, sketch.Name, code, fully)


def save(name, document):
    """Saves a document without backup files and closes it; answers the facts of its sketches."""
    document.recompute()
    lines = [facts(name, found) for found in document.Objects
             if found.TypeId == "Sketcher::SketchObject"]
    path = os.path.join(HERE, name + ".FCStd")
    if os.path.exists(path):
        os.remove(path)
    document.saveAs(path)
    FreeCAD.closeDocument(document.Name)
    return lines


def one(draw):
    """The document of one drawing."""
    document = FreeCAD.newDocument(draw.__name__)
    draw(Sheet(document))
    return save(draw.__name__.replace("_", "-"), document)


def outer():
    """A second sketch that refers to an edge and a circle of the first as external geometry."""
    document = FreeCAD.newDocument("outer")
    plate(Sheet(document, "Base"))
    document.recompute()
    over = Sheet(document, "Over")
    over.sketch.addExternal("Base", "Edge2")
    over.sketch.addExternal("Base", "Edge5")
    edge = over.line(20, 10, 55, 12)
    over.tie("PointOnObject", edge, END, -3)
    over.tie("Coincident", edge, START, -4, CENTRE)
    over.tie("Horizontal", edge)
    return save("outer", document)


def body():
    """A part-design body: two sketches, one padded, one on the pad's face with its edge."""
    document = FreeCAD.newDocument("body")
    whole = document.addObject("PartDesign::Body", "Body")
    base = Sheet(document, "Sketch")
    plate_by_lengths(base)
    whole.addObject(base.sketch)
    pad = whole.newObject("PartDesign::Pad", "Pad")
    pad.Profile = base.sketch
    pad.Length = 10
    document.recompute()
    over = Sheet(document, "Sketch001")
    whole.addObject(over.sketch)
    over.sketch.MapMode = "FlatFace"
    over.sketch.Support = (pad, ["Face6"])
    document.recompute()
    over.sketch.addExternal("Pad", "Edge3")
    hole = over.circle(20, 20, 5)
    over.tie("Radius", hole, 6)
    over.tie("DistanceX", *ORIGIN, hole, CENTRE, 22)
    over.tie("DistanceY", *ORIGIN, hole, CENTRE, 23)
    return save("body", document)


def solid():
    """A sketch on a tilted plane that refers to the edges and corners of a moved solid: a block
    with a hole and a round corner. freecad.outer has where FreeCAD sees their points."""
    document = FreeCAD.newDocument("solid")
    block = document.addObject("Part::Box", "Block")
    block.Length, block.Width, block.Height = 40, 30, 20
    drill = document.addObject("Part::Cylinder", "Drill")
    drill.Radius, drill.Height = 6, 50
    drill.Placement.Base = FreeCAD.Vector(15, 12, -5)
    cut = document.addObject("Part::Cut", "Cut")
    cut.Base, cut.Tool = block, drill
    document.recompute()
    soft = document.addObject("Part::Fillet", "Soft")
    soft.Base = cut
    upright = [count for count, edge in enumerate(cut.Shape.Edges, 1)
               if abs(edge.tangentAt(edge.FirstParameter).z) > 0.9 and edge.Length < 21]
    soft.Edges = [(upright[0], 5.0, 5.0)]
    turn = FreeCAD.Rotation(FreeCAD.Vector(1, 2, 3), 40)
    soft.Placement = FreeCAD.Placement(FreeCAD.Vector(3, -4, 7), turn)
    document.recompute()
    over = Sheet(document, "Over")
    over.sketch.Placement = FreeCAD.Placement(FreeCAD.Vector(1, 2, 30), turn)
    see("solid", over.sketch, soft)
    return save("solid", document)


def many_faces():
    """A sketch on a tilted plane that refers to the edges and corners of two solids: a star of
    twelve corners that was turned and then raised, so that it has fourteen faces, and a block with
    a notch by another block, both moved. freecad.outer has where FreeCAD sees their points."""
    document = FreeCAD.newDocument("many_faces")
    star = Sheet(document, "Star")
    corners = [(round(30 + (20 + 6 * (count % 2)) * math.cos(count * math.pi / 6), 1),
                round(30 + (20 + 6 * (count % 2)) * math.sin(count * math.pi / 6), 1))
               for count in range(12)]
    for edge, (x, y) in zip(star.chain(*corners), corners):
        star.tie("DistanceX", *ORIGIN, edge, START, x)
        star.tie("DistanceY", *ORIGIN, edge, START, y)
    star.sketch.Placement = FreeCAD.Placement(
        FreeCAD.Vector(3, 4, 5), FreeCAD.Rotation(FreeCAD.Vector(1, 1, 1), 50))
    raised = document.addObject("Part::Extrusion", "Raised")
    raised.Base, raised.Dir, raised.Solid = star.sketch, FreeCAD.Vector(0, 0, 10), True
    block, notch = (document.addObject("Part::Box", name) for name in ("Block", "Notch"))
    block.Length, block.Width, block.Height = 40, 30, 20
    block.Placement = FreeCAD.Placement(
        FreeCAD.Vector(1, 2, 3), FreeCAD.Rotation(FreeCAD.Vector(1, 2, 3), 33))
    notch.Length, notch.Width, notch.Height = 12, 9, 50
    notch.Placement = FreeCAD.Placement(
        FreeCAD.Vector(12, 11, -5), FreeCAD.Rotation(FreeCAD.Vector(1, 0, 1), 13))
    cut = document.addObject("Part::Cut", "Cut")
    cut.Base, cut.Tool = block, notch
    document.recompute()
    over = Sheet(document, "Over")
    over.sketch.Placement = FreeCAD.Placement(
        FreeCAD.Vector(5, 6, 40), FreeCAD.Rotation(FreeCAD.Vector(3, 1, 2), 25))
    see("many-faces", over.sketch, raised, cut)
    return save("many-faces", document)


def see(name, over, *solids):
    """Has a sketch refer to all edges and corners of some solids, and notes where FreeCAD sees
    their points."""
    for solid in solids:
        for word, parts in (("Edge", solid.Shape.Edges), ("Vertex", solid.Shape.Vertexes)):
            for count in range(1, len(parts) + 1):
                over.addExternal(solid.Name, "%s%d" % (word, count))
    over.Document.recompute()
    for count in range(sum(len(parts) for _, parts in over.ExternalGeometry)):
        for position in (START, END, CENTRE):
            try:
                at = over.getPoint(-3 - count, position)
            except ValueError:
                continue
            SEEN.append("%s Over %d %d %.9f %.9f" % (name, count + 1, position, at.x, at.y))


def empty():
    """A document without a sketch."""
    document = FreeCAD.newDocument("empty")
    return save("empty", document)


def main():
    """Writes everything."""
    lines = [line for draw in DRAWINGS for line in one(draw)]
    lines += outer() + body() + solid() + many_faces() + empty()
    for name, told in (("freecad.facts", lines), ("freecad.outer", SEEN)):
        with open(os.path.join(HERE, name), "w", encoding="utf-8") as out:
            out.write("\n".join(told) + "\n")


main()
