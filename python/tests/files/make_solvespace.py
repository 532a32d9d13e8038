"""Draws the SolveSpace files of this directory and has SolveSpace itself solve and save them.

    python3 python/tests/files/make_solvespace.py

Each drawing is written as SolveSpace's own text, as its user would have drawn it, roughly, and
`solvespace-cli regenerate` then solves it, completes the text, and saves it as NAME.slvs.
"""

import math
import os
import subprocess

HERE = os.environ.get("FILES", os.path.dirname(os.path.abspath(__file__)))
MAGIC = b"\xb1\xb2\xb3SolveSpaceREVa\n\n\n"
PLANE, ORIGIN, YZ_PLANE, ZX_PLANE = 0x80020000, 0x00010001, 0x00020000, 0x00030000
LINE, CIRCLE, ARC, POINT, CUBIC = 200, 400, 500, 101, 300

GROUPS = """Group.h.v=00000001
Group.type=5000
Group.name=#references
Group.color=ff000000
Group.visible=1
Group.remap={
}
AddGroup

Group.h.v=00000002
Group.type=5001
Group.order=1
Group.name=sketch-in-plane
Group.activeWorkplane.v=80020000
Group.color=ff000000
Group.subtype=6000
Group.predef.q.w=1.00000000000000000000
Group.predef.origin.v=00010001
Group.visible=1
Group.remap={
}
AddGroup

"""


class Sheet:
    """One sketch in the xy plane."""

    def __init__(self):
        self.params, self.requests, self.constraints = [], [], []
        self.next_request, self.next_constraint = 4, 1
        turned = {1: (1, 0, 0, 0), 2: (.5, .5, .5, .5), 3: (.5, -.5, -.5, -.5)}
        for number, quaternion in turned.items():
            self._request(number, 100, False)
            self._numbers(number, 16, (0, 0, 0))
            self._numbers(number, 32, quaternion)

    def line(self, x1, y1, x2, y2, construction=False):
        """A segment; its ends are `start` and `end` of the number."""
        return self._drawn(LINE, ((16, (x1, y1)), (19, (x2, y2))), construction)

    def circle(self, x, y, radius, construction=False):
        """A circle; its centre is `centre` of the number."""
        return self._drawn(CIRCLE, ((16, (x, y)), (64, (radius,))), construction)

    def arc(self, x, y, radius, start, end):
        """An arc, counter-clockwise, its angles in degrees."""
        ends = [(x + radius * math.cos(math.radians(a)), y + radius * math.sin(math.radians(a)))
                for a in (start, end)]
        return self._drawn(ARC, ((16, (x, y)), (19, ends[0]), (22, ends[1])), False)

    def point(self, x, y):
        """A point."""
        return self._drawn(POINT, ((16, (x, y)),), False)

    def curve(self, *places):
        """A Bezier curve of four places."""
        return self._drawn(CUBIC, tuple((16 + 3 * i, p) for i, p in enumerate(places)), False)

    def tie(self, kind, value=None, a=None, b=None, ea=None, eb=None, other=0, other2=0,
            reference=0):
        """A constraint by SolveSpace's number of its kind."""
        lines = ["Constraint.h.v=%08x" % self.next_constraint, "Constraint.type=%d" % kind,
                 "Constraint.group.v=00000002", "Constraint.workplane.v=%08x" % PLANE]
        if value is not None:
            lines.append("Constraint.valA=%.20f" % value)
        for word, handle in (("ptA", a), ("ptB", b), ("entityA", ea), ("entityB", eb)):
            if handle is not None:
                lines.append("Constraint.%s.v=%08x" % (word, handle))
        lines += ["Constraint.other=%d" % other, "Constraint.other2=%d" % other2,
                  "Constraint.reference=%d" % reference, "AddConstraint", "", ""]
        self.constraints.append("\n".join(lines))
        self.next_constraint += 1

    def chain(self, *corners):
        """A closed polyline."""
        edges = [self.line(*here, *there)
                 for here, there in zip(corners, corners[1:] + corners[:1])]
        for here, there in zip(edges, edges[1:] + edges[:1]):
            self.tie(20, a=end(here), b=start(there))
        return edges

    def rectangle(self, x1, y1, x2, y2):
        """The rectangle tool."""
        edges = self.chain((x1, y1), (x2, y1), (x2, y2), (x1, y2))
        for edge, kind in zip(edges, (80, 81, 80, 81)):
            self.tie(kind, ea=edge)
        return edges

    def text(self):
        """The sketch in SolveSpace's text."""
        return MAGIC + "".join([GROUPS, *self.params, *self.requests,
                                *self.constraints]).encode("utf-8")

    def _drawn(self, kind, numbers, construction):
        number = self.next_request
        self.next_request += 1
        self._request(number, kind, construction)
        for first, values in numbers:
            self._numbers(number, first, values)
        return number << 16

    def _request(self, number, kind, construction):
        plane = "" if kind == 100 else "Request.workplane.v=%08x\n" % PLANE
        self.requests.append(
            "Request.h.v=%08x\nRequest.type=%d\n%sRequest.group.v=%08x\nRequest.construction=%d\n"
            "AddRequest\n\n" % (number, kind, plane, 1 if kind == 100 else 2, construction))

    def _numbers(self, number, first, values):
        for place, value in enumerate(values, first):
            self.params.append("Param.h.v.=%08x\nParam.val=%.20f\nAddParam\n\n"
                               % (number << 16 | place, value))


def start(segment):
    """The start of a segment, or the centre of a circle or an arc."""
    return segment + 1


def end(segment):
    """The end of a segment, or the start of an arc."""
    return segment + 2


def arc_end(arc):
    """The end of an arc."""
    return arc + 3


centre, arc_start = start, end


def plate(sheet):
    """A plate with two holes, dimensioned from its corner in the origin."""
    bottom, right, top, left = sheet.rectangle(1, 2, 57, 38)
    sheet.tie(20, a=start(bottom), b=ORIGIN)
    sheet.tie(30, 60, a=start(bottom), b=end(bottom))
    sheet.tie(30, 40, a=start(right), b=end(right))
    holes = sheet.circle(16, 19, 5), sheet.circle(46, 18, 4)
    for hole, x in zip(holes, (15, 45)):
        sheet.tie(32, -x, a=centre(hole), ea=left)
        sheet.tie(32, -20, a=centre(hole), ea=bottom)
    sheet.tie(90, 10, ea=holes[0])
    sheet.tie(130, ea=holes[0], eb=holes[1])


def slot(sheet):
    """A level slot: two arcs and two segments, tangent at their ends."""
    first, second = sheet.arc(0, 0, 6, 90, 270), sheet.arc(30, 0, 6, -90, 90)
    low, high = sheet.line(0, -6, 30, -6), sheet.line(0, 6, 30, 6)
    sheet.tie(20, a=arc_end(first), b=start(low))
    sheet.tie(20, a=arc_start(first), b=start(high))
    sheet.tie(20, a=arc_start(second), b=end(low))
    sheet.tie(20, a=arc_end(second), b=end(high))
    sheet.tie(123, ea=first, eb=low, other=1)
    sheet.tie(123, ea=first, eb=high, other=0)
    sheet.tie(123, ea=second, eb=low, other=0)
    sheet.tie(123, ea=second, eb=high, other=1)
    sheet.tie(20, a=centre(first), b=ORIGIN)
    sheet.tie(80, ea=low)
    sheet.tie(130, ea=first, eb=second)
    sheet.tie(90, 13, ea=first)
    sheet.tie(30, 32, a=centre(first), b=centre(second))


def triangle(sheet):
    """A triangle of three lengths, its base level from the origin."""
    base, right, left = sheet.chain((0, 0), (70, 0), (30, 40))
    sheet.tie(20, a=start(base), b=ORIGIN)
    sheet.tie(80, a=start(base), b=end(base))
    for edge, length in ((base, 75), (right, 60), (left, 45)):
        sheet.tie(30, length, a=start(edge), b=end(edge))


def wedge(sheet):
    """A wedge: a right angle, an angle of 30 degrees, one length."""
    base, back, face = sheet.chain((0, 0), (60, 0), (60, 35))
    sheet.tie(20, a=start(base), b=ORIGIN)
    sheet.tie(80, ea=base)
    sheet.tie(122, ea=base, eb=back)
    sheet.tie(120, 30, ea=base, eb=face, other=1)
    sheet.tie(30, 60, a=start(base), b=end(base))


def mirrored(sheet):
    """A T profile, its corners mirrored about the vertical through the origin."""
    edges = sheet.chain((-5, 0), (5, 0), (5, 40), (25, 40), (25, 50), (-25, 50), (-25, 40),
                        (-5, 40))
    for edge in edges[1::2]:
        sheet.tie(81, ea=edge)
    sheet.tie(61, a=start(edges[0]), b=end(edges[0]))
    sheet.tie(61, a=start(edges[4]), b=end(edges[4]))
    sheet.tie(80, ea=edges[2])
    sheet.tie(80, ea=edges[6])
    sheet.tie(80, a=start(edges[6]), b=end(edges[2]))
    sheet.tie(41, a=start(edges[0]), ea=ZX_PLANE)
    sheet.tie(30, 12, a=start(edges[0]), b=end(edges[0]))
    sheet.tie(30, 54, a=start(edges[4]), b=end(edges[4]))
    sheet.tie(30, 41, a=start(edges[1]), b=end(edges[1]))
    sheet.tie(30, 10.5, a=start(edges[3]), b=end(edges[3]))


def hexagon(sheet):
    """A hexagon: corners on a construction circle, sides equal, one level."""
    ring = sheet.circle(0, 0, 20, True)
    edges = sheet.chain(*((20 * math.cos(math.radians(60 * i)), 20 * math.sin(math.radians(60 * i)))
                          for i in range(6)))
    for other in edges[1:]:
        sheet.tie(50, ea=edges[0], eb=other)
    for edge in edges:
        sheet.tie(100, a=start(edge), ea=ring)
    sheet.tie(20, a=centre(ring), b=ORIGIN)
    sheet.tie(80, ea=edges[1])
    sheet.tie(90, 36, ea=ring)


def kite(sheet):
    """A kite, mirrored about a construction line."""
    right, high, left, low = sheet.chain((0, 0), (20, 30), (0, 45), (-20, 30))
    spine = sheet.line(0, 0, 0, 45, True)
    sheet.tie(20, a=start(spine), b=start(right))
    sheet.tie(20, a=end(spine), b=start(left))
    sheet.tie(63, a=end(right), b=end(left), ea=spine)
    sheet.tie(20, a=start(right), b=ORIGIN)
    sheet.tie(81, ea=spine)
    for edge, length in ((spine, 48), (right, 37), (high, 26)):
        sheet.tie(30, length, a=start(edge), b=end(edge))


def middle(sheet):
    """A plate with a hole in the middle of a construction diagonal."""
    bottom, right, top, left = sheet.rectangle(0, 0, 60, 40)
    sheet.tie(20, a=start(bottom), b=ORIGIN)
    sheet.tie(30, 62, a=start(bottom), b=end(bottom))
    sheet.tie(30, 41, a=start(right), b=end(right))
    diagonal = sheet.line(0, 0, 60, 40, True)
    sheet.tie(20, a=start(diagonal), b=start(bottom))
    sheet.tie(20, a=end(diagonal), b=end(right))
    hole = sheet.circle(30, 21, 4)
    sheet.tie(70, a=centre(hole), ea=diagonal)
    sheet.tie(90, 9, ea=hole)


def parallelogram(sheet):
    """Opposite sides parallel, two lengths and an angle."""
    base, right, top, left = sheet.chain((0, 0), (50, 0), (65, 30), (15, 30))
    sheet.tie(20, a=start(base), b=ORIGIN)
    sheet.tie(80, ea=base)
    sheet.tie(121, ea=base, eb=top)
    sheet.tie(121, ea=right, eb=left)
    sheet.tie(30, 52, a=start(base), b=end(base))
    sheet.tie(30, 33, a=start(right), b=end(right))
    sheet.tie(120, 60, ea=base, eb=right)


def pinned(sheet):
    """A point held where it is, a point on a line, and a reference length."""
    base = sheet.line(5, 6, 45, 6)
    sheet.tie(200, a=start(base))
    sheet.tie(80, ea=base)
    sheet.tie(30, 42, a=start(base), b=end(base))
    mark = sheet.point(20, 7)
    sheet.tie(42, a=mark, ea=base)
    sheet.tie(30, 17, a=start(base), b=mark)
    sheet.tie(30, 25, a=end(base), b=mark, reference=1)


def offsets(sheet):
    """A circle by its distances from the reference planes, another on the vertical one."""
    first, second = sheet.circle(20, 10, 5), sheet.circle(1, 40, 4)
    sheet.tie(31, 22, a=centre(first), ea=YZ_PLANE)
    sheet.tie(31, 12, a=centre(first), ea=ZX_PLANE)
    sheet.tie(41, a=centre(second), ea=YZ_PLANE)
    sheet.tie(30, 38, a=centre(first), b=centre(second))
    sheet.tie(90, 10, ea=first)
    sheet.tie(90, 8, ea=second)


def link(sheet):
    """Two arcs tangent to each other at their ends, and a segment."""
    first, second = sheet.arc(0, 0, 20, 0, 90), sheet.arc(0, 35, 15, 180, 270)
    sheet.tie(20, a=arc_end(first), b=arc_end(second))
    sheet.tie(125, ea=first, eb=second, other=1, other2=1)
    sheet.tie(20, a=centre(first), b=ORIGIN)
    sheet.tie(80, a=arc_start(first), b=centre(first))
    sheet.tie(81, a=arc_end(first), b=centre(first))
    sheet.tie(80, a=arc_start(second), b=centre(second))
    sheet.tie(90, 42, ea=first)
    sheet.tie(90, 28, ea=second)


def mirrors(sheet):
    """Points mirrored to the horizontal, and to a reference plane; distances along the axes."""
    first = sheet.line(10, 8, 11, -9)
    sheet.tie(62, a=start(first), b=end(first))
    sheet.tie(31, 12, a=start(first), ea=YZ_PLANE)
    sheet.tie(31, -7, a=end(first), ea=ZX_PLANE)
    second = sheet.line(-20, 30, 21, 31)
    sheet.tie(60, a=start(second), b=end(second), ea=YZ_PLANE)
    sheet.tie(34, 41, a=start(second), b=end(second), ea=YZ_PLANE | 0x20)
    sheet.tie(34, 23, a=start(first), b=end(second), ea=ZX_PLANE | 0x20)


def loose(sheet):
    """A plate that lacks its height."""
    bottom, right, top, left = sheet.rectangle(0, 0, 60, 40)
    sheet.tie(20, a=start(bottom), b=ORIGIN)
    sheet.tie(30, 62, a=start(bottom), b=end(bottom))


def curved(sheet):
    """A segment of a given length, and a Bezier curve from its end."""
    base = sheet.line(0, 0, 40, 0)
    sheet.tie(20, a=start(base), b=ORIGIN)
    sheet.tie(80, ea=base)
    sheet.tie(30, 42, a=start(base), b=end(base))
    curve = sheet.curve((40, 0), (50, 0), (60, 10), (60, 20))
    sheet.tie(20, a=start(curve), b=end(base))


DRAWINGS = (plate, slot, triangle, wedge, mirrored, hexagon, kite, middle, parallelogram, pinned,
            offsets, link, mirrors, loose, curved)


def main():
    """Writes everything."""
    for draw in DRAWINGS:
        sheet = Sheet()
        draw(sheet)
        path = os.path.join(HERE, draw.__name__ + ".slvs")
        with open(path, "wb") as out:
            out.write(sheet.text())
        subprocess.run(["solvespace-cli", "regenerate", path], check=True,
                       stdout=subprocess.DEVNULL, stderr=subprocess.DEVNULL)


main()
