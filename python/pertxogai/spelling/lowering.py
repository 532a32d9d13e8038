"""The facts that each word of a designer says."""
from __future__ import annotations

from collections.abc import Collection
from dataclasses import replace
from fractions import Fraction
from math import atan2, cos, hypot, pi, sin, sqrt

from pertxogai.drawing import (
    X_AXIS, Y_AXIS, AngleBetween, Arc, Axis, Circle, Coincident, Collinear, Concentric, Constraint,
    Degrees, Diameter, Distance, Drawing, Equal, Fixed, Horizontal, Length, Midpoint, Origin, Pair,
    Parallel, ParallelDistance, Perpendicular, PointLineDistance, PointOn, PointRef, Radius,
    Segment, Sense, Shape, ShapeRef, Slope, Symmetric, Tangent, Touch, Vertical, Which, XDistance,
    YDistance, points_of, run_um, touch, turn)
from pertxogai.drawing.changes import Redrawing
from pertxogai.drawing.mentions import named
from pertxogai.spelling.facts import (
    ORIGIN_KNOT, Apart, Between, Fact, Facts, Knot, Leans, LengthOf, Lies, Middle, Mirror, Off,
    OneLine, Owner, RadiusOf, Shift, Sized, Stays)
from pertxogai.spelling.knots import knots_of
from pertxogai.spelling.lean import SQUARE, Lean
from pertxogai.spelling.linear import Form, Number, small

LEVEL = Lean()
RIMS = (Circle, Arc)
TURNS = 16
"""How often all segments with signed angles are drawn anew at most: angles that contradict each
other would turn them for ever."""


DRAWN = (XDistance, YDistance, AngleBetween, Tangent, Fixed)
"""What these say depends on where things are drawn."""


def lowered(drawing: Drawing) -> Facts:
    """All facts of a drawing."""
    return _Lowering(drawing, _points(drawing)).all()


def lowered_from(facts: Facts, redrawing: Redrawing) -> Facts | None:
    """The facts of a drawing, by those of one of which some shapes are drawn elsewhere; None where
    it differs otherwise, or something says another thing than there, as a shape that is given from
    outside."""
    if not _asks_the_same(redrawing):
        return None
    drawing, elsewhere = redrawing.new, redrawing.elsewhere
    there = {knot for ref, knot in facts.refs.items() if ref.shape in elsewhere}
    refs = {ref: knot for ref, knot in facts.refs.items() if knot in there}
    found = replace(facts, drawn={**facts.drawn, **_places(drawing, refs)})
    for number, constraint in enumerate(drawing.constraints, 1):
        if isinstance(constraint, DRAWN) and not elsewhere.isdisjoint(named(constraint)):
            now, then = (_Lowering(each, replace(said, own=dict(said.own), facts=[])).one(number)
                         for each, said in ((drawing, found), (redrawing.old, facts)))
            if now != then:
                return None
    return found


def _asks_the_same(redrawing: Redrawing) -> bool:
    """Whether a drawing has the constraints of the other, none of its shapes that are drawn
    elsewhere is given from outside, and no angle has a sign, which is by what is drawn."""
    drawing, elsewhere = redrawing.new, redrawing.elsewhere
    return (drawing.constraints == redrawing.old.constraints
            and not any(shape.outer and shape.name in elsewhere for shape in drawing.geometry)
            and not any(isinstance(each, AngleBetween) and each.sense is Sense.SIGNED
                        for each in drawing.constraints))


def _points(drawing: Drawing) -> Facts:
    """The points of a drawing, of which nothing is said yet."""
    refs, repeats = knots_of(drawing)
    return Facts(refs, _places(drawing, refs), repeats=repeats)


def _places(drawing: Drawing, refs: dict[PointRef, Knot]) -> dict[Knot, tuple[Number, Number]]:
    """Where each point is drawn: where the first of those is that are one."""
    found: dict[Knot, tuple[Number, Number]] = {}
    for ref, knot in refs.items():
        if knot not in found:
            place = drawing.drawn(ref)
            found[knot] = small(place.x_um), small(place.y_um)
    return found


class _Lowering:
    """A drawing on its way to facts."""

    def __init__(self, drawing: Drawing, facts: Facts) -> None:
        self.drawing = drawing
        self.facts = facts
        self._lengths: set[LengthOf] = set()

    def all(self) -> Facts:
        """All that its shapes and its constraints say."""
        self.facts.own[X_AXIS] = (ORIGIN_KNOT, ORIGIN_KNOT)
        self.facts.own[Y_AXIS] = (ORIGIN_KNOT, ORIGIN_KNOT)
        for number, shape in enumerate(self.drawing.geometry, 1):
            self._shape(shape, Owner(number, True))
        signed = [each for each in self.drawing.constraints
                  if isinstance(each, AngleBetween) and each.sense is Sense.SIGNED]
        # A segment that is drawn anew changes the angles to it, and turns what begins at its end.
        for _ in signed[:TURNS]:
            if not any([self._redraw(each) for each in signed]):
                break
        for number in range(1, len(self.drawing.constraints) + 1):
            self.one(number)
        return self.facts

    def one(self, number: int) -> list[Fact]:
        """What is said once the constraint of that number, from 1, has been heard."""
        self._constraint(self.drawing.constraints[number - 1], Owner(number))
        return self.facts.facts

    def _say(self, fact: Fact) -> None:
        self.facts.facts.append(fact)

    def _knot(self, ref: PointRef) -> Knot:
        return self.facts.refs[ref]

    def _ends(self, name: str) -> tuple[Knot, Knot]:
        return self._knot(PointRef(name, Which.START)), self._knot(PointRef(name, Which.END))

    def _centre(self, rim: ShapeRef) -> Knot:
        return self._knot(PointRef(rim.name, Which.CENTRE))

    def _shape(self, shape: Shape, owner: Owner) -> None:
        match shape:
            case Segment(name):
                self.facts.own[ShapeRef(name)] = self._ends(name)
            case Arc(name):
                ends = self._ends(name)
                is_given = shape.outer and PointRef(name, Which.END) not in self.drawing.given()
                for end in dict.fromkeys(ends[:1] if is_given else ends):
                    self._apart(self._centre(ShapeRef(name)), end, Form.of(RadiusOf(name)), owner)
        if shape.outer:
            self._stays(shape, self.drawing.given(), owner)

    def _stays(self, shape: Shape, refs: Collection[PointRef], owner: Owner) -> None:
        """A shape from outside, or a fixed one: these of its points where they are drawn, and its
        radius."""
        points = points_of(shape)
        if isinstance(shape, Arc) and points[2] in refs:
            line = self._through(self._centre(ShapeRef(shape.name)), self._ends(shape.name)[1])
            self._say(Leans(X_AXIS, line, self._lean_of(shape), owner))
        for ref in points[:2]:
            if ref in refs:
                self._stays_at(ref, owner)
        if isinstance(shape, Circle):
            self._size(Form.of(RadiusOf(shape.name)), shape.radius_um, owner)

    def _lean_of(self, arc: Arc) -> Lean:
        """How an arc's drawn last radius leans against the x axis."""
        centre, end = (self.drawing.drawn(PointRef(arc.name, each))
                       for each in (Which.CENTRE, Which.END))
        a, b = end.x_um - centre.x_um, end.y_um - centre.y_um
        denominator = a.denominator * b.denominator
        return Lean.of(Slope(int(b * denominator), int(a * denominator), False))

    def _through(self, first: Knot, second: Knot) -> Between:
        line = Between(first, second)
        self.facts.own[line] = (first, second)
        return line

    def _apart(self, first: Knot, second: Knot, value: Form, owner: Owner) -> None:
        self._say(Apart(first, second, value, owner))

    def _size(self, form: Form, value_um: Fraction, owner: Owner) -> None:
        self._say(Sized(form - Form(number=small(value_um)), owner))

    def _length(self, segment: ShapeRef, owner: Owner) -> Form:
        """A segment's length as an unknown, which is said to be that of its ends."""
        first, second = self._ends(segment.name)
        size = LengthOf(first, second)
        if size not in self._lengths:
            self._lengths.add(size)
            self._apart(first, second, Form.of(size), owner)
        return Form.of(size)

    def _off(self, point: Knot, line: ShapeRef, value: Form, owner: Owner) -> None:
        self._say(Off(point, line, value, owner))

    def _constraint(self, constraint: Constraint, owner: Owner) -> None:
        match constraint:
            case Coincident() | Concentric():
                return
            case Length() | Distance() | Radius() | Diameter() | Equal():
                self._sizes(constraint, owner)
            case XDistance(first, second) | YDistance(first, second):
                upwards = isinstance(constraint, YDistance)
                self._shift(first, second, upwards, run_um(self.drawing, constraint), owner)
            case Horizontal(of) | Vertical(of):
                self._align(of, isinstance(constraint, Vertical), owner)
            case Parallel() | Perpendicular() | AngleBetween() | Collinear():
                self._leans(constraint, owner)
            case PointOn(point, curve):
                self._on(self._knot(point), curve, owner)
            case PointLineDistance(point, line, value):
                self._off(self._knot(point), line, Form(number=small(value)), owner)
            case ParallelDistance(first_line, second_line, value):
                self._parallel_distance(first_line, second_line, value, owner)
            case Tangent():
                self._tangent(constraint, owner)
            case Symmetric() | Midpoint():
                self._halves(constraint, owner)
            case Fixed(what):
                self._fix(what, owner)

    def _sizes(self, constraint: Length | Distance | Radius | Diameter | Equal,
               owner: Owner) -> None:
        match constraint:
            case Length(segment, value):
                self._size(self._length(segment, owner), value, owner)
            case Distance(first, second, value):
                self._apart(self._knot(first), self._knot(second), Form(number=small(value)), owner)
            case Radius(rim, value):
                self._size(Form.of(RadiusOf(rim.name)), value, owner)
            case Diameter(rim, value):
                self._size(Form.of(RadiusOf(rim.name)).times(2), value, owner)
            case Equal(one, other):
                if isinstance(self.drawing.shape(one.name), RIMS):
                    form = Form.of(RadiusOf(one.name)) - Form.of(RadiusOf(other.name))
                else:
                    form = self._length(one, owner) - self._length(other, owner)
                self._size(form, Fraction(0), owner)

    def _shift(self, first: PointRef, second: PointRef, upwards: bool, value: Fraction,
               owner: Owner) -> None:
        run = Form(number=small(value))
        self._say(Shift(self._knot(first), self._knot(second), upwards, run, owner))

    def _align(self, of: ShapeRef | Pair, vertical: bool, owner: Owner) -> None:
        """Horizontal, or vertical: a segment's line leans so, two points have one y or x."""
        if isinstance(of, ShapeRef):
            self._say(Leans(X_AXIS, of, SQUARE if vertical else LEVEL, owner))
            return
        ends = (self._knot(of.first), self._knot(of.second))
        for line, own in self.facts.own.items():
            if own in (ends, ends[::-1]) and ends[0] != ends[1]:
                self._say(Leans(X_AXIS, line, SQUARE if vertical else LEVEL, owner))
                return
        self._say(Shift(*ends, not vertical, Form(), owner))

    def _leans(self, constraint: Parallel | Perpendicular | AngleBetween | Collinear,
               owner: Owner) -> None:
        match constraint:
            case Parallel(first, second):
                self._say(Leans(first, second, LEVEL, owner))
            case Perpendicular(first, second):
                self._say(Leans(first, second, SQUARE, owner))
            case AngleBetween(first, second):
                self._say(Leans(first, second, Lean.of(turn(self.drawing, constraint)), owner))
            case Collinear(first, second):
                self._say(OneLine(first, second, owner))

    def _redraw(self, angle: AngleBetween) -> bool:
        """Draws a segment as its signed angle says, where it is drawn more than half a right angle
        off: the second of two, or the one that has the angle with an axis. Returns whether it was
        drawn so."""
        asked = turn(self.drawing, angle)
        if isinstance(asked, Degrees):
            radians = float(asked.value) * pi / 180
        else:
            radians = atan2(asked.p, asked.q) + (pi if asked.backward else 0)
        is_last = isinstance(self.drawing.shape(angle.second.name), Segment)
        fixed, turned = (angle.first, angle.second) if is_last else (angle.second, angle.first)
        if not isinstance(self.drawing.shape(turned.name), Segment):
            return False
        first, second = self.facts.direction(fixed), self.facts.direction(turned)
        goal = atan2(float(first[1]), float(first[0])) + (radians if is_last else -radians)
        size = hypot(float(second[0]), float(second[1]))
        if cos(goal - atan2(float(second[1]), float(second[0]))) >= sqrt(0.5):
            return False
        start, end = self._ends(turned.name)
        x, y = self.facts.drawn[start]
        self.facts.drawn[end] = (x + Fraction(size * cos(goal)), y + Fraction(size * sin(goal)))
        return True

    def _on(self, point: Knot, curve: ShapeRef, owner: Owner) -> None:
        if isinstance(self.drawing.shape(curve.name), RIMS):
            self._apart(self._centre(curve), point, Form.of(RadiusOf(curve.name)), owner)
        else:
            self._say(Lies(point, curve, owner))

    def _parallel_distance(self, first: ShapeRef, second: ShapeRef, value: Fraction,
                           owner: Owner) -> None:
        """One dimension: a point of a segment from the other line."""
        if isinstance(self.drawing.shape(second.name), Segment):
            self._off(self._ends(second.name)[0], first, Form(number=small(value)), owner)
        else:
            self._off(self._ends(first.name)[0], second, Form(number=small(value)), owner)

    def _tangent(self, constraint: Tangent, owner: Owner) -> None:
        first, second = constraint.first, constraint.second
        rims = [isinstance(self.drawing.shape(each.name), RIMS) for each in (first, second)]
        if rims == [True, True]:
            self._rims(constraint, owner)
        elif rims == [False, False]:
            self._say(OneLine(first, second, owner))
        else:
            self._touches(*((second, first) if rims[0] else (first, second)), owner)

    def _touches(self, line: ShapeRef, rim: ShapeRef, owner: Owner) -> None:
        """At an arc's end that lies on the line the centre is on the normal; else it is a radius
        away."""
        centre = self._centre(rim)
        for end in self._rim_points(rim):
            if self._known_on(end, line):
                self._say(Leans(line, self._through(end, centre), SQUARE, owner))
                return
        self._off(centre, line, Form.of(RadiusOf(rim.name)), owner)

    def _rim_points(self, rim: ShapeRef) -> list[Knot]:
        """The points that are told to lie on a rim: an arc's ends, and what a `PointOn` puts
        there."""
        is_arc = isinstance(self.drawing.shape(rim.name), Arc)
        points = list(self._ends(rim.name)) if is_arc else []
        points += [self._knot(each.point) for each in self.drawing.constraints
                   if isinstance(each, PointOn) and each.curve == rim]
        return points

    def _known_on(self, point: Knot, line: ShapeRef) -> bool:
        """Whether a point is told to lie on a line: one of its ends, or put there."""
        return point in self.facts.own[line] or any(
            isinstance(each, PointOn) and each.curve == line and self._knot(each.point) == point
            for each in self.drawing.constraints)

    def _rims(self, constraint: Tangent, owner: Owner) -> None:
        """Two rims touch: at a shared point the line of centres runs through it; else by the
        radii."""
        first, second = constraint.first, constraint.second
        centres = self._centre(first), self._centre(second)
        others = self._rim_points(second)
        shared = [end for end in self._rim_points(first) if end in others]
        if constraint.at is not None:
            shared.insert(0, self._knot(constraint.at.first))
        if shared:
            self._say(Lies(shared[0], self._through(*centres), owner))
            return
        one, other = Form.of(RadiusOf(first.name)), Form.of(RadiusOf(second.name))
        if touch(self.drawing, constraint) is Touch.OUTSIDE:
            self._apart(*centres, one + other, owner)
        elif self.drawing.drawn_radius_um(first.name) >= self.drawing.drawn_radius_um(second.name):
            self._apart(*centres, one - other, owner)
        else:
            self._apart(*centres, other - one, owner)

    def _halves(self, constraint: Symmetric | Midpoint, owner: Owner) -> None:
        match constraint:
            case Midpoint(point, segment):
                self._say(Middle(self._knot(point), *self._ends(segment.name), owner))
            case Symmetric(first, second, PointRef() as about):
                self._say(Middle(self._knot(about), self._knot(first), self._knot(second), owner))
            case Symmetric(first, second, ShapeRef() as line):
                ends = self._knot(first), self._knot(second)
                self._say(Leans(line, self._through(*ends), SQUARE, owner))
                self._say(Mirror(*ends, line, owner))

    def _fix(self, what: PointRef | ShapeRef, owner: Owner) -> None:
        if isinstance(what, ShapeRef):
            shape = self.drawing.shape(what.name)
            if not isinstance(shape, (Origin, Axis)):
                self._stays(shape, points_of(shape), owner)
            return
        self._stays_at(what, owner)

    def _stays_at(self, ref: PointRef, owner: Owner) -> None:
        """A point stays where it is drawn itself, whatever is joined to it."""
        self._say(Stays(self._knot(ref), self.drawing.drawn(ref), owner))
