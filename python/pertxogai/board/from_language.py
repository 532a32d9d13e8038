"""A sketch of the language as a drawing: a line without ends becomes the segment between the
points on it."""
from __future__ import annotations

from collections.abc import Iterator
from dataclasses import dataclass
from fractions import Fraction

from pertxogai import drawing as said, language
from pertxogai.drawing import Anchor, Drawing, Place, PointRef, Shape, ShapeRef, Which


@dataclass(frozen=True)
class Taken:
    """The drawing, and what of the sketch it can't say."""

    drawing: Drawing
    left_out: tuple[str, ...]


def drawn_from(sketch: language.Sketch) -> Taken:
    """The sketch as a drawing. A line with less than two points on it gets ends of its own,
    which nothing tells: that is left out, and named."""
    return _Taking(sketch).taken()


class _Taking:
    """A sketch that is being taken over."""

    def __init__(self, sketch: language.Sketch) -> None:
        self.sketch = sketch
        self.kinds = {each.name: each for each in sketch.elements}
        self.left_out: list[str] = []
        self.within: set[tuple[str, str]] = set()

    def taken(self) -> Taken:
        """All of it."""
        first = [each for each in self.sketch.elements if not isinstance(each, language.Line)]
        lines = [each for each in self.sketch.elements if isinstance(each, language.Line)]
        shapes = tuple([*(self._round(each) for each in first), *map(self._segment, lines)])
        radii = [said.Radius(ShapeRef(each.name), Fraction(each.radius_um))
                 for each in first if isinstance(each, language.Circle)]
        asked = [one for each in self.sketch.constraints for one in self._asked(each)]
        return Taken(Drawing(shapes, (*radii, *asked)), tuple(self.left_out))

    def _round(self, element: language.Point | language.Circle) -> Shape:
        at = Place(Fraction(element.x_um), Fraction(element.y_um))
        if isinstance(element, language.Circle):
            return said.Circle(element.name, at, Fraction(element.radius_um))
        return said.Point(element.name, at)

    def _segment(self, line: language.Line) -> Shape:
        """The segment from the first point on the line to the last, the way it is drawn."""
        way = line.x2_um - line.x1_um, line.y2_um - line.y1_um
        on = sorted({each.point for each in self.sketch.constraints
                     if isinstance(each, language.On) and each.carrier == line.name},
                    key=lambda name: self._along(name, way))
        ends: list[Anchor] = [Place(Fraction(line.x1_um), Fraction(line.y1_um)),
                            Place(Fraction(line.x2_um), Fraction(line.y2_um))]
        if len(on) >= 2 and self._along(on[0], way) < self._along(on[-1], way):
            ends = [self._point(on[0]), self._point(on[-1])]
            self.within |= {(on[0], line.name), (on[-1], line.name)}
        else:
            self.left_out.append(f"line {line.name}: it has no ends, and those drawn are loose")
        return said.Segment(line.name, ends[0], ends[1])

    def _along(self, name: str, way: tuple[int, int]) -> int:
        element = self.kinds[name]
        assert not isinstance(element, language.Line)
        return element.x_um * way[0] + element.y_um * way[1]

    def _point(self, name: str) -> PointRef:
        is_round = isinstance(self.kinds[name], language.Circle)
        return PointRef(name, Which.CENTRE if is_round else Which.AT)

    def _is_line(self, name: str) -> bool:
        return isinstance(self.kinds[name], language.Line)

    def _asked(self, each: language.Constraint) -> Iterator[said.Constraint]:
        match each:
            case language.Distance(first, second, um):
                yield self._distance(first, second, Fraction(um))
            case language.On(point, carrier):
                if (point, carrier) not in self.within:
                    yield said.PointOn(self._point(point), ShapeRef(carrier))
            case language.Tangent(first, second):
                yield said.Tangent(ShapeRef(first), ShapeRef(second))
            case language.Angle(first, second, p, q):
                yield said.AngleBetween(ShapeRef(first), ShapeRef(second), said.Ratio(p, q),
                                        said.Sense.SIGNED)
            case language.Outside() | language.Inside():
                yield from self._touching(each)
            case language.Block():
                self.left_out.append(f"{each.text()}: a block is no word of a drawing")

    def _touching(self, each: language.Outside | language.Inside) -> Iterator[said.Constraint]:
        """A tangency, of which a drawing tells by its drawn circles how they touch."""
        tangent = said.Tangent(ShapeRef(each.first), ShapeRef(each.second))
        circles = Drawing(tuple(self._round(it) for it in self.sketch.elements
                                if isinstance(it, language.Circle)))
        touch = said.touch(circles, tangent)
        if (touch is said.Touch.INSIDE) is isinstance(each, language.Inside):
            yield tangent
        else:
            self.left_out.append(f"{each.text()}: drawn so, they would touch {touch.value}")

    def _distance(self, first: str, second: str, um: Fraction) -> said.Constraint:
        if self._is_line(first):
            first, second = second, first
        if self._is_line(second):
            return said.PointLineDistance(self._point(first), ShapeRef(second), um)
        return said.Distance(self._point(first), self._point(second), um)
