"""A drag on the board: the server keeps what follows the hand, and tells of each frame what isn't
as it was in the frame before."""
from __future__ import annotations

from collections.abc import Mapping
from dataclasses import dataclass, field
from typing import TYPE_CHECKING, cast

from pertxogai.board.anchors import point_of
from pertxogai.board.board_drawing import BoardDrawing
from pertxogai.board.fields import FieldRefused, Fields
from pertxogai.board.marks import marks, reference_marks, with_labels
from pertxogai.board.protocol import Dragged, Mark, Point
from pertxogai.board.stillness import FIXED, LOST, NO_OTHER, NO_SHAPE, OFF, why_still
from pertxogai.drawing import Arc, Circle, Drawing, PointRef, points_of
from pertxogai.drawing.labels import all_labels, references
from pertxogai.drawing.mentions import named
from pertxogai.output.picture.drawings import DrawnPlaces

if TYPE_CHECKING:
    from pertxogai.search.dragging import Drag, Frame, Grip
    from pertxogai.search.searched import Searched

NM_PER_MM = 1e6
NM_PER_UM = 1e3
PLACES = 7
"""Millimetres are told to a tenth of a nanometre."""
MOST_DRAGS = 2
"""How many drags are kept: a page has one."""


class Unknown(Exception):
    """A frame of a drag that isn't kept here, without the places to go on from."""


class Lost(Exception):
    """What is asked for isn't met near the places of a drag to go on from."""


@dataclass
class BoardDrag:
    """What is dragged of a drawing, and what the page was told of it last. taken: how many frames
    the page has of it, also from other processes of the server."""

    drawing: Drawing
    drag: Drag
    taken: int
    points: dict[str, Point] = field(default_factory=dict)
    radii: dict[str, float] = field(default_factory=dict)

    def __post_init__(self) -> None:
        names = self.drag.names
        self._asked = [(number, constraint)
                       for number, constraint in enumerate(self.drawing.constraints, start=1)
                       if not names.isdisjoint(named(constraint))]
        self._measured = [(number, each)
                          for number, each in enumerate(references(self.drawing), start=1)
                          if not names.isdisjoint(named(each.constraint))]
        self._labels = all_labels(self.drawing)

    def is_at(self, drawing: Drawing, taken: int) -> bool:
        """Whether it is of this very drawing, and the page has its last frame and no later one."""
        return self.drawing is drawing and self.taken == taken

    def to(self, x_nm: float, y_nm: float) -> Dragged:
        """The frame of a hand that goes to a place."""
        return self._frame(self.drag.to((x_nm, y_nm)))

    def turn(self) -> Dragged:
        """The other shape at a dead point."""
        frame = self.drag.turn()
        return {"fixed": NO_OTHER} if frame is None else self._frame(frame)

    def _frame(self, frame: Frame) -> Dragged:
        points = {str(ref): _mm(spot) for ref, spot in frame.points.items()}
        radii = {name: round(radius / NM_PER_MM, PLACES) for name, radius in frame.radii.items()}
        answer: Dragged = {
            "points": {name: spot for name, spot in points.items()
                       if self.points.get(name) != spot},
            "radii": {name: radius for name, radius in radii.items()
                      if self.radii.get(name) != radius},
            "marks": self._marks(frame), "reach": frame.reach.value, "off": frame.off_nm,
            "passed": dict(frame.passed)}
        self.points, self.radii = points, radii
        self.taken += 1
        return answer

    def _marks(self, frame: Frame) -> list[Mark]:
        """The marks of what is asked of the shapes that move, where these lie now."""
        where = DrawnPlaces(self.drag.moving, frame.whole)
        asked = (mark for number, constraint in self._asked
                 for mark in marks(where, number, constraint))
        measured = (mark for number, each in self._measured
                    for mark in reference_marks(where, number, each))
        return list(with_labels([*asked, *measured], self._labels))


class Drags:
    """The drags that are kept, by the names that pages gave them."""

    def __init__(self) -> None:
        self._kept: dict[str, BoardDrag] = {}

    def frame(self, judged: BoardDrawing, given: Fields) -> Dragged:
        """The frame of a drag: of one that is kept, begun, or gone on with from places that are
        given, where the page has taken frames that weren't told here. Raises FieldRefused,
        WordFault."""
        if judged.searched is None:
            return {"fixed": why_still(judged.judgement) or NO_SHAPE}
        if not judged.searched.found.is_solved():
            return {"fixed": OFF}
        from pertxogai.search.dragging import NothingFree
        name = given.text("drag")
        dragged = self._kept.pop(name, None)
        try:
            if dragged is None or not dragged.is_at(judged.drawing, given.whole("taken")):
                dragged = _begun(judged.drawing, judged.searched, given)
        except NothingFree:
            return {"fixed": FIXED}
        except Unknown:
            return {"lost": True}
        except Lost:
            return {"fixed": LOST}
        self._kept[name] = dragged
        while len(self._kept) > MOST_DRAGS:
            del self._kept[next(iter(self._kept))]
        return dragged.turn() if given.flag("turns") else dragged.to(*_place_nm(given))


def _begun(drawing: Drawing, searched: Searched, given: Fields) -> BoardDrag:
    """A drag that begins, or goes on where another worker had it. Raises NothingFree, Unknown,
    Lost, FieldRefused, WordFault."""
    from pertxogai.search.dragging import Drag
    x = None
    if given.has("places"):
        x = searched.met_at(*_places_nm(drawing, given.single("places")))
        if x is None:
            raise Lost
    elif given.whole("taken"):
        raise Unknown
    drag = Drag(searched.equations, searched.found.x, _grip(drawing, given), x, searched.loose(),
                given.counts("passed"))
    return BoardDrag(drawing, drag, given.whole("taken"))


def _grip(drawing: Drawing, given: Fields) -> Grip:
    """What a hand holds: the points of what it names; a single rim by its radius. Raises
    FieldRefused, WordFault."""
    from pertxogai.search.dragging import Grip
    at, names = _place_nm(given.single("begin")), given.texts("names")
    if not names:
        raise FieldRefused("'names' has to have a point or a shape")
    shapes = {shape.name: shape for shape in drawing.geometry}
    if len(names) == 1 and isinstance(shapes.get(names[0]), (Circle, Arc)):
        return Grip(at, rim=names[0])
    points = [ref for name in names for ref in (
        points_of(shapes[name]) if name in shapes else (point_of(drawing.scene, name),))]
    return Grip(at, tuple(points))


def _place_nm(given: Fields) -> tuple[float, float]:
    return float(given.um("x")) * NM_PER_UM, float(given.um("y")) * NM_PER_UM


def _places_nm(drawing: Drawing, given: Fields) -> tuple[
        Mapping[PointRef, tuple[float, float]], Mapping[str, float]]:
    """The places of points and the radii of rims that a page gives back. Raises FieldRefused,
    WordFault."""
    points, radii = (given.single(name).values for name in ("points", "radii"))
    try:
        return ({point_of(drawing.scene, name): (float(x) * NM_PER_MM, float(y) * NM_PER_MM)
                 for name, (x, y) in cast(Mapping[str, Point], points).items()},
                {name: float(radius) * NM_PER_MM
                 for name, radius in cast(Mapping[str, float], radii).items()})
    except (TypeError, ValueError):
        raise FieldRefused("'places' has to have points and radii in millimetres") from None


def _mm(spot: tuple[float, float]) -> Point:
    return round(spot[0] / NM_PER_MM, PLACES), round(spot[1] / NM_PER_MM, PLACES)
