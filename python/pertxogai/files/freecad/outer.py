"""Outer geometry of a sketch from before version 1.0, which stores where it comes from alone.

The edge or vertex is looked up in the stored shape of the object that it belongs to, and seen
from the sketch's plane, as FreeCAD does when it opens the file.
"""

from __future__ import annotations

from collections.abc import Callable, Iterator, Mapping

from pertxogai.drawing import Arc, Circle, Place, Point, Segment, Shape
from pertxogai.files.contents import FileRefusal, LeftOut, NotSayable
from pertxogai.files.freecad.brep import BadShape, Budget, Edge, Round, Solid, Straight, read_solid
from pertxogai.files.freecad.markup import Kept, Node
from pertxogai.files.freecad.numbers import length_um, number, place
from pertxogai.files.freecad.shapes import FIRST_OUTER, Numbered
from pertxogai.files.freecad.space import Motion, Vector, turned
from pertxogai.files.limits import SOLIDS_BYTES, Count, TooMuch

_NEAR_MM = 1e-7
_LEVEL = 1 - 1e-12


class Shelf:
    """The stored shapes of a file's objects, each read once, whether it can be or not."""

    def __init__(self, objects: Mapping[str, Kept], read: Callable[[str], Iterator[bytes]]
                 ) -> None:
        """`read` gives the bytes of a member of the file, some at a time; it raises
        FileRefusal."""
        self._objects = objects
        self._read = read
        self._bytes = Count("bytes in its stored shapes", SOLIDS_BYTES)
        self._budget = Budget()
        self._solids: dict[str, Solid | NotSayable] = {}

    def solid(self, name: str) -> Solid:
        """The shape of an object. Raises Unsaid where the file doesn't have it."""
        if name not in self._solids:
            try:
                self._solids[name] = self._solid(name)
            except NotSayable as unsaid:
                self._solids[name] = unsaid
        found = self._solids[name]
        if isinstance(found, NotSayable):
            raise NotSayable(str(found))
        return found

    def _solid(self, name: str) -> Solid:
        kept = self._objects.get(name)
        held = kept.properties.get("Shape") if kept is not None else None
        part = held.child("Part") if held is not None else None
        member = part.get("file", "") if part is not None else ""
        if not member.endswith(".brp"):
            raise NotSayable(f"the shape of {name} isn't stored in the file as text")
        try:
            return read_solid(self._text(member), self._budget)
        except (BadShape, TooMuch) as bad:
            raise NotSayable(f"{name}: {bad}") from None
        except FileRefusal:
            raise NotSayable(f"the shape of {name} can't be read from the file") from None

    def _text(self, member: str) -> str:
        """The text of a member; raises TooMuch where too much would be read."""
        data = bytearray()
        for piece in self._read(member):
            self._bytes.add(len(piece))
            data += piece
        return data.decode("ascii", "replace")


def outer_shapes(kept: Kept, shelf: Shelf) -> tuple[list[Numbered], list[LeftOut]]:
    """The outer shapes that a sketch refers to, and those that were left out."""
    shapes, left_out = [], []
    for count, link in enumerate(kept.list_of("ExternalGeometry")):
        name = f"Outer{count + 1}"
        shape: Shape | None = None
        try:
            shape = _view_of(name, link, shelf, _placement(kept).inverse())
        except NotSayable as unsaid:
            left_out.append(LeftOut(name, str(unsaid)))
        shapes.append(Numbered(FIRST_OUTER - count, name, shape))
    return shapes, left_out


def _placement(kept: Kept) -> Motion:
    """Where a sketch's plane lies. Raises Unsaid."""
    held = kept.properties.get("Placement")
    if held is None or not held.children:
        return Motion()
    node = held.children[0]
    x, y, z, w = (number(node, word) for word in ("Q0", "Q1", "Q2", "Q3"))
    return turned(x, y, z, w, (number(node, "Px"), number(node, "Py"), number(node, "Pz")))


def _view_of(name: str, link: Node, shelf: Shelf, into: Motion) -> Shape:
    """What a link names, seen from a plane. Raises Unsaid."""
    owner, sub = link.get("obj", ""), link.get("sub", "")
    solid = shelf.solid(owner)
    word, digits = sub.rstrip("0123456789"), sub[len(sub.rstrip("0123456789")):]
    count = int(digits) - 1 if digits and len(digits) < 8 else -1
    if word == "Vertex" and 0 <= count < len(solid.vertices):
        return Point(name, _flat(into.place(solid.vertices[count])), False, True)
    if word == "Edge" and 0 <= count < len(solid.edges):
        return _edge(name, solid.edges[count], into)
    raise NotSayable(f"{owner} has no {sub or 'edge or vertex'} to be seen here")


def _edge(name: str, edge: Edge, into: Motion) -> Shape:
    """An edge, seen from a plane."""
    match edge:
        case Straight(start, end):
            first, last = _flat(into.place(start)), _flat(into.place(end))
            if _is_near(into.place(start), into.place(end)):
                return Point(name, first, False, True)
            return Segment(name, first, last, False, True)
        case Round() if abs(into.way(edge.axis)[2]) > _LEVEL:
            return _round(name, edge, into)
        case Round():
            raise NotSayable("it is a circle that is tilted to the sketch's plane")
    raise NotSayable("it is neither straight nor a circle")


def _round(name: str, edge: Round, into: Motion) -> Shape:
    """A circular edge in the plane or one parallel to it, counter-clockwise."""
    centre = _flat(into.place(edge.centre))
    if edge.whole:
        return Circle(name, centre, length_um(edge.radius), False, True)
    start, end = _flat(into.place(edge.start)), _flat(into.place(edge.end))
    if into.way(edge.axis)[2] < 0:
        start, end = end, start
    return Arc(name, centre, start, end, False, True)


def _flat(at: Vector) -> Place:
    """A place seen from above."""
    return place(at[0], at[1])


def _is_near(first: Vector, second: Vector) -> bool:
    """Whether two places are one, seen from above."""
    return abs(first[0] - second[0]) < _NEAR_MM and abs(first[1] - second[1]) < _NEAR_MM
