"""The XML of a FreeCAD document: the properties that say its sketches, and where they stand.

It is read by expat, and a document type, which FreeCAD never writes and which alone can declare
entities, is refused.
"""

from __future__ import annotations

from dataclasses import dataclass, field
from xml.parsers import expat

from pertxogai.files.limits import (
    DOCUMENT_DEPTH, DOCUMENT_ELEMENTS, DOCUMENT_ENTRIES, DOCUMENT_OBJECTS, TAG_BYTES, Count,
    TooMuch)

_KEPT = frozenset({"Geometry", "Constraints", "ExternalGeometry", "ExternalGeo", "Label", "Shape",
                   "Placement", "ExpressionEngine"})
_HELD = ("Document", "ObjectData", "Object", "Properties", "Property")
_LISTED = ("Document", "Objects", "Object")
_OWNED = _HELD[:3]


class BadMarkup(Exception):
    """The text is no XML of a FreeCAD document; the message tells why."""


@dataclass
class Node:
    """An element: its tag, its attributes, its children, and the byte where it begins."""

    tag: str
    attributes: dict[str, str]
    begin: int
    children: list[Node] = field(default_factory=list)

    def child(self, tag: str) -> Node | None:
        """The first child of that tag."""
        return next((node for node in self.children if node.tag == tag), None)

    def get(self, name: str, default: str) -> str:
        """An attribute, or the default where it isn't there."""
        return self.attributes.get(name, default)


@dataclass
class Kept:
    """An object of a document: its name, its type, and those of its properties that matter."""

    name: str
    kind: str
    properties: dict[str, Node] = field(default_factory=dict)

    def list_of(self, name: str) -> list[Node]:
        """The entries of a property that is a list; none where it isn't there."""
        held = self.properties.get(name)
        return held.children[0].children if held is not None and held.children else []


def read_markup(data: bytes) -> list[Kept]:
    """The objects of a document, in its order. Raises BadMarkup."""
    gathering = _Gathering()
    try:
        gathering.read(data)
    except expat.ExpatError as error:
        raise BadMarkup(f"it is no XML ({error}): save it by FreeCAD again") from None
    except TooMuch as much:
        raise BadMarkup(f"it {much}") from None
    except (LookupError, ValueError):
        raise BadMarkup("its text has an encoding that isn't read: save it by FreeCAD again"
                        ) from None
    return list(gathering.objects.values())


class _Gathering:
    """Gathers the objects while expat reads."""

    def __init__(self) -> None:
        self.objects: dict[str, Kept] = {}
        self.parser = expat.ParserCreate()
        self.parser.StartDoctypeDeclHandler = self._refuse_type
        self.parser.StartElementHandler = self._start
        self.parser.EndElementHandler = self._end
        self._path: list[str] = []
        self._open: list[Node] = []
        self._owner: Kept | None = None
        self._elements = Count("XML elements", DOCUMENT_ELEMENTS)
        self._objects = Count("objects", DOCUMENT_OBJECTS)
        self._entries = Count("entries in its sketches", DOCUMENT_ENTRIES)

    def read(self, data: bytes) -> None:
        """Reads a document, some bytes at a time, so that no tag is longer than may be. Raises
        ExpatError, TooMuch, BadMarkup, and what expat raises at encodings."""
        for begin in range(0, len(data), TAG_BYTES):
            self.parser.Parse(data[begin:begin + TAG_BYTES], False)
            if begin - self.parser.CurrentByteIndex > TAG_BYTES:
                raise TooMuch(f"has a tag of more than {TAG_BYTES} bytes: save it by FreeCAD again")
        self.parser.Parse(b"", True)

    def _refuse_type(self, *_: object) -> None:
        raise BadMarkup("it declares a document type, which FreeCAD never does")

    def _start(self, tag: str, attributes: dict[str, str]) -> None:
        self._elements.add()
        self._path.append(tag)
        if len(self._path) > DOCUMENT_DEPTH:
            raise TooMuch(f"nests more than {DOCUMENT_DEPTH} elements: save it by FreeCAD again")
        if self._open:
            self._open[-1].children.append(self._node(tag, attributes))
            self._open.append(self._open[-1].children[-1])
            return
        path, name = tuple(self._path), attributes.get("name", "")
        if path == _LISTED:
            self._objects.add()
            self.objects[name] = Kept(name, attributes.get("type", ""))
        elif path == _OWNED:
            self._owner = self.objects.get(name)
        elif path == _HELD and name in _KEPT and self._owner is not None:
            self._owner.properties[name] = self._node(tag, attributes)
            self._open.append(self._owner.properties[name])

    def _end(self, _: str) -> None:
        self._path.pop()
        if self._open:
            self._open.pop()

    def _node(self, tag: str, attributes: dict[str, str]) -> Node:
        self._entries.add()
        return Node(tag, attributes, self.parser.CurrentByteIndex)
