"""What is used of FreeCAD's objects, for the checker of types: FreeCAD has no types of its own."""
from __future__ import annotations

from collections.abc import Sequence
from typing import Any, Protocol


class OwnConstraint(Protocol):
    """A constraint of the Sketcher. Name: empty where it has none of its own. Content: all of it,
    as FreeCAD stores it."""

    Name: str
    Content: str


class OwnCurve(Protocol):
    """A shape of the Sketcher. Content: all of it, as FreeCAD stores it."""

    TypeId: str
    Content: str

    def toShape(self) -> Any: ...


class OwnDocument(Protocol):
    """A document. FileName: its file, empty where it was never saved. UndoMode: 1 where it keeps
    what can be undone, else 0."""

    Name: str
    Label: str
    FileName: str
    Objects: Sequence[Any]
    UndoMode: int

    def saveCopy(self, path: str) -> object: ...
    def openTransaction(self, name: str) -> object: ...
    def commitTransaction(self) -> object: ...
    def abortTransaction(self) -> object: ...
    def recompute(self) -> object: ...


class OwnSketch(Protocol):
    """A sketch of a document."""

    Name: str
    Label: str
    TypeId: str
    Document: OwnDocument
    Geometry: Sequence[Any]
    ExternalGeometry: Sequence[tuple[Any, Sequence[str]]]
    ExpressionEngine: Sequence[tuple[str, str]]
    Constraints: Sequence[OwnConstraint]
    Shape: Any
    ViewObject: Any

    def getGlobalPlacement(self) -> Any: ...
    def addConstraint(self, added: Any) -> Any: ...
    def delConstraint(self, index: int) -> object: ...
    def getConstruction(self, index: int) -> bool: ...
    def setConstruction(self, index: int, is_construction: bool) -> object: ...
