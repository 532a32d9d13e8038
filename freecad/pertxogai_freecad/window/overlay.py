"""What is drawn over a sketch, in the window's own scene: a step of a construction, or the rigid
clusters. The document has nothing of it."""
from __future__ import annotations

import math
from collections.abc import Iterable, Mapping, Sequence
from contextlib import suppress
from typing import Any

import FreeCAD
import FreeCADGui
from pivy import coin

from pertxogai.output.construction import Locus, LocusLine
from pertxogai_freecad.constructing import Step
from pertxogai_freecad.freecad_types import OwnSketch
from pertxogai_freecad.trouble import Trouble
from pertxogai_freecad.window.colours import Colour

STANDING, LOCI, MADE = (0.0, 0.62, 0.45), (0.34, 0.71, 0.91), (0.84, 0.37, 0.0)
"""The colours of the shapes that stand, of where what is made may lie, and of what is made."""
Spot = tuple[float, float]
"""A place in the sketch, in millimetres."""
CORNERS = 48
"""Into how many pieces a curve is cut to be shown."""
DASHES = 0x0F0F
LEAST_REACH_MM = 1.0
"""How long a line without ends is shown at least, as where there is a single point."""
LIFT_MM = 0.01
"""How far all of it lies above the sketch, so that it is seen."""


class Overlay:
    """What is drawn over one sketch."""

    def __init__(self, sketch: OwnSketch) -> None:
        """Raises Trouble where the view in front shows no shapes, as that of a spreadsheet."""
        self._sketch = sketch
        self._root = coin.SoSeparator()
        view = FreeCADGui.getDocument(sketch.Document.Name).ActiveView
        if not hasattr(view, "getSceneGraph"):
            raise Trouble("the document's 3D view isn't in front: choose its tab, and ask again")
        self._scene = view.getSceneGraph()
        self._scene.addChild(self._root)

    def show(self, step: Step) -> None:
        """Shows a step alone."""
        self._begin()
        reach = self._reach()
        standing = [self._polyline(each) for each in sorted(step.shapes)]
        self._root.addChild(_lines(standing, STANDING, 4))
        self._root.addChild(_lines([_locus(each, reach) for each in step.loci], LOCI, 2, DASHES))
        if step.at is not None:
            self._root.addChild(_point(step.at))

    def show_coloured(self, colours: Mapping[int, Colour]) -> None:
        """Shows shapes in colours, by FreeCAD's numbers of them."""
        self._begin()
        for colour in dict.fromkeys(colours.values()):
            shapes = [self._polyline(index) for index, of in colours.items() if of == colour]
            self._root.addChild(_lines(shapes, colour, 4))

    def _begin(self) -> None:
        """Shows nothing, where the sketch lies."""
        self._root.removeAllChildren()
        self._root.addChild(_placed(self._sketch))

    def remove(self) -> None:
        """Takes all of it out of the scene, unless the view is gone."""
        with suppress(ReferenceError, RuntimeError):
            self._root.removeAllChildren()
            self._scene.removeChild(self._root)

    def _polyline(self, index: int) -> list[Spot]:
        curve = self._sketch.Geometry[index]
        if curve.TypeId == "Part::GeomPoint":
            return []
        return [(each.x, each.y) for each in curve.toShape().discretize(CORNERS)]

    def _reach(self) -> float:
        """How long a line without ends is shown, in millimetres. The sketch's own Shape has no
        construction geometry, and nothing of what FreeCAD's solver doesn't solve."""
        box = FreeCAD.BoundBox()
        for each in self._sketch.Geometry:
            box.add(each.toShape().BoundBox)
        return max(float(box.DiagonalLength), LEAST_REACH_MM) if box.isValid() else LEAST_REACH_MM


def _placed(sketch: OwnSketch) -> Any:
    """Where the sketch lies in the document."""
    matrix = sketch.getGlobalPlacement().toMatrix()
    found = coin.SoMatrixTransform()
    columns = [matrix.A[place::4] for place in range(4)]
    found.matrix.setValue(*(value for column in columns for value in column))
    return found


def _locus(each: Locus, reach: float) -> list[Spot]:
    if isinstance(each, LocusLine):
        (x, y), (u, v) = each.through, each.way
        return [(x - reach * u, y - reach * v), (x + reach * u, y + reach * v)]
    turns = (2 * math.pi * corner / CORNERS for corner in range(CORNERS + 1))
    (x, y), radius = each.centre, each.radius
    return [(x + radius * math.cos(turn), y + radius * math.sin(turn)) for turn in turns]


def _lines(lines: Sequence[list[Spot]], colour: Sequence[float], width: int,
           pattern: int = 0xFFFF) -> Any:
    """Lines of one colour, as a node of the scene."""
    style, places, set_of = coin.SoDrawStyle(), coin.SoCoordinate3(), coin.SoLineSet()
    style.lineWidth, style.linePattern = width, pattern
    there = [each for each in lines if len(each) > 1]
    spots = [(x, y, LIFT_MM) for each in there for x, y in each]
    places.point.setValues(0, len(spots), spots)
    set_of.numVertices.setValues(0, len(there), [len(each) for each in there])
    return _node((_colour(colour), style, places, set_of) if there else ())


def _point(at: Spot) -> Any:
    """A point that is made, as a node of the scene."""
    style, places = coin.SoDrawStyle(), coin.SoCoordinate3()
    style.pointSize = 10
    places.point.setValues(0, 1, [(*at, LIFT_MM)])
    return _node((_colour(MADE), style, places, coin.SoPointSet()))


def _colour(colour: Sequence[float]) -> Any:
    found = coin.SoBaseColor()
    found.rgb = tuple(colour)
    return found


def _node(parts: Iterable[Any]) -> Any:
    found = coin.SoSeparator()
    light = coin.SoLightModel()
    light.model = coin.SoLightModel.BASE_COLOR
    found.addChild(light)
    for each in parts:
        found.addChild(each)
    return found
