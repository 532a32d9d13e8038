"""The entities of a DXF file that a drawing has: lines, arcs, circles, polylines, points.

They are read by ezdxf, which Debian has as python3-ezdxf.
"""

from __future__ import annotations

import logging
import math
from collections.abc import Iterable, Iterator
from dataclasses import dataclass
from fractions import Fraction
from pathlib import Path
from typing import Any

from pertxogai.drawing import Arc, Circle, Place, Point, Segment, Shape, um_of_mm
from pertxogai.files.contents import FileRefusal, NotSayable
from pertxogai.files.limits import (
    BINARY_DXF_BYTES, DXF_BYTES, DXF_TAGS, SKETCH_ENTRIES, Count, TooMuch, read_bytes)

_DIGITS = 9
_FLAT = 1e-9
"""What is off the plane by no more lies in it: the height of a line's end above its other end, and
a part of a direction."""
_MM_OF_UNIT = {0: Fraction(1), 1: Fraction(254, 10), 2: Fraction(3048, 10), 4: Fraction(1),
               5: Fraction(10), 6: Fraction(1000), 13: Fraction(1, 1000), 14: Fraction(100)}
_NO_DXF = "it is no DXF file: save it as DXF"
_BINARY = b"AutoCAD Binary DXF"
_POLYLINES = frozenset({"LWPOLYLINE", "POLYLINE"})


@dataclass(frozen=True)
class Entity:
    """What was read of an entity: its shape, or why it is left out."""

    name: str
    shape: Shape | None
    why: str = ""


def read_entities(path: Path) -> list[Entity]:
    """The entities of a file's model space, in order. Raises FileRefusal."""
    try:
        import ezdxf  # noqa: F401
    except ImportError:
        raise FileRefusal("a DXF file is read by ezdxf: install Debian's python3-ezdxf") from None
    try:
        return list(_entities(path))
    except OSError as error:
        raise FileRefusal(f"{path}: can't be read: {error.strerror or _NO_DXF}") from None
    except TooMuch as much:
        raise FileRefusal(f"{path}: {much}") from None
    except FileRefusal:
        raise
    except Exception:  # At numbers and words that it doesn't expect, ezdxf raises whatever comes.
        raise FileRefusal(f"{path}: no sound DXF file: save it as DXF again") from None


def _entities(path: Path) -> Iterator[Entity]:
    """The entities as ezdxf reads them. Raises FileRefusal, TooMuch, and what ezdxf raises."""
    import ezdxf

    _hush()
    data = _read_within_limits(path)
    document = ezdxf.readfile(path)  # type: ignore[attr-defined]
    unit = int(document.header.get("$INSUNITS", 0)) if b"$INSUNITS" in data else 0
    if unit not in _MM_OF_UNIT:
        raise FileRefusal(f"{path}: its unit, number {unit} of DXF, isn't known here: save it in "
                          "millimetres")
    reader, count = _Reader(_MM_OF_UNIT[unit]), Count("shapes", SKETCH_ENTRIES)
    for entity in document.modelspace():
        for piece in _pieces(entity):
            count.add()
            yield reader.read(piece)


def _read_within_limits(path: Path) -> bytes:
    """The bytes of a file that isn't too long for ezdxf, which reads it once more. A file that
    doesn't tell its unit is one of millimetres, where ezdxf takes metres."""
    data = read_bytes(path, DXF_BYTES)
    if data.startswith(_BINARY):
        Count("bytes", BINARY_DXF_BYTES).add(len(data))
    else:
        Count("pairs of lines", DXF_TAGS).add(max(data.count(b"\n"), data.count(b"\r")) // 2)
    return data


def _pieces(entity: Any) -> Iterable[Any]:
    """What an entity is drawn of: a polyline of a plane of lines and arcs, others of themselves."""
    if entity.dxftype() in _POLYLINES and _is_flat(entity):
        return entity.virtual_entities()  # type: ignore[no-any-return]
    return (entity,)


def _hush() -> None:
    """Keeps ezdxf's own notes on a file off the terminal: what matters is told here."""
    notes = logging.getLogger("ezdxf")
    if not notes.handlers:
        notes.addHandler(logging.NullHandler())


def _is_flat(entity: Any) -> bool:
    """Whether a polyline is one of a plane, and no mesh or way through space."""
    return entity.dxftype() == "LWPOLYLINE" or bool(entity.is_2d_polyline)


class _Reader:
    """Reads entities and names them by kind and number from 1: Line1, Arc2."""

    def __init__(self, mm_of_unit: Fraction) -> None:
        self._mm_of_unit = mm_of_unit
        self._count = 0

    def read(self, entity: Any) -> Entity:
        """One entity."""
        self._count += 1
        kind = entity.dxftype()
        name = f"{kind.capitalize()}{self._count}"
        try:
            return Entity(name, self._shape(kind, name, entity))
        except NotSayable as unsaid:
            return Entity(name, None, str(unsaid))

    def _shape(self, kind: str, name: str, entity: Any) -> Shape:
        match kind:
            case "LINE":
                return self._segment(name, entity.dxf.start, entity.dxf.end)
            case "POINT":
                return Point(name, self._place(entity.dxf.location))
            case "CIRCLE":
                return Circle(name, self._centre(entity), self._um(entity.dxf.radius))
            case "ARC":
                ends = [self._place(entity.start_point), self._place(entity.end_point)]
                if entity.dxf.extrusion.z < 0:
                    ends.reverse()
                return Arc(name, self._centre(entity), ends[0], ends[1])
        raise NotSayable(f"a drawing has no {kind}")

    def _segment(self, name: str, start: Any, end: Any) -> Segment:
        """A line, which may lie above or below the plane."""
        if not abs(end.z - start.z) <= _FLAT:
            raise NotSayable("it is tilted out of the plane")
        return Segment(name, self._place(start), self._place(end))

    def _centre(self, entity: Any) -> Place:
        """The centre of a circle or an arc, which may be seen from behind."""
        turned = entity.dxf.extrusion
        if abs(turned.x) > _FLAT or abs(turned.y) > _FLAT:
            raise NotSayable("it is tilted out of the plane")
        return self._place(entity.ocs().to_wcs(entity.dxf.center))

    def _place(self, vector: Any) -> Place:
        return Place(self._um(vector.x), self._um(vector.y))

    def _um(self, value: float) -> Fraction:
        """Micrometres of a number of the file, read to 10⁻⁹ of its unit."""
        if not math.isfinite(value):
            raise NotSayable("one of its numbers is none")
        return um_of_mm(round(value, _DIGITS)) * self._mm_of_unit
