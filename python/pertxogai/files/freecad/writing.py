"""Placed coordinates, and constraints that are added, written into a copy of a FreeCAD file.

The numbers of the sketch's own shapes change, and its list of constraints grows at its end, in
`Document.xml`; every other byte of that and every other member of the zip stays as it is. FreeCAD
finds the edges anew when it recomputes.
"""

from __future__ import annotations

import copy
import math
import re
from collections.abc import Iterator, Mapping, Sequence
from decimal import Decimal
from fractions import Fraction
from itertools import repeat
from pathlib import Path
from types import MappingProxyType
from typing import IO
from zipfile import ZipFile

from pertxogai.drawing import Arc, Circle, Point, PointRef, Segment, Shape, Which
from pertxogai.files.atomic import written_whole
from pertxogai.files.contents import Addition, FileRefusal
from pertxogai.files.freecad.adding import addition_tag
from pertxogai.files.freecad.archive import DOCUMENT, open_archive, pieces_of, read_member
from pertxogai.files.freecad.expressions import bound_places, unread_uses
from pertxogai.files.freecad.markup import Kept, Node
from pertxogai.files.freecad.reading import SKETCHES, label_of, objects_of, read_freecad
from pertxogai.files.freecad.shapes import body_of, params_of, read_shapes
from pertxogai.files.variants import Changed, changes
from pertxogai.judging.good import GoodJudgement
from pertxogai.judging.measure import Solution
from pertxogai.judging.measure.upright import upright

MOST_WRITTEN = 1 << 30
"""The most bytes, unpacked, of a file that is copied."""

_TAG = re.compile(rb"<(?:[^\"'>]|\"[^\"]*\"|'[^']*')*>")
_LIST_END = b"</ConstraintList>"
_NM_PER_MM = 10 ** 6
_DIGITS = 16

Written = dict[str, str]
"""New values of attributes by their names."""


def write_freecad(path: Path, out: Path, good: Mapping[str, GoodJudgement]) -> None:
    """Copies a file to `out`, with the shapes of each named sketch at the positions of its good
    judgement. Raises FileRefusal if the file can't be read or copied, or if `out` is the file."""
    write_places(path, out, {name: each.solution for name, each in good.items()})


def write_places(path: Path, out: Path, solutions: Mapping[str, Solution]) -> None:
    """Copies a file to `out` with the shapes of each sketch that is named where its solution has
    them. A shape of which a point or the radius wasn't placed stays as it is.

    Raises FileRefusal where the file can't be read or copied, and where `out` is the file.
    """
    _write(path, out, solutions, {})


def write_additions(path: Path, out: Path, additions: Mapping[str, Addition]) -> None:
    """Copies a file to `out` with constraints more in each sketch that is named, and its shapes
    where they lie with these. Raises FileRefusal as `write_places`."""
    _write(path, out, {name: each.solution for name, each in additions.items()}, additions)


def write_variants(path: Path, out: Path, good: Mapping[str, GoodJudgement]) -> None:
    """Copies a file to `out` with the values of the dimensions of each sketch that is named as the
    drawing of its judgement has them, which was made of the file's, and its shapes where that is
    placed. Raises FileRefusal as `write_places`, and where an expression that isn't read would set
    a value back."""
    changed = {each.name: tuple(changes(each, good[each.name].drawing))
               for each in read_freecad(path) if each.name in good}
    _write(path, out, {name: each.solution for name, each in good.items()}, {}, changed)


def _write(path: Path, out: Path, solutions: Mapping[str, Solution],
           additions: Mapping[str, Addition],
           changed: Mapping[str, Sequence[Changed]] = MappingProxyType({})) -> None:
    with open_archive(path) as archive:
        document = read_member(path, archive, DOCUMENT)
        if sum(info.file_size for info in archive.infolist()) > MOST_WRITTEN:
            raise FileRefusal(f"{path}: has more than {MOST_WRITTEN >> 30} GB: too much to copy")
        anew = _with_changes(path, document, solutions, additions, changed)
        with written_whole(out, path) as stream:
            _copy(path, archive, stream, anew)


def _with_changes(path: Path, document: bytes, solutions: Mapping[str, Solution],
                  additions: Mapping[str, Addition],
                  changed: Mapping[str, Sequence[Changed]]) -> bytes:
    """The document with the shapes of the named sketches placed anew, with other values, and with
    what is added."""
    edits: dict[int, Written] = {}
    lists: dict[int, bytes] = {}
    for kept in objects_of(path, document):
        if kept.kind in SKETCHES and kept.name in solutions:
            edits.update(_edits(kept, upright(solutions[kept.name])))
            edits.update(_dimensions(path, kept, changed.get(kept.name, ())))
        if kept.kind in SKETCHES and kept.name in additions:
            begin, count = _list_of_constraints(path, kept)
            addition = additions[kept.name]
            edits[begin] = {"count": str(count + len(addition.added))}
            lists[begin] = b"".join(map(addition_tag, repeat(addition.drawing), addition.added))
    pieces, done = [], 0
    for begin, values in sorted(edits.items()):
        tag = _TAG.match(document, begin)
        if tag is None:
            raise _written_otherwise(path)
        pieces += [document[done:begin], _rewritten(tag.group(), values)]
        done = tag.end()
        if begin in lists:
            pieces[-1], end = _open_tag(path, pieces[-1], document, done)
            pieces += [document[done:end], lists[begin], _LIST_END]
            done = end + len(_LIST_END) * document.startswith(_LIST_END, end)
    return b"".join([*pieces, document[done:]])


def _list_of_constraints(path: Path, kept: Kept) -> tuple[int, int]:
    """The byte where a sketch's list of constraints begins, and how many there are."""
    held = kept.properties.get("Constraints")
    if held is None or not held.children:
        raise _written_otherwise(path)
    return held.children[0].begin, len(held.children[0].children)


def _open_tag(path: Path, tag: bytes, document: bytes, done: int) -> tuple[bytes, int]:
    """A list's tag that has an end, and the byte where its entries end."""
    if tag.endswith(b"/>"):
        return tag[:-2].rstrip() + b">", done
    end = document.find(_LIST_END, done)
    if end < 0:
        raise _written_otherwise(path)
    return tag, end


def _written_otherwise(path: Path) -> FileRefusal:
    return FileRefusal(f"{path}: its {DOCUMENT} is written otherwise than FreeCAD does")


def _edits(kept: Kept, solution: Solution) -> dict[int, Written]:
    """For each tag of a sketch that changes, by the byte where it begins, its new values."""
    nodes = kept.list_of("Geometry")
    edits = {}
    for one in read_shapes(nodes)[0]:
        if one.shape is not None:
            body = body_of(nodes[one.number])
            values = _values(one.shape, body, solution)
            if values is not None:
                edits[body.begin] = values
    return edits


def _dimensions(path: Path, kept: Kept,
                changed: Sequence[Changed]) -> Iterator[tuple[int, Written]]:
    """For each dimension with another value, the byte where its tag begins, and that value. Raises
    FileRefusal where an expression that the drawing hasn't would set it back, or would give another
    dimension another value too."""
    nodes, bound = kept.list_of("Constraints"), bound_places(kept) if changed else frozenset()
    behind = unread_uses(kept, label_of(kept)) if changed else {}
    for each in changed:
        node, more = nodes[each.number - 1], float(each.new - each.old)
        if each.number in bound and not each.follows:
            name = node.get("Name", "") or f"constraint {each.number}"
            raise FileRefusal(f"{path}: FreeCAD sets {name} by an expression that isn't read, so "
                              "no copy has another value: change it there")
        if (named := node.get("Name", "")) in behind:
            raise FileRefusal(f"{path}: FreeCAD sets {behind[named]} by an expression that uses "
                              f"{named} and isn't read, so no copy has another value: change it "
                              "there")
        value = float(node.get("Value", "0")) + (math.radians(more) if each.is_angle else more)
        yield node.begin, {"Value": f"{value:.{_DIGITS}f}"}


def _values(shape: Shape, body: Node, solution: Solution) -> Written | None:
    """The new values of a shape; nothing where it wasn't placed whole."""
    try:
        match shape:
            case Point(name):
                return _spot(solution, name, Which.AT, "")
            case Segment(name):
                return (_spot(solution, name, Which.START, "Start")
                        | _spot(solution, name, Which.END, "End"))
            case Circle(name):
                return (_spot(solution, name, Which.CENTRE, "Center")
                        | {"Radius": _mm(Fraction(solution.radii[name]))})
            case Arc(name):
                return (_spot(solution, name, Which.CENTRE, "Center")
                        | {"Radius": _mm(Fraction(solution.radii[name]))}
                        | _ends(solution, name, body))
    except KeyError:
        return None


def _spot(solution: Solution, name: str, which: Which, word: str) -> Written:
    """The values of a point; KeyError where it wasn't placed."""
    x, y = solution.points[PointRef(name, which)]
    return {word + "X": _mm(Fraction(x)), word + "Y": _mm(Fraction(y))}


def _ends(solution: Solution, name: str, body: Node) -> Written:
    """The angles of an arc's ends."""
    centre = solution.points[PointRef(name, Which.CENTRE)]
    start, end = (solution.points[PointRef(name, which)] for which in (Which.START, Which.END))
    first, last = params_of(body, _angle(centre, start), _angle(centre, end))
    return {"StartAngle": f"{first:.{_DIGITS}f}", "EndAngle": f"{last:.{_DIGITS}f}"}


def _angle(centre: tuple[int | Fraction, int | Fraction],
           end: tuple[int | Fraction, int | Fraction]) -> float:
    """The angle of the way from a centre to an end, in radians."""
    return math.atan2(end[1] - centre[1], end[0] - centre[0])


def _mm(value_nm: Fraction) -> str:
    """Millimetres of nanometres, with as many digits as FreeCAD writes."""
    exact = Decimal(value_nm.numerator) / Decimal(value_nm.denominator * _NM_PER_MM)
    return f"{exact:.{_DIGITS}f}"


def _rewritten(tag: bytes, values: Written) -> bytes:
    """A tag with new values of some of its attributes."""
    for name, value in values.items():
        tag = re.sub(rb"(\s" + name.encode("ascii") + rb"\s*=\s*[\"'])[^\"']*",
                     rb"\g<1>" + value.encode("ascii"), tag, count=1)
    return tag


def _copy(path: Path, archive: ZipFile, stream: IO[bytes], document: bytes) -> None:
    """Writes a zip with the members of another, and the document anew."""
    with ZipFile(stream, "w") as written:
        written.comment = archive.comment
        for info in archive.infolist():
            kept = copy.copy(info)
            if info.filename == DOCUMENT:
                written.writestr(kept, document, info.compress_type)
                continue
            with written.open(kept, "w") as sink:
                for piece in pieces_of(path, archive, info):
                    sink.write(piece)
