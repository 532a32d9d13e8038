"""What `dxf` answers: the same places as `solve`, as entities with ends."""
from __future__ import annotations

from dataclasses import dataclass

from pertxogai.program.reports.rows import Rows, whole

_HEAD = "0", "SECTION", "2", "ENTITIES"
_TAIL = "ENDSEC", "0", "EOF"
_CODE = "(0|8|10|20|11|21|40)"
_KIND = "(POINT|LINE|CIRCLE)"
_LAYER = "0"
_NUMBER = r"(-?)(0|[1-9][0-9]*)\.([0-9]{6})"


@dataclass(frozen=True)
class PointEntity:
    """A POINT at (x_nm, y_nm)."""

    x_nm: int
    y_nm: int


@dataclass(frozen=True)
class LineEntity:
    """A LINE between two points, in nanometres."""

    x1_nm: int
    y1_nm: int
    x2_nm: int
    y2_nm: int


@dataclass(frozen=True)
class CircleEntity:
    """A CIRCLE around (x_nm, y_nm)."""

    x_nm: int
    y_nm: int
    radius_nm: int


Entity = PointEntity | LineEntity | CircleEntity
"""The DXF entity of an element: coordinates in nanometres."""
_CODES = {"POINT": (10, 20), "LINE": (10, 20, 11, 21), "CIRCLE": (10, 20, 40)}


def read_dxf(text: str) -> tuple[Entity, ...]:
    """Reads the report of `dxf`: the entities in the order of the elements. Raises NotAReport."""
    entities: list[Entity] = []
    with whole(text, "dxf") as rows:
        for form in _HEAD:
            rows.take(form)
        _take_code(rows, 0)
        while found := rows.take_if(_KIND):
            entities.append(_entity(rows, found[1]))
            _take_code(rows, 0)
        for form in _TAIL:
            rows.take(form)
    return tuple(entities)


def write_dxf(entities: tuple[Entity, ...]) -> str:
    """The report as the program writes it."""
    lines = ["0", "SECTION", "2", "ENTITIES"]
    for entity in entities:
        kind = type(entity).__name__.removesuffix("Entity").upper()
        lines += ["0", kind, "8", "0"]
        for code, nm in zip(_CODES[kind], vars(entity).values()):
            lines += [str(code), _mm_of(nm)]
    return "\n".join([*lines, "0", "ENDSEC", "0", "EOF", ""])


def _entity(rows: Rows, kind: str) -> Entity:
    _take_code(rows, 8)
    rows.take(_LAYER)
    numbers = []
    for code in _CODES[kind]:
        _take_code(rows, code)
        numbers.append(_nm(rows))
    if kind == "POINT":
        return PointEntity(numbers[0], numbers[1])
    if kind == "CIRCLE":
        return CircleEntity(numbers[0], numbers[1], numbers[2])
    return LineEntity(numbers[0], numbers[1], numbers[2], numbers[3])


def _take_code(rows: Rows, code: int) -> None:
    rows.claim(rows.take(_CODE)[1] == str(code))


def _nm(rows: Rows) -> int:
    found = rows.take(_NUMBER)
    nm = int(found[2] + found[3])
    rows.claim(nm > 0 or not found[1])
    return -nm if found[1] else nm


def _mm_of(nm: int) -> str:
    whole_mm, rest = divmod(abs(nm), 1_000_000)
    return f"{'-' if nm < 0 else ''}{whole_mm}.{rest:06}"
