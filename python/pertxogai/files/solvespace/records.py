"""The text of a SolveSpace file as records: each a few fields, a line each, and an `Add` line."""

from __future__ import annotations

import math
from collections.abc import Iterator
from dataclasses import dataclass
from fractions import Fraction
from pathlib import Path

from pertxogai.drawing import um_of_mm
from pertxogai.files.contents import FileRefusal, NotSayable
from pertxogai.files.limits import SOLVESPACE_BYTES, SOLVESPACE_LINES, read_bytes

MAGIC = b"\xb1\xb2\xb3SolveSpaceREVa"
"""The first line of a file."""

_DIGITS = 9


@dataclass(frozen=True)
class Record:
    """A record: its word (`Group`, `Param`, `Request`, `Constraint`), its fields by name, and
    the number of its `Add` line among the lines of the file, from 0."""

    word: str
    fields: dict[str, str]
    added: int

    def handle(self, name: str) -> int:
        """A handle among the fields; 0 where it isn't there or is none."""
        text = self.fields.get(name, "0")
        return int(text, 16) if text.isalnum() and _is_hexadecimal(text) else 0

    def whole(self, name: str) -> int:
        """A whole number among the fields, 0 where it isn't there or is none."""
        text = self.fields.get(name, "0")
        return int(text) if text.isdecimal() and len(text) < 10 else 0

    def number(self, name: str) -> float:
        """A finite number among the fields, 0 where it isn't there. Raises Unsaid."""
        try:
            value = float(self.fields.get(name, "0"))
        except ValueError:
            value = math.nan
        if not math.isfinite(value):
            raise NotSayable(f"its {name} is no number")
        return value


def read_lines(path: Path) -> list[bytes]:
    """The lines of a file, without their line feeds. Raises FileRefusal where it can't be read,
    is too long, or is none of SolveSpace's."""
    try:
        data = read_bytes(path, SOLVESPACE_BYTES)
    except OSError as error:
        raise FileRefusal(f"{path}: can't be read: {error.strerror or error}") from None
    if not data.startswith(MAGIC):
        raise FileRefusal(f"{path}: no SolveSpace file: save it by SolveSpace 3 as .slvs")
    if data.count(b"\n") > SOLVESPACE_LINES:
        raise FileRefusal(f"{path}: has more than {SOLVESPACE_LINES} lines: take a part of it")
    return data.split(b"\n")


def records(lines: list[bytes]) -> Iterator[Record]:
    """The records among the lines, in order; whatever else stands there is passed over."""
    fields: dict[str, str] = {}
    for count, line in enumerate(lines):
        text = line.decode("utf-8", "replace").rstrip("\r")
        if text.startswith("Add"):
            yield Record(text[3:], fields, count)
            fields = {}
            continue
        name, equals, value = text.partition("=")
        if equals:
            fields[name.partition(".")[2].rstrip(".")] = value


def length_um(millimetres: float) -> Fraction:
    """Micrometres of a stored length, read to 10⁻⁹ mm: SolveSpace stores what its solver found,
    so 60 may stand as 59.99999999999999."""
    return um_of_mm(round(millimetres, _DIGITS))


def _is_hexadecimal(text: str) -> bool:
    return len(text) <= 8 and all(letter in "0123456789abcdefABCDEF" for letter in text)
