"""The variants of a family: a table of comma-separated values, a line for each."""
from __future__ import annotations

import csv
import re
from collections.abc import Iterable, Iterator, Mapping, Sequence
from dataclasses import dataclass, replace

from pertxogai.drawing import (
    VALUED, AngleBetween, Constraint, Drawing, DrawingUnsound, Expression, Value, WordFault,
    XDistance, YDistance)
from pertxogai.drawing.constraint_checks import check_constraint
from pertxogai.drawing.numbers import read_length, read_written_angle
from pertxogai.drawing.values.lines import check_untoleranced, read_value_expression
from pertxogai.drawing.values.reckoning import reckoned
from pertxogai.drawing.values.table import Values
from pertxogai.exits import CommandError

NAME = "name"
"""The column of the variants' own names; without it they are called 1, 2, .."""
_FILE_NAME = re.compile(r"[\w-][\w .+-]{0,79}\Z")


@dataclass(frozen=True)
class Variant:
    """A line of the table: what it is called, and what stands in each column, with single
    blanks."""

    name: str
    cells: tuple[str, ...]


@dataclass(frozen=True)
class Part:
    """The `number`-th of `count` shares of a table, each with every `count`-th line."""

    number: int = 1
    count: int = 1

    def has(self, place: int) -> bool:
        """Whether the line of this place, from 0, is in it."""
        return place % self.count == self.number - 1


@dataclass(frozen=True)
class Table:
    """The columns of a table, each a value or a named dimension, and its variants."""

    columns: tuple[str, ...]
    variants: Iterator[Variant]

    @staticmethod
    def of(lines: Iterable[str], drawing: Drawing, part: Part = Part()) -> Table:
        """The table of some lines, the first of them its header. Raises CommandError, also while
        the variants are read."""
        rows = csv.reader(lines, strict=True)
        try:
            header = [" ".join(cell.split()) for cell in next(rows, [])]
        except csv.Error as error:
            raise CommandError(f"the table can't be read: {error}") from None
        has_names = header[:1] == [NAME]
        columns = tuple(header[has_names:])
        _check_columns(drawing, columns)
        return Table(columns, _variants(rows, len(header), has_names, part))


def _variants(rows: Iterator[list[str]], width: int, has_names: bool,
              part: Part) -> Iterator[Variant]:
    names: set[str] = set()
    place = 0
    try:
        for row in rows:
            cells = [" ".join(cell.split()) for cell in row]
            if not any(cells):
                continue
            name = cells[0] if has_names else str(place + 1)
            _check_row(name, cells, width, names)
            names.add(name)
            if part.has(place):
                yield Variant(name, tuple(cells[has_names:]))
            place += 1
    except csv.Error as error:
        raise CommandError(f"the table can't be read: {error}") from None


def _check_row(name: str, cells: Sequence[str], width: int, names: set[str]) -> None:
    if len(cells) != width:
        count = f"{len(cells)} cell{'s' if len(cells) != 1 else ''}"
        raise CommandError(f"the variant {name!r} has {count}, and the table {width} columns")
    if not _FILE_NAME.match(name):
        raise CommandError(f"{name!r} is no name of a variant: write letters, digits and blanks, "
                           "since its files are called so")
    if name in names:
        raise CommandError(f"two variants are called {name!r}: give each its own name")


def _check_columns(drawing: Drawing, columns: Sequence[str]) -> None:
    values, named = [each.name for each in drawing.values], _named(drawing)
    known = [*values, *named]
    for column in columns:
        if column in values and column in named:
            raise CommandError(f"the column {column!r} names a value and a dimension of the "
                               "drawing: give the dimension another name")
        if column not in known:
            raise CommandError(f"the column {column!r} is no value and no named dimension of the "
                               f"drawing: it has {', '.join(known) or 'none'}")
    if not columns:
        raise CommandError("the table has no columns: write the names of values in its first line")
    if len(set(columns)) < len(columns):
        raise CommandError("two columns of the table have one name")


def _named(drawing: Drawing) -> dict[str, int]:
    """The places, from 0, of the dimensions that have names, but for those that are told by the
    value of their own name, as FreeCAD's named constraints are."""
    return {each.name: place for place, each in enumerate(drawing.constraints)
            if each.name is not None and isinstance(each, VALUED)
            and (each.expression is None or not _is_own(each.expression, each.name))}


def _is_own(expression: Expression, name: str) -> bool:
    """Whether an expression is the value of a name, or that of an angle by half turns more or
    less."""
    told = rf"\+?{re.escape(name)}|\+?\({re.escape(name)} [-+] (?:180|360)deg\)"
    return re.fullmatch(told, expression.text) is not None


def drawing_of(drawing: Drawing, columns: Sequence[str], variant: Variant) -> Drawing:
    """The drawing of a variant. An empty cell leaves what the drawing has. Raises
    DrawingUnsound."""
    given = {column: cell for column, cell in zip(columns, variant.cells) if cell}
    places = _named(drawing)
    try:
        values = tuple(_valued(each, given) for each in drawing.values)
        table, said = Values(values), list(drawing.constraints)
        for column in filter(places.__contains__, given):  # The first faulty cell is named.
            told = _told(said[places[column]], given[column], table)
            check_constraint(drawing.scene, told)
            said[places[column]] = told
    except WordFault as fault:
        raise DrawingUnsound(f"variant {variant.name}", fault.word, fault.what) from None
    return reckoned(drawing.with_numbers(tuple(said), values))


def _valued(value: Value, given: Mapping[str, str]) -> Value:
    """A value as its cell has it. Raises WordFault."""
    if value.name not in given:
        return value
    return replace(value, expression=read_value_expression(given[value.name]))


def _told(dimension: Constraint, cell: str, values: Values) -> Constraint:
    """A dimension as its cell has it, with who says its sign, as if that stood in its line. Raises
    WordFault."""
    assert isinstance(dimension, VALUED)
    check_untoleranced(cell)
    if isinstance(dimension, AngleBetween):
        angle = read_written_angle(cell, values)
        return replace(dimension, value=angle.value, sense=angle.sense,
                       expression=angle.expression)
    length = read_length(cell, values)
    told = replace(dimension, value_um=length.value_um, expression=length.expression)
    return replace(told, sense=length.sense) if isinstance(told, XDistance | YDistance) else told
