"""Placed coordinates, and constraints that are added, written into a new SolveSpace file.

The numbers (`Param`) of the sketch's points and radii change, and new records follow the last
constraint; everything else stays as it is. SolveSpace makes its entities of these numbers when it
opens the file.
"""

from __future__ import annotations

from collections.abc import Iterator, Mapping
from decimal import Decimal
from fractions import Fraction
from pathlib import Path
from types import MappingProxyType

from pertxogai.files.atomic import written_whole
from pertxogai.files.contents import Addition, FileRefusal, NotSayable
from pertxogai.files.solvespace.adding import Handles, addition_lines
from pertxogai.files.solvespace.reading import (
    Contents, contents_of, handles_of, holds_nothing_new, name_of_group, read_solvespace,
    requests_of, sketch_groups)
from pertxogai.files.solvespace.records import Record, read_lines, records
from pertxogai.files.solvespace.shapes import Request, drawn
from pertxogai.files.variants import Changed, changes
from pertxogai.judging.good import GoodJudgement
from pertxogai.judging.measure import Number, Solution
from pertxogai.judging.measure.upright import upright

_NM_PER_MM = 10 ** 6
_DIGITS = 20
_VALUE, _LENGTH = b"Param.val=", b"Constraint.valA="


def write_solvespace(path: Path, out: Path, good: Mapping[str, GoodJudgement]) -> None:
    """Copies a file to `out`, with the numbers of each named sketch from its good judgement. Raises
    FileRefusal if the file can't be read or written, or if `out` is the file."""
    write_places(path, out, {name: each.solution for name, each in good.items()})


def write_places(path: Path, out: Path, solutions: Mapping[str, Solution]) -> None:
    """Copies a file to `out` with the numbers of each sketch that is named where its solution
    has them; what wasn't placed stays as it is.

    Raises FileRefusal where the file can't be read or written, and where `out` is the file.
    """
    _write(path, out, solutions, {})


def write_additions(path: Path, out: Path, additions: Mapping[str, Addition]) -> None:
    """Copies a file to `out` with constraints more in each sketch that is named, and its numbers
    as they are with these. Raises FileRefusal as `write_places`, and where SolveSpace has no such
    constraint."""
    _write(path, out, {name: each.solution for name, each in additions.items()}, additions)


def write_variants(path: Path, out: Path, good: Mapping[str, GoodJudgement]) -> None:
    """Copies a file to `out` with the values of the dimensions of each sketch that is named as the
    drawing of its judgement has them, which was made of the file's, and its numbers where that is
    placed. Raises FileRefusal as `write_places`."""
    changed = {each.number: each for sketch in read_solvespace(path) if sketch.name in good
               for each in changes(sketch, good[sketch.name].drawing)}
    _write(path, out, {name: each.solution for name, each in good.items()}, {}, changed)


def _write(path: Path, out: Path, solutions: Mapping[str, Solution],
           additions: Mapping[str, Addition],
           changed: Mapping[int, Changed] = MappingProxyType({})) -> None:
    lines = read_lines(path)
    contents = contents_of(path, lines)
    values: dict[int, str] = {}
    added = list[bytes]()
    number = _last_number(contents)
    for group in sketch_groups(contents):
        name = name_of_group(group)
        if name in solutions:
            values.update(_values(requests_of(group, contents), upright(solutions[name])))
        if name in additions:
            if holds_nothing_new(group):
                raise FileRefusal(
                    f"{path}: {name}: SolveSpace takes all its dimensions as references, or relaxes"
                    " its constraints, so nothing that is added would hold: change that there")
            added += _new_records(path, additions[name], handles_of(group, contents), number)
            number += len(additions[name].added)
    end = _end_of_constraints(lines)
    kept = _dimensions(list(_rewritten(lines[:end], values)), changed)
    with written_whole(out, path) as stream:
        stream.write(b"\n".join([*kept, *added, *lines[end:]]))


def _dimensions(lines: list[bytes], changed: Mapping[int, Changed]) -> Iterator[bytes]:
    """The lines with other values of some constraints."""
    new: dict[int, bytes] = {}
    begin = 0
    for record in records(lines):
        if record.word == "Constraint" and record.handle("h.v") in changed:
            value = _told(record, changed[record.handle("h.v")])
            new |= {place: _LENGTH + value.encode("ascii") for place in range(begin, record.added)
                    if lines[place].startswith(_LENGTH)}
        begin = record.added
    for place, line in enumerate(lines):
        yield new.get(place, line)


def _told(record: Record, changed: Changed) -> str:
    """A value as SolveSpace has it: an angle without a sign, of the first line turned round where
    `other` is set; a length with the sign of the side that it was told with."""
    if changed.is_angle:
        size = abs(changed.new)
        return f"{float(180 - size if record.whole('other') else size):.{_DIGITS}f}"
    is_turned = (changed.new < 0) != (changed.old < 0)
    sign = -1 if (record.number("valA") < 0) != is_turned else 1
    return f"{sign * float(abs(changed.new)):.{_DIGITS}f}"


def _new_records(path: Path, addition: Addition, handles: Handles, number: int) -> Iterator[bytes]:
    """The records of what is added, as the constraints behind that number. Raises FileRefusal."""
    try:
        for count, constraint in enumerate(addition.added, number + 1):
            yield from addition_lines(addition.drawing, constraint, handles, count)
    except NotSayable as unsaid:
        raise FileRefusal(f"{path}: {unsaid}: write it as a .drawing") from None


def _last_number(contents: Contents) -> int:
    """The greatest number of a constraint."""
    return max((record.handle("h.v") for group in contents.constraints.values()
                for record in group), default=0)


def _end_of_constraints(lines: list[bytes]) -> int:
    """The line behind the blank one that follows the last constraint, or the last of what comes
    before the constraints."""
    ends = {record.word: record.added + 1 for record in records(lines)}
    end = ends.get("Constraint", max(ends.values(), default=len(lines)))
    return end + (end < len(lines) and not lines[end].strip())


def _values(requests: list[Record], solution: Solution) -> Iterator[tuple[int, str]]:
    """The new numbers of what was drawn, by their handles."""
    for request in requests:
        try:
            one = drawn(request)
        except NotSayable:
            continue
        for ref, handle in one.places().items():
            if ref in solution.points:
                x, y = solution.points[ref]
                yield handle, _mm(x)
                yield handle + 1, _mm(y)
        if one.kind is Request.CIRCLE and one.name in solution.radii:
            yield one.radius(), _mm(solution.radii[one.name])


def _rewritten(lines: list[bytes], values: Mapping[int, str]) -> Iterator[bytes]:
    """The lines with new numbers. A number of 0 has no line of its own in the file."""
    new: dict[int, bytes] = {}
    for record in records(lines):
        if record.word == "Param" and record.handle("h.v") in values:
            new[record.added] = _VALUE + values[record.handle("h.v")].encode("ascii")
    for count, line in enumerate(lines):
        if count + 1 in new and line.startswith(_VALUE):
            continue
        if count in new:
            yield new[count]
        yield line


def _mm(value_nm: Number) -> str:
    """Millimetres of nanometres, with as many digits as SolveSpace writes."""
    exact = Fraction(value_nm)
    return f"{Decimal(exact.numerator) / Decimal(exact.denominator * _NM_PER_MM):.{_DIGITS}f}"
