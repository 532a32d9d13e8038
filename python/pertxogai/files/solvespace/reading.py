"""The sketches of a SolveSpace file, as drawings."""

from __future__ import annotations

from dataclasses import dataclass, field
from pathlib import Path

from pertxogai.files.builder import DrawingBuilder
from pertxogai.files.contents import (
    FileRefusal, FileSketch, NotDriving, NotDrivingCause, NotSayable)
from pertxogai.files.limits import SKETCH_ENTRIES, Count, TooMuch
from pertxogai.files.solvespace.adding import Handles
from pertxogai.files.solvespace.constraints import (
    COMMENT, DIMENSIONS, Kind, Plane, Said, Touch, name_of, say)
from pertxogai.files.solvespace.records import Record, read_lines, records
from pertxogai.files.solvespace.shapes import Drawn, drawn, shape
from pertxogai.files.solvespace.touches import Entry, said, settled

_PLANE_GROUPS = (5000, 5001)
_REFERENCES = 1
_GROUND = 0x00010001
_OWN_PLANE = 0x80000000
"""What the handle of a group's own plane has above the group's number."""
_BY_POINT = 6000
"""The kind of a group's plane that is turned as `predef.q` says."""
_COUNTED = {"Group": "groups", "Request": "shapes", "Constraint": "constraints"}


@dataclass
class Contents:
    """The records of a file by their kinds, in order; requests and constraints by the handles of
    their groups, numbers by their own."""

    groups: list[Record] = field(default_factory=list)
    requests: dict[int, list[Record]] = field(default_factory=dict)
    constraints: dict[int, list[Record]] = field(default_factory=dict)
    numbers: dict[int, float] = field(default_factory=dict)

    def take(self, record: Record) -> None:
        """Takes a record. Raises Unsaid where a number of it is none."""
        match record.word:
            case "Group":
                self.groups.append(record)
            case "Request":
                self.requests.setdefault(record.handle("group.v"), []).append(record)
            case "Constraint":
                self.constraints.setdefault(record.handle("group.v"), []).append(record)
            case "Param":
                self.numbers[record.handle("h.v")] = record.number("val")


def read_solvespace(path: Path) -> tuple[FileSketch, ...]:
    """Every sketch of a `.slvs` file that is drawn in a plane, in the file's order. Raises
    FileRefusal if the file can't be read, isn't a SolveSpace file, or has no sketch."""
    contents = contents_of(path, read_lines(path))
    found = tuple(_sketch(group, contents) for group in sketch_groups(contents))
    if not found:
        raise FileRefusal(f"{path}: no sketch in a plane in it: draw one by SolveSpace, and save")
    return found


def contents_of(path: Path, lines: list[bytes]) -> Contents:
    """The records of the lines; raises FileRefusal where a number among them is none, or there
    are more of a kind than a sketch may have."""
    contents = Contents()
    counts = {word: Count(what, SKETCH_ENTRIES) for word, what in _COUNTED.items()}
    try:
        for record in records(lines):
            if record.word in counts:
                counts[record.word].add()
            contents.take(record)
    except NotSayable as unsaid:
        raise FileRefusal(f"{path}: no sound SolveSpace file: of a Param {unsaid}") from None
    except TooMuch as much:
        raise FileRefusal(f"{path}: {much}") from None
    return contents


def sketch_groups(contents: Contents) -> list[Record]:
    """The groups in which something is drawn, without that of the reference planes."""
    return [group for group in contents.groups
            if group.whole("type") in _PLANE_GROUPS and group.handle("h.v") != _REFERENCES
            and group.handle("h.v") in contents.requests]


def requests_of(group: Record, contents: Contents) -> list[Record]:
    """What was drawn in a group."""
    return contents.requests.get(group.handle("h.v"), [])


def name_of_group(group: Record) -> str:
    """What the sketch of a group is called: g002."""
    return f"g{group.handle('h.v'):03x}"


def handles_of(group: Record, contents: Contents) -> Handles:
    """SolveSpace's numbers of a sketch."""
    shapes = _shapes(group, contents, DrawingBuilder())
    return Handles(group.handle("h.v"), group.handle("activeWorkplane.v"),
                   {one.name: one for one in shapes}, _is_level(group))


def _sketch(group: Record, contents: Contents) -> FileSketch:
    """The sketch of one group."""
    gathering = DrawingBuilder()
    shapes = _shapes(group, contents, gathering)
    plane = Plane(shapes, _origins(group), _is_level(group))
    entries, aside = _entries(group, contents, plane, gathering)
    kept, refused = settled(entries)
    for entry in kept:
        gathering.add_constraints([said(entry)], entry.name, entry.number)
    for entry in entries:
        if entry.number in refused:
            gathering.leave_out(entry.name, refused[entry.number], entry.number)
    name = name_of_group(group)
    return gathering.found(name, f"{name}-{group.fields.get('name', '')}", aside)


def _shapes(group: Record, contents: Contents, gathering: DrawingBuilder) -> list[Drawn]:
    """What was drawn in a group and can be said."""
    shapes = []
    plane = group.handle("activeWorkplane.v")
    for request in requests_of(group, contents):
        try:
            one = drawn(request)
            if not plane or request.handle("workplane.v") != plane:
                raise NotSayable("it isn't drawn in the plane of its sketch")
        except NotSayable as unsaid:
            gathering.leave_out(f"r{request.handle('h.v'):03x}", str(unsaid))
            continue
        construction = request.whole("construction") == 1
        if gathering.add_shape(shape(one, contents.numbers, construction)):
            shapes.append(one)
    return shapes


def _origins(group: Record) -> frozenset[int]:
    """The handles of the origin of a group's plane: its own, and the file's where that is it."""
    own = group.handle("activeWorkplane.v") | 2
    ground = group.handle("predef.origin.v") == _GROUND
    return frozenset({own, _GROUND} if ground else {own})


def _is_level(group: Record) -> bool:
    """Whether a group's plane is the xy plane."""
    try:
        turned = [group.number(f"predef.q.v{axis}") for axis in "xyz"]
    except NotSayable:
        return False
    own = _OWN_PLANE | group.handle("h.v") << 16
    return (group.whole("subtype") == _BY_POINT and group.handle("activeWorkplane.v") == own
            and group.handle("predef.origin.v") == _GROUND and not any(turned))


def holds_nothing_new(group: Record) -> bool:
    """Whether SolveSpace holds no dimension of a group: it takes them all as references, or relaxes
    all constraints."""
    return group.whole("allDimsReference") == 1 or group.whole("relaxConstraints") == 1


def _apart(record: Record, group: Record) -> NotDrivingCause | None:
    """Why a constraint of a group doesn't drive its sketch; nothing where it does."""
    kind = record.whole("type")
    if record.whole("reference") == 1 or (
            kind in DIMENSIONS and group.whole("allDimsReference") == 1):
        return NotDrivingCause.REFERENCE
    if kind != Kind.PTS_COINCIDENT and group.whole("relaxConstraints") == 1:
        return NotDrivingCause.OFF
    return None


def _told(record: Record, group: Record, plane: Plane, gathering: DrawingBuilder) -> Said:
    """What a constraint of a group says. Raises Unsaid."""
    if record.handle("workplane.v") not in (0, group.handle("activeWorkplane.v")):
        raise NotSayable("it belongs to another plane than its sketch")
    return say(record, plane, gathering.is_left)


def _entries(group: Record, contents: Contents, plane: Plane, gathering: DrawingBuilder
             ) -> tuple[list[Entry], list[NotDriving]]:
    """What the constraints of a group say, and those that only measure."""
    entries: list[Entry] = []
    aside: list[NotDriving] = []
    for record in contents.constraints.get(group.handle("h.v"), []):
        if record.whole("type") == COMMENT:
            continue
        number, name, why = record.handle("h.v"), name_of(record), _apart(record, group)
        try:
            told = _told(record, group, plane, gathering)
        except NotSayable as unsaid:
            told = None
            if why is None:
                gathering.leave_out(name, str(unsaid), number)
        if why is not None:
            kept = () if told is None or isinstance(told, Touch) else (told,)
            aside.append(NotDriving(number, name, why, kept))
        elif told is not None:
            entries.append(Entry(number, name, told))
    return entries, aside
