"""The table of verdicts of a family: a line for each variant, printed, or kept in a folder and gone
on with there."""
from __future__ import annotations

import csv
import io
import json
import sys
from collections.abc import Iterable, Iterator, Mapping, Sequence
from contextlib import contextmanager
from dataclasses import asdict, dataclass
from pathlib import Path
from typing import TextIO

from pertxogai.commands.variants import NAME, Variant
from pertxogai.exits import CommandError, Exit
from pertxogai.files.atomic import written_whole

TOLD = ("verdict", "good", "fault", "look")
"""The columns behind a variant's own."""
VERDICTS, BEGUN = "verdicts.csv", "family.json"
"""The files of a folder: the table of verdicts, and what it was begun with."""

_ENDS = {"refused": Exit.BAD_INPUT, "no answer": Exit.NO_ANSWER}
"""How the command ends on what has no verdict of the program's."""


@dataclass(frozen=True)
class Told:
    """What becomes of a variant: how the command on it alone would end, and its verdict, whether it
    is good, the first fault, and what lies otherwise than it is drawn."""

    variant: Variant
    exit: Exit
    verdict: str
    fault: str
    look: str = ""

    def cells(self) -> tuple[str, ...]:
        """Its line of the table."""
        good = "yes" if self.exit is Exit.GOOD else "no"
        return (self.variant.name, *self.variant.cells, self.verdict, good, self.fault, self.look)


@dataclass(frozen=True)
class Begun:
    """What a folder is begun with: a digest of the drawing and of what its file has besides, the
    columns, and the words."""

    drawing: str
    columns: tuple[str, ...]
    within: int
    svg: bool
    dxf: bool
    copy: bool

    @property
    def header(self) -> tuple[str, ...]:
        """The first line of the table of verdicts."""
        return (NAME, *self.columns, *TOLD)

    def text(self) -> str:
        """The file that keeps it."""
        return json.dumps(asdict(self))


@dataclass(frozen=True)
class Verdicts:
    """Where the table goes, and what stands there already, by the names of the variants."""

    sink: TextIO
    done: Mapping[str, Told]

    def add(self, told: Told) -> None:
        """Writes a line."""
        csv.writer(self.sink, lineterminator="\n").writerow(told.cells())
        self.sink.flush()

    def left(self, variant: Variant) -> bool:
        """Whether a variant isn't told yet. Raises CommandError where it is with other values."""
        told = self.done.get(variant.name)
        if told is not None and told.variant != variant:
            raise CommandError(f"the variant {variant.name!r} stands in {VERDICTS} with other "
                               "values: call it otherwise, or take another folder")
        return told is None


@contextmanager
def verdicts(folder: Path | None, begun: Begun) -> Iterator[Verdicts]:
    """The table of verdicts in a folder, or printed. Raises CommandError where the folder was begun
    with something else, and it or FileRefusal where it can't be written."""
    if folder is None:
        csv.writer(sys.stdout, lineterminator="\n").writerow(begun.header)
        yield Verdicts(sys.stdout, {})
        return
    done = _standing(folder, begun)
    stream = _opened(folder / VERDICTS, [begun.header, *(each.cells() for each in done.values())])
    with stream:
        yield Verdicts(stream, done)


def _standing(folder: Path, begun: Begun) -> dict[str, Told]:
    """What stands in a folder, without what had no answer, which is tried again."""
    try:
        folder.mkdir(parents=True, exist_ok=True)
        _check_begun(folder / BEGUN, begun)
        found = list(_told(_whole_lines(folder / VERDICTS), begun.header))
        _begin(folder / BEGUN, begun)
        return {each.variant.name: each for each in found if each.exit is not Exit.NO_ANSWER}
    except OSError as error:
        raise CommandError(f"{folder}: can't be written: {error.strerror or error}") from None
    except (ValueError, csv.Error):
        raise CommandError(f"{folder / VERDICTS} is no table of verdicts: take another "
                           "folder") from None


def _opened(path: Path, rows: Iterable[Sequence[str]]) -> TextIO:
    """A table with some rows, to add to; it stands whole, however the command is stopped."""
    text = io.StringIO(newline="")
    csv.writer(text, lineterminator="\n").writerows(rows)
    with written_whole(path, path.parent) as file:
        file.write(text.getvalue().encode("utf-8"))
    try:
        return open(path, "a", encoding="utf-8", newline="")
    except OSError as error:
        raise CommandError(f"{path}: can't be written: {error.strerror or error}") from None


def _check_begun(path: Path, begun: Begun) -> None:
    """Raises CommandError where a folder was begun with another drawing or other options."""
    if path.exists() and path.read_text("utf-8", "replace") != begun.text():
        raise CommandError(f"{path.parent} was begun with another drawing, columns or options: "
                           "take another folder")


def _begin(path: Path, begun: Begun) -> None:
    """Keeps what a folder is begun with."""
    if not path.exists():
        with written_whole(path, path.parent) as file:
            file.write(begun.text().encode("ascii"))


def _whole_lines(path: Path) -> str:
    """What stands in a table up to its last whole line; nothing where there is none."""
    try:
        text = path.read_bytes()
    except FileNotFoundError:
        return ""
    return text[:text.rfind(b"\n") + 1].decode("utf-8")


def _told(text: str, header: Sequence[str]) -> Iterator[Told]:
    """The lines of a table, behind its header. Raises ValueError where it has another, or a line
    isn't whole."""
    rows = list(csv.reader(io.StringIO(text), strict=True))
    if rows and rows[0] != list(header):
        raise ValueError(f"a table with other columns: {rows[0]}")
    for name, *cells in rows[1:]:
        given, (verdict, good, fault, look) = cells[:-len(TOLD)], cells[-len(TOLD):]
        if len(cells) != len(header) - 1:
            raise ValueError(f"a line that isn't whole: {name}")
        ends = Exit.GOOD if good == "yes" else _ENDS.get(verdict, Exit.NOT_GOOD)
        yield Told(Variant(name, tuple(given)), ends, verdict, fault, look)
