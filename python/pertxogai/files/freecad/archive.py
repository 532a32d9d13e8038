"""The zip that a FreeCAD file is, opened with care: nothing of it is unpacked onto the disk."""

from __future__ import annotations

import struct
import zipfile
import zlib
from collections.abc import Iterator
from contextlib import ExitStack, contextmanager
from io import FileIO
from pathlib import Path, PurePosixPath
from zipfile import ZipFile, ZipInfo

from pertxogai.files.contents import FileRefusal
from pertxogai.files.limits import DOCUMENT_BYTES, ZIP_LIST_BYTES, told_bytes

DOCUMENT = "Document.xml"
"""The member that has the sketches."""

PIECE = 1 << 20
"""How many bytes are unpacked at once."""

_DAMAGED = (zipfile.BadZipFile, zlib.error, struct.error, EOFError, ValueError, OverflowError,
            NotImplementedError, RuntimeError)


class _Guarded(FileIO):
    """A file of which no more is read at once than the list of members may have."""

    def read(self, size: int | None = -1, /) -> bytes:
        """The next bytes. Raises BadZipFile where too many are asked for."""
        if size is not None and size > ZIP_LIST_BYTES:
            raise zipfile.BadZipFile("too long a list of members")
        return super().read(-1 if size is None else size) or b""


@contextmanager
def open_archive(path: Path) -> Iterator[ZipFile]:
    """The zip of a file, of whatever size. Raises FileRefusal where the file can't be read, is no
    zip or a damaged one, or names a member twice or one that leads out of the zip."""
    with ExitStack() as opened:
        with _refusing_in_one_line(path):
            archive = opened.enter_context(ZipFile(opened.enter_context(_Guarded(path))))
        _check_names(path, archive)
        yield archive


def read_member(path: Path, archive: ZipFile, name: str) -> bytes:
    """The bytes of a member. Raises FileRefusal where there is none of the name, it is packed
    otherwise than FreeCAD does, or has more than `DOCUMENT_BYTES` unpacked, counted while it
    is read."""
    data = bytearray()
    for piece in read_pieces(path, archive, name):
        data += piece
        if len(data) > DOCUMENT_BYTES:
            raise FileRefusal(f"{path}: {name} has more than {told_bytes(DOCUMENT_BYTES)}: save the"
                              " sketch in a file of its own")
    return bytes(data)


def read_pieces(path: Path, archive: ZipFile, name: str) -> Iterator[bytes]:
    """The bytes of the member of that name, some at a time. Raises FileRefusal as `pieces_of`,
    and where there is none of the name."""
    try:
        info = archive.getinfo(name)
    except KeyError:
        raise FileRefusal(f"{path}: no FreeCAD file: it has no {name}") from None
    yield from pieces_of(path, archive, info)


def pieces_of(path: Path, archive: ZipFile, info: ZipInfo) -> Iterator[bytes]:
    """The bytes of a member, some at a time. Raises FileRefusal where they can't be read, or are
    packed otherwise than FreeCAD does."""
    if info.compress_type not in (zipfile.ZIP_STORED, zipfile.ZIP_DEFLATED) or info.flag_bits & 1:
        raise FileRefusal(f"{path}: {info.filename!a:.60} is packed or locked otherwise than"
                          " FreeCAD does: save it by FreeCAD again")
    with _refusing_in_one_line(path), archive.open(info) as member:
        while piece := member.read(PIECE):
            yield piece


@contextmanager
def _refusing_in_one_line(path: Path) -> Iterator[None]:
    """Tells in one line what may go wrong while a zip is read. Raises FileRefusal."""
    try:
        yield
    except OSError as error:
        raise FileRefusal(f"{path}: can't be read: {error.strerror or error}") from None
    except _DAMAGED:
        raise FileRefusal(f"{path}: no sound zip, which a FreeCAD file is: save it by FreeCAD again"
                          ) from None


def _check_names(path: Path, archive: ZipFile) -> None:
    """Refuses a name that comes twice or leads out of the zip."""
    names = [info.filename for info in archive.infolist()]
    if len(set(names)) < len(names):
        raise FileRefusal(f"{path}: no FreeCAD file: it has two members of one name")
    for info in archive.infolist():
        if _leads_out(info):
            raise FileRefusal(f"{path}: no FreeCAD file: a member leads out of it: "
                              f"{info.filename!a:.60}")


def _leads_out(info: ZipInfo) -> bool:
    """Whether a member's name is absolute, names a drive or steps upwards."""
    name = PurePosixPath(info.orig_filename.replace("\\", "/"))
    return name.is_absolute() or ".." in name.parts or ":" in info.orig_filename
