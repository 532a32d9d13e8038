"""A file that is written whole or not at all, and never over the one that was read."""

from __future__ import annotations

import os
from collections.abc import Iterator
from contextlib import contextmanager
from io import BytesIO
from pathlib import Path
from typing import IO

from pertxogai.files.contents import FileRefusal


@contextmanager
def written_whole(out: Path, given: Path) -> Iterator[IO[bytes]]:
    """A stream whose bytes become the file `out` once the block is left without an error. Behind a
    link it is the file that the link leads to. A device or a pipe, such as /dev/null, stays what it
    is, and is written to.

    Raises FileRefusal where `out` is the file `given`, by whatever name, or can't be written;
    nothing is left behind then.
    """
    if out.exists() and given.exists() and out.samefile(given):
        raise FileRefusal(f"{out}: is the file that is read, and isn't written over: name another")
    try:
        with _adding(out) if _stays(out) else _replacing(Path(os.path.realpath(out))) as stream:
            yield stream
    except OSError as error:
        raise FileRefusal(f"{out}: can't be written: {error.strerror or error}") from None


@contextmanager
def _replacing(out: Path) -> Iterator[IO[bytes]]:
    """A stream whose bytes become a file in the place of the one that stands there. Raises
    OSError."""
    from tempfile import NamedTemporaryFile  # What is only read imports no such thing.

    half: Path | None = None
    try:
        with NamedTemporaryFile(dir=out.parent, prefix=".pertxogai-", delete=False) as stream:
            half = Path(stream.name)
            yield stream
        half.chmod(0o666 & ~_umask())
        half.replace(out)
        half = None
    finally:
        if half is not None:
            half.unlink(missing_ok=True)


def _stays(out: Path) -> bool:
    """Whether nothing may take the place of it: a device, a pipe, or a link of the system's own,
    such as /dev/stdout, also where that leads to a file."""
    if out.is_symlink() and Path(os.path.realpath(out.parent)).parts[1:2] in (("dev",), ("proc",)):
        return True
    return out.exists() and not (out.is_file() or out.is_dir())


@contextmanager
def _adding(out: Path) -> Iterator[IO[bytes]]:
    """A stream whose bytes are written to a device or a pipe, behind what is there. Raises
    OSError."""
    stream = BytesIO()
    yield stream
    with open(out, "ab") as sink:
        sink.write(stream.getvalue())


def _umask() -> int:
    """The mask of permissions, which can only be read by setting it."""
    mask = os.umask(0)
    os.umask(mask)
    return mask
