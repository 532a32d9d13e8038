"""How much of a file is read, and why no more.

A reader counts what it reads, while it reads, and refuses a file in one line once there is too
much. The limits are chosen to keep that within 5 seconds and 500 MB. They are some times what
a file has that is drawn by hand; the proved program takes 2,000 points and lines and 4,000
constraints of a sketch.
"""
from __future__ import annotations

from dataclasses import dataclass
from pathlib import Path

from pertxogai.files.contents import FileRefusal

MEBIBYTE = 1 << 20

TEXT_BYTES = MEBIBYTE
"""Of a sketch or a drawing as a text: what the language takes."""

SKETCH_ENTRIES = 8_000
"""Shapes, or constraints, of one sketch: some times what the program takes."""

DOCUMENT_BYTES = 64 * MEBIBYTE
"""Of a FreeCAD document, unpacked: that of a whole machine has some 20 MiB."""
DOCUMENT_ELEMENTS = 1_000_000
"""XML elements of a document: as many as 64 MiB of FreeCAD's have, and expat reads in 3 seconds."""
DOCUMENT_DEPTH = 64
"""XML elements within each other: FreeCAD nests ten."""
DOCUMENT_OBJECTS = 50_000
"""Objects of a document, each of which is kept by its name."""
DOCUMENT_ENTRIES = 150_000
"""XML elements of the sketches that are kept: three sketches as large as may be."""
TAG_BYTES = MEBIBYTE
"""Of one XML tag, which expat hands on whole: with all its attributes it takes 50 times as much."""

ZIP_LIST_BYTES = 4 * MEBIBYTE
"""Of a zip's list of members: some 50,000 of them."""

SOLIDS_BYTES = 16 * MEBIBYTE
"""Of all stored shapes of a file that outer geometry is looked up in."""
SOLIDS_LINES = 500_000
"""Lines of these: each is some words, which are read one by one."""
SOLIDS_PARTS = 50_000
"""Parts of these that are met; a part within parts is met once for each of them, so that a short
text may have more than all machines would count."""

SOLVESPACE_BYTES = 32 * MEBIBYTE
"""Of a SolveSpace file: 1,000,000 of its lines."""
SOLVESPACE_LINES = 1_000_000
"""Lines of a SolveSpace file: a sketch as large as may be has some 400,000."""

DXF_BYTES = 16 * MEBIBYTE
"""Of a DXF file."""
DXF_TAGS = 100_000
"""Pairs of lines of a DXF file, of which ezdxf reads 20,000 a second on a busy processor; 8,000
lines have them."""
BINARY_DXF_BYTES = MEBIBYTE // 2
"""Of a DXF file that is no text: a pair takes four bytes at least."""


class TooMuch(Exception):
    """There is more in a file than is read. The message is a predicate, and says what to do."""


@dataclass
class Count:
    """Counts what is read of something."""

    what: str
    most: int
    so_far: int = 0

    def add(self, more: int = 1) -> None:
        """Counts some more. Raises TooMuch."""
        self.so_far += more
        if self.so_far > self.most:
            raise TooMuch(f"has more than {self.most} {self.what}: take a part of it")


def read_bytes(path: Path, most: int) -> bytes:
    """The bytes of a file, of which no more are read than may be. Raises FileRefusal where there
    are more, and OSError."""
    with open(path, "rb") as source:
        data = source.read(most + 1)
    if len(data) > most:
        raise FileRefusal(f"{path}: has more than {told_bytes(most)}, which no sketch needs: look "
                          "whether it is the right file")
    return data


def told_bytes(count: int) -> str:
    """A number of bytes, to be read."""
    return f"{count / MEBIBYTE:g} MiB"
