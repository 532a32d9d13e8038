"""A copy of a drawing's text with more constraints: what stands there stays, byte by byte, and the
new lines stand below it."""
from __future__ import annotations

from collections.abc import Iterable, Mapping
from pathlib import Path

from pertxogai.drawing import DrawingRefusal, line_of, read_drawing
from pertxogai.files.atomic import written_whole
from pertxogai.files.contents import Addition, FileRefusal
from pertxogai.files.limits import TEXT_BYTES, read_bytes


def write_additions(path: Path, out: Path, additions: Mapping[str, Addition]) -> None:
    """Copies the text of a drawing to `out` with the lines of what is added. Raises FileRefusal as
    `written_whole`, and if the text doesn't read as the completed drawing then: it has become too
    long, or was changed meanwhile."""
    (added,) = additions.values()
    try:
        whole = with_lines(read_bytes(path, TEXT_BYTES), map(line_of, added.added))
        is_it = read_drawing(whole.decode("utf-8", "surrogateescape")) == added.drawing
    except OSError as error:
        raise FileRefusal(f"{path}: can't be read: {error.strerror or error}") from None
    except DrawingRefusal as refusal:
        raise FileRefusal(f"{out}: isn't written, since with the new lines {refusal}") from None
    if not is_it:
        raise FileRefusal(f"{path}: was changed meanwhile, so {out} isn't written: try again")
    with written_whole(out, path) as stream:
        stream.write(whole)


def with_lines(text: bytes, lines: Iterable[str]) -> bytes:
    """The text of a drawing with more lines below it: every byte stays, and the new lines end as
    the first one does."""
    end = b"\r\n" if text.partition(b"\n")[0].endswith(b"\r") else b"\n"
    if not text.endswith(b"\n"):
        text += b"\n" if text.endswith(b"\r") else end
    return text + b"".join(line.encode("utf-8", "surrogateescape") + end for line in lines)
