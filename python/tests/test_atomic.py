"""What becomes of the thing that an output names: a file, a link, a pipe."""
from __future__ import annotations

import os
import stat
from pathlib import Path

import pytest

from pertxogai.files.atomic import written_whole
from pertxogai.files.contents import FileRefusal


@pytest.fixture
def given(tmp_path: Path) -> Path:
    """The file that is read."""
    path = tmp_path / "given"
    path.write_bytes(b"given")
    return path


def write(out: Path, given: Path) -> None:
    with written_whole(out, given) as stream:
        stream.write(b"made")


def test_a_pipe_stays_and_is_written_to(tmp_path: Path, given: Path) -> None:
    """So does /dev/null, in whose place a file would stand for everyone."""
    pipe = tmp_path / "pipe"
    os.mkfifo(pipe)
    held = os.open(pipe, os.O_RDWR | os.O_NONBLOCK)  # Waits for no other end.
    try:
        write(pipe, given)
        assert stat.S_ISFIFO(pipe.stat().st_mode) and os.read(held, 9) == b"made"
    finally:
        os.close(held)


def test_a_link_stays_and_its_file_is_replaced(tmp_path: Path, given: Path) -> None:
    link, far = tmp_path / "link", tmp_path / "far"
    link.symlink_to(far)
    for old in (None, b"old"):
        if old is not None:
            far.write_bytes(old)
        write(link, given)
        assert link.is_symlink() and far.read_bytes() == b"made" and not far.is_symlink()
    assert sorted(it.name for it in tmp_path.iterdir()) == ["far", "given", "link"]


def test_a_link_to_what_is_read_is_not_written_over(tmp_path: Path, given: Path) -> None:
    link = tmp_path / "link"
    link.symlink_to(given)
    with pytest.raises(FileRefusal, match="isn't written over"):
        write(link, given)
    assert given.read_bytes() == b"given"


@pytest.mark.parametrize("name", [".", "no/folder"])
def test_what_cannot_be_written_is_refused(name: str, tmp_path: Path, given: Path) -> None:
    with pytest.raises(FileRefusal, match="can't be written"):
        write(tmp_path / name, given)
    assert [it.name for it in tmp_path.iterdir()] == ["given"]


def test_an_error_leaves_what_stood_there(tmp_path: Path, given: Path) -> None:
    out = tmp_path / "out"
    out.write_bytes(b"old")
    with pytest.raises(ZeroDivisionError), written_whole(out, given) as stream:
        stream.write(b"half")
        raise ZeroDivisionError
    assert out.read_bytes() == b"old"
    assert sorted(it.name for it in tmp_path.iterdir()) == ["given", "out"]
