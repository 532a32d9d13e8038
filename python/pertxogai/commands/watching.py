"""The command `watch`: judges a file each time that it is saved."""
from __future__ import annotations

import argparse
import stat
import time
from collections.abc import Callable, Iterator
from dataclasses import dataclass
from pathlib import Path

from pertxogai.commands.judging import judge_file, program_of
from pertxogai.exits import CommandError, Exit
from pertxogai.files.contents import FileRefusal
from pertxogai.files.kinds import InputRefused, check_kind
from pertxogai.files.printable import printable
from pertxogai.judging import TextRefused
from pertxogai.program import ProgramError

PAUSE = 0.2
"""Seconds between two looks at the file."""


@dataclass(frozen=True)
class _Stamp:
    """What tells one saved file from the next: which file it is, its bytes, and when it was
    written, in nanoseconds."""

    inode: int
    size: int
    written_ns: int


def watch_file(options: argparse.Namespace) -> Exit:
    """Prints what `judge` says of a file, now and each time that it is saved, until it is
    interrupted. A file that can't be read, and a program that gives no answer, are told in a line,
    and it goes on. Raises CommandError, InputRefused and MissingProgram for what no save mends."""
    path: Path = options.file
    _check_watched(path)
    program_of(options)
    for _ in saves(path):
        print(time.strftime("%H:%M:%S"), printable(str(path)))
        _judge(path, options)
        print(end="", flush=True)
    return Exit.GOOD


def _check_watched(path: Path) -> None:
    """Raises CommandError where there is no such file, or it is none that a program saves;
    InputRefused where its kind isn't known."""
    try:
        mode = path.stat().st_mode
    except (FileNotFoundError, NotADirectoryError):
        raise CommandError(
            f"{path}: there is no such file: save it once, and watch it then") from None
    except OSError as error:
        raise CommandError(f"{path}: can't be read: {error.strerror or error}") from None
    if stat.S_ISDIR(mode):
        raise CommandError(f"{path}: it is a folder: name one file in it")
    if not stat.S_ISREG(mode):
        raise CommandError(f"{path}: it is a pipe or a device, which isn't saved: name a file")
    check_kind(path)


def saves(path: Path, pause: Callable[[float], object] = time.sleep) -> Iterator[None]:
    """Comes once for the file as it is, and once each time that it was saved since: when two looks
    see the same, so that it isn't half written. While there is no file, it waits."""
    judged: _Stamp | None = None
    before: _Stamp | None = None
    while True:
        now = _stamp(path)
        if now is not None and now == before and now != judged:
            judged = now
            yield
        before = now
        pause(PAUSE)


def _stamp(path: Path) -> _Stamp | None:
    """What the file is now; None where it isn't there."""
    try:
        found = path.stat()
    except OSError:
        return None
    return _Stamp(found.st_ino, found.st_size, found.st_mtime_ns)


def _judge(path: Path, options: argparse.Namespace) -> None:
    """Judges a file once, or tells in a line why it can't be."""
    try:
        judge_file(path, options)
    except TextRefused as refused:
        _tell(f"{path}: {refused.told}")
    except (CommandError, FileRefusal, InputRefused, ProgramError) as error:
        _tell(str(error))


def _tell(line: str) -> None:
    print(printable(" ".join(line.split())))
