"""The proved program within this process: libsketch by ctypes, behind the same call as `Program`.
It has no limit of time or memory, and uses the memory of this process. Use it for many calls a
second on sketches that are known to be small, and `Program` for everything else."""
from __future__ import annotations

import ctypes
import ctypes.util
import os
import shutil
from collections.abc import Callable, Sequence
from dataclasses import dataclass, field
from pathlib import Path

from pertxogai.language.encoding import as_bytes
from pertxogai.program.errors import MissingProgram, ProgramCrashed, ProgramSpoke
from pertxogai.program.running import Answer, Program, Solver, Status

VARIABLE = "PERTXOGAI_LIBRARY"
BUILD = Path(__file__).resolve().parents[3] / "c" / "out" / "libsketch.so"
INSTALLED = "libsketch.so.1"
"""The file's name in a release, with the number of the interface that is called here."""
_BYTES, _SIZE = ctypes.c_char_p, ctypes.c_size_t
_Call = Callable[..., int]


@dataclass(frozen=True)
class Library:
    """The library in the file `path`, libsketch.so, which is loaded at once. Any number of threads
    may share one. Raises MissingProgram if the file is no libsketch."""

    path: str
    _call: _Call = field(init=False, repr=False, compare=False)

    def __post_init__(self) -> None:
        object.__setattr__(self, "_call", _call_in(self.path))

    @staticmethod
    def find(path: str | None = None) -> Library:
        """The library at `path`, else the one that the variable PERTXOGAI_LIBRARY names, else
        the repository's own build, else the one that was unpacked with the `sketch` on the path,
        from the tarball or the Debian packages, else the system's libsketch. Raises
        MissingProgram."""
        named = path or os.environ.get(VARIABLE) or _found()
        if named is None:
            raise MissingProgram(f"no library: {_where_to_get_it()}, name one by {VARIABLE}, or "
                                 "use the program")
        return Library(named)

    def ask(self, words: Sequence[str], text: str) -> Answer:
        """Runs a command on the text, as the program does. Other threads run meanwhile. Raises
        ProgramError."""
        command = b" ".join(map(_word, words))
        given = as_bytes(text)
        size = _SIZE()
        room = 4096 + 4 * len(given)
        while True:
            output = ctypes.create_string_buffer(room)
            code = self._call(
                command, len(command), given, len(given), output, room, ctypes.byref(size)
            )
            if size.value <= room:
                return self._answer(code, output.raw[: size.value])
            room = size.value

    def _answer(self, code: int, written: bytes) -> Answer:
        try:
            return Answer(Status(code), written.decode("ascii"))
        except UnicodeDecodeError:
            raise ProgramSpoke(
                f"{self.path} wrote bytes that are no text: is it libsketch?"
            ) from None
        except ValueError:
            raise ProgramCrashed(
                f"{self.path} answered with the status {code}: is it libsketch?"
            ) from None


def _call_in(path: str) -> _Call:
    """The proved call of a library. Raises MissingProgram."""
    try:
        call = ctypes.CDLL(path).sketch_answer
    except (OSError, AttributeError) as error:
        raise MissingProgram(f"{path} is no libsketch: {error}") from None
    call.restype = ctypes.c_int32
    call.argtypes = [_BYTES, _SIZE, _BYTES, _SIZE, _BYTES, _SIZE, ctypes.POINTER(_SIZE)]
    return call


def _found() -> str | None:
    """The library that nobody named."""
    if BUILD.is_file():
        return str(BUILD)
    unpacked = (folder / INSTALLED for folder in _folders())
    return next((str(each) for each in unpacked if each.is_file()),
                None) or ctypes.util.find_library("sketch")


def _folders() -> tuple[Path, ...]:
    """Where the library lies that was unpacked with the `sketch` on the path: the tarball has it
    in `lib` beside `bin`, the Debian packages in a folder of that, which the machine names."""
    program = shutil.which("sketch")
    if program is None:
        return ()
    lib = Path(program).resolve().parent.parent / "lib"
    return lib, lib / f"{os.uname().machine}-linux-gnu"


def _where_to_get_it() -> str:
    """What to do where there is no library: in a clone of the repository, and elsewhere."""
    here = (f"{BUILD} isn't built; build it by c/build" if BUILD.parents[1].is_dir()
            else "install the Debian package libpertxogai-sketch1")
    if folders := " and ".join(map(str, _folders())):
        return (f"{here}, unpack the library of a release with the `sketch` on the path "
                f"({folders} have no {INSTALLED})")
    return f"{here}, put the `sketch` on the path of a release that is unpacked with its library"


def quickest() -> Solver:
    """The library if there is one, else the program. Raises MissingProgram."""
    try:
        return Library.find()
    except MissingProgram:
        return Program.find()


def _word(word: str) -> bytes:
    """The bytes of a word. A command's words stand between spaces, so one with a space, or none
    at all, is handed on as a byte that no word has: it isn't of the form, and the answer is the
    usage line as it is from the program."""
    given = as_bytes(word)
    return b"\xff" if not given or b" " in given else given
