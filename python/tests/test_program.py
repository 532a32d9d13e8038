"""The program: how it is found, its statuses, and what is said where it gives no answer."""
from __future__ import annotations

import math
import os
import stat
import subprocess
import sys
import time
from collections.abc import Callable
from concurrent.futures import ThreadPoolExecutor
from dataclasses import replace
from pathlib import Path

import pytest

from conftest import EXCERPTS, EXCESS_ROWS, FRAME_ROWS, LARGE_ROWS, NEW_ROWS, ROWS, Row
from pertxogai.program import (
    Answer, MissingProgram, Program, ProgramCrashed, ProgramError, ProgramSpoke, ProgramTimedOut,
    Solver, Status)
from pertxogai.program.library import BUILD, Library, quickest
from pertxogai.program.process import seconds_of_runs
from pertxogai.program.reports import NotAReport, read_answer
from pertxogai.program.running import BUILD as PROGRAM

TRIANGLE = (
    "sketch 1\npoint A 0 0\npoint B 4 0\npoint C 4 3\n"
    "distance A B 4\ndistance A C 5\ndistance B C 3\nend\n"
)


def script(folder: Path, body: str) -> str:
    """A stand-in for the program."""
    path = folder / "sketch"
    path.write_text("#!/bin/sh\n" + body)
    path.chmod(path.stat().st_mode | stat.S_IXUSR)
    return str(path)


@pytest.mark.parametrize("row", ROWS, ids=lambda row: row.name)
def test_a_row_is_answered(row: Row, program) -> None:
    assert program.ask(row.words, row.text) == row.answer


@pytest.mark.parametrize("row", LARGE_ROWS, ids=lambda row: row.name)
def test_a_large_row_is_answered(row: Row, program) -> None:
    if Path(program.path) != PROGRAM:
        pytest.skip("only the repository's build is quick enough for it")
    assert program.ask(row.words, row.text) == row.answer


@pytest.mark.parametrize("row", EXCERPTS, ids=lambda row: row.name)
def test_an_excerpt_is_in_the_answer(row: Row, program) -> None:
    answer = program.ask(row.words, row.text)
    lines = iter(answer.text.splitlines())
    assert answer.status is row.answer.status
    assert all(line in lines for line in row.answer.text.splitlines())
    read_answer(row.words, answer)


@pytest.mark.parametrize("row", FRAME_ROWS, ids=lambda row: row.name)
def test_a_row_of_the_drawn_frame_is_answered(row: Row, program) -> None:
    assert program.ask(row.words, row.text) == row.answer


@pytest.mark.parametrize("row", EXCESS_ROWS, ids=lambda row: row.name)
def test_a_row_of_what_is_too_much_is_answered(row: Row, program) -> None:
    assert program.ask(row.words, row.text) == row.answer


@pytest.mark.parametrize("row", NEW_ROWS, ids=lambda row: f"{row.words[0]}-{row.name}")
def test_a_row_of_a_new_command_is_answered(row: Row, program) -> None:
    assert program.ask(row.words, row.text) == row.answer


SESSIONS = [row for row in ROWS if row.words[0] == "session"]


@pytest.mark.parametrize("row", SESSIONS, ids=lambda row: row.name)
def test_a_session_is_answered_alike_line_by_line(row: Row, program) -> None:
    assert program.ask(["live", *row.words[1:]], row.text) == row.answer
    behind = row.text.rstrip("\n") + "\nend\nundo\n"
    assert program.ask(["live", *row.words[1:]], behind) == row.answer


@pytest.mark.parametrize("command", ["check", "session"])
def test_a_text_that_is_too_long(command: str, program) -> None:
    answer = program.ask([command], " " * 1_048_577)
    assert answer == Answer(Status.REFUSED, "refused line 0 E20 too-long\n")


@pytest.fixture(scope="session")
def built_library() -> Library:
    """The library under test: that of PERTXOGAI_LIBRARY, or the repository's build."""
    if not os.environ.get("PERTXOGAI_LIBRARY") and not BUILD.is_file():
        pytest.skip("no libsketch.so is built: c/build makes it")
    return Library.find()


@pytest.mark.parametrize(
    "row", ROWS + LARGE_ROWS + EXCESS_ROWS + NEW_ROWS, ids=lambda row: row.name
)
def test_the_library_answers_a_row_alike(row: Row, built_library: Library) -> None:
    assert built_library.ask(row.words, row.text) == row.answer


@pytest.mark.parametrize("status", list(Status), ids=lambda it: it.name)
def test_each_status_is_handed_on(status: Status, tmp_path) -> None:
    answer = Program(script(tmp_path, f"cat; exit {status.value}")).ask(["check"], "some\ntext\n")
    assert answer == Answer(status, "some\ntext\n")


def test_words_and_text_go_in(tmp_path) -> None:
    answer = Program(script(tmp_path, 'echo "$#" "$@"; wc -c')).ask(
        ["solve", "bits=27", "a b", ""], "x" * 300_000
    )
    assert answer.text.split("\n")[:2] == ["4 solve bits=27 a b ", "300000"]


@pytest.mark.parametrize(
    "words, text, status",
    [
        (["check"], TRIANGLE, Status.DONE),
        (["check"], "", Status.REFUSED),
        (["check", "x"], TRIANGLE, Status.USAGE),
        ([], TRIANGLE, Status.USAGE),
        (["plan"], "sketch 1\npoint A 0 0\npoint B 0 1\nend\n", Status.NOT_WELL),
        (["solve"], TRIANGLE.replace("A C 5", "A C 9"), Status.FAULT),
        (["verify"], TRIANGLE + "tolerance 0 0\n", Status.CLAIM_FAILS),
        (["check"], "\udcff\u20ac", Status.REFUSED),
        (["check"], "\ud800", Status.REFUSED),
    ],
)
def test_statuses_of_the_program_itself(words, text: str, status: Status, program) -> None:
    answer = program.ask(words, text)
    assert answer.status is status
    read_answer(words, answer)


def answers_of_threads(solver: Solver) -> list[str]:
    """The places of the far end of edges of 1 mm to 64 mm, which eight threads ask the same solver for at once."""
    texts = [f"sketch 1\npoint A 0 0\npoint B 1 0\ndistance A B {it}\nend\n" for it in range(1, 65)]
    with ThreadPoolExecutor(8) as threads:
        answers = threads.map(lambda text: solver.ask(["solve"], text).text, texts)
        return [answer.splitlines()[4] for answer in answers]


def test_threads_may_share_a_program(program) -> None:
    assert answers_of_threads(program) == [f"point B {it}000000 0" for it in range(1, 65)]


def test_a_library_is_made_by_its_path_and_loaded_at_once(built_library: Library) -> None:
    made = Library(built_library.path)
    assert made == built_library
    assert made.ask(["check"], "sketch 1\npoint A 0 0\nend\n").status is Status.DONE
    with pytest.raises(MissingProgram, match="is no libsketch"):
        Library(__file__)


def test_threads_may_share_a_library(built_library: Library) -> None:
    assert answers_of_threads(built_library) == [f"point B {it}000000 0" for it in range(1, 65)]


def refused(kind: type[ProgramError], program: Program, *inside: str) -> None:
    with pytest.raises(kind) as error:
        program.ask(["check"], TRIANGLE)
    message = str(error.value)
    assert "\n" not in message and all(it in message for it in inside), message


def test_a_program_that_crashes(tmp_path) -> None:
    refused(
        ProgramCrashed,
        Program(script(tmp_path, "echo 'out of luck' >&2; kill -SEGV $$")),
        "signal 11",
        "out of luck",
    )
    refused(ProgramCrashed, Program(script(tmp_path, "exit 77")), "status 77")


def test_a_program_that_hangs(tmp_path) -> None:
    begin = time.monotonic()
    refused(
        ProgramTimedOut,
        Program(script(tmp_path, f"(sleep 3; touch {tmp_path}/left) & wait"), seconds=0.3),
        "0.3 s",
    )
    refused(
        ProgramTimedOut,
        Program(script(tmp_path, "exec sleep 30"), seconds=0.3),
        "0.3 s",
        "more seconds",
    )
    refused(
        ProgramTimedOut,
        Program(script(tmp_path, "exec >&- 2>&-; exec sleep 30"), seconds=0.3),
        "0.3 s",
    )
    time.sleep(2.6)
    assert not (tmp_path / "left").exists()  # what it started was stopped too
    assert time.monotonic() - begin < 20


@pytest.mark.parametrize("seconds", [3e6, 1e300, math.inf])
def test_a_limit_of_time_may_be_as_long_as_one_likes(program: Program, seconds: float) -> None:
    answer = replace(program, seconds=seconds).ask(["check"], TRIANGLE)
    assert answer.status is Status.DONE


BUSY = "import time\nwhile time.process_time() < 0.3: pass"


def test_the_runs_of_a_thread_are_timed_and_nothing_else_that_ends_meanwhile(tmp_path) -> None:
    other = subprocess.Popen([sys.executable, "-c", BUSY])
    begun = seconds_of_runs()
    other.wait()
    assert seconds_of_runs() == begun
    busy = Program(script(tmp_path, f"exec {sys.executable} -c '{BUSY}'"))
    busy.ask(["check"], "")
    assert seconds_of_runs() >= begun + 0.3
    with ThreadPoolExecutor(1) as elsewhere:
        assert elsewhere.submit(seconds_of_runs).result() == 0.0


def test_a_run_that_is_stopped_is_timed_too(tmp_path) -> None:
    begun = seconds_of_runs()
    endless = Program(script(tmp_path, "while :; do :; done"), seconds=1)
    refused(ProgramTimedOut, endless, "1 s")
    assert seconds_of_runs() > begun


def test_a_program_that_reads_nothing(tmp_path) -> None:
    program = Program(script(tmp_path, "exec <&-; echo done"))
    assert program.ask(["check"], "x" * 1_000_000).text == "done\n"


def test_a_program_that_floods(tmp_path) -> None:
    refused(ProgramSpoke, Program(script(tmp_path, "exec yes"), seconds=30), "64 MiB")


def test_a_program_that_prints_rubbish(tmp_path) -> None:
    refused(ProgramSpoke, Program(script(tmp_path, r"printf '\377\376'")), "no text")
    for words in (
        "check",
        "plan",
        "solve",
        "dxf",
        "spare",
        "excess",
        "why",
        "complete",
        "measure",
        "parts",
        "derive",
        "grow",
        "verify",
        "migrate",
        "session",
        "live",
    ):
        answer = Program(script(tmp_path, "echo verdict maybe")).ask([words], TRIANGLE)
        with pytest.raises(NotAReport):
            read_answer([words], answer)


def test_a_program_that_wants_much_memory(tmp_path) -> None:
    greedy = script(tmp_path, "exec tail -c 2000000000 /dev/zero")
    with pytest.raises(ProgramError):
        Program(greedy, seconds=20, memory_mib=64).ask(["check"], TRIANGLE)


def test_a_lower_limit_of_memory_is_kept(tmp_path) -> None:
    """A shell that allows less than the package asks for: `ulimit -v`, which no call may raise."""
    telling = script(tmp_path, "cat; ulimit -v")  # the limit stands before the text comes to its end
    limited = ("ulimit -v 1000000; exec /usr/bin/python3 -c 'from pertxogai.program.process import *;"
               "print(run_process([\"%s\"], b\"\", Limits(20, %s)).written.decode(), end=\"\")'")
    here = {**os.environ, "PYTHONPATH": str(PROGRAM.parents[3] / "python")}
    for mib, kib in (4096, 1_000_000), (64, 65_536):
        line = limited % (telling, mib)
        assert subprocess.run(["sh", "-c", line], capture_output=True, text=True, env=here).stdout == f"{kib}\n"


def test_a_worker_of_the_board_keeps_a_lower_limit_of_memory() -> None:
    here = {**os.environ, "PYTHONPATH": str(PROGRAM.parents[3] / "python")}
    line = ("ulimit -v 1000000; exec /usr/bin/python3 -c 'from pertxogai.board.worker import limit_memory; import resource;"
            "limit_memory(4096); print(resource.getrlimit(resource.RLIMIT_AS)[0] // 1024)'")
    assert subprocess.run(["sh", "-c", line], capture_output=True, text=True, env=here).stdout == "1000000\n"


def test_a_program_that_is_missing(tmp_path, monkeypatch) -> None:
    monkeypatch.setenv("PERTXOGAI_SKETCH", str(tmp_path / "nothing"))
    with pytest.raises(MissingProgram, match="nothing"):
        Program.find()
    monkeypatch.setenv("PERTXOGAI_SKETCH", script(tmp_path, "echo mine"))
    assert Program.find().path == str(tmp_path / "sketch")
    assert Program.find("/bin/cat").path == "/bin/cat"
    monkeypatch.delenv("PERTXOGAI_SKETCH")
    monkeypatch.setattr("pertxogai.program.running.BUILD", tmp_path / "unbuilt")
    monkeypatch.setenv("PATH", str(tmp_path))
    assert Program.find().path == str(tmp_path / "sketch")
    monkeypatch.setenv("PATH", "/nowhere")
    with pytest.raises(MissingProgram, match="./sketch prove"):
        Program.find()
    refused(MissingProgram, Program(str(tmp_path / "gone")), "can't be run")
    monkeypatch.setenv("PERTXOGAI_MEMORY_MIB", "much")
    with pytest.raises(MissingProgram, match="whole number"):
        Program.find("/bin/cat")


def test_a_call_costs_little(program) -> None:
    """Within 3 ms of the program's own time: by the least of calls of each by turns, as many as it
    takes on a busy machine."""
    own = ours = float("inf")
    for _ in range(300):
        own = min(own, seconds_of(lambda: run_plainly(program)))
        ours = min(ours, seconds_of(lambda: program.ask(["check"], TRIANGLE)))
        if ours < own + 0.003:
            return
    assert ours < own + 0.003


def run_plainly(program: Program) -> None:
    subprocess.run([program.path, "check"], input=TRIANGLE.encode(), capture_output=True)


def seconds_of(call: Callable[[], object]) -> float:
    begin = time.perf_counter()
    call()
    return time.perf_counter() - begin


LIBRARY = r"""
#include <stdint.h>
#include <string.h>
/* Answers with the command and then the input, as the program's library hands on a text. */
int32_t sketch_answer(const uint8_t *command, size_t length, const uint8_t *input, size_t size_in,
                      uint8_t *output, size_t room, size_t *size) {
    *size = 0;
    for (size_t i = 0; i < length + 1 + size_in; i++, ++*size)
        if (i < room)
            output[i] = i > length ? input[i - length - 1] : i == length ? '\n'
                      : command[i] < 128 ? command[i] : '?';
    return length == 5 ? 0 : length == 7 ? 99 : 2;
}
"""


@pytest.fixture(scope="module")
def library(tmp_path_factory) -> str:
    folder = tmp_path_factory.mktemp("library")
    (folder / "stand_in.c").write_text(LIBRARY)
    try:
        subprocess.run(
            ["cc", "-shared", "-fPIC", "-o", "libsketch.so", "stand_in.c"],
            cwd=folder,
            check=True,
            capture_output=True,
        )
    except OSError:
        pytest.skip("no C compiler makes a stand-in for the library")
    return str(folder / "libsketch.so")


def test_the_library_behind_the_same_call(library: str, monkeypatch) -> None:
    found = Library.find(library)
    assert found.ask(["check"], "text\n") == Answer(Status.DONE, "check\ntext\n")
    assert found.ask(["check"], "x" * 200_000).text == "check\n" + "x" * 200_000
    assert found.ask(["a b", ""], "") == Answer(Status.USAGE, "? ?\n")
    with pytest.raises(ProgramCrashed):
        found.ask(["migrate"], "")
    monkeypatch.setenv("PERTXOGAI_LIBRARY", library)
    assert isinstance(quickest(), Library)


def test_the_library_that_the_repository_builds(library: str, monkeypatch) -> None:
    assert BUILD == Path(__file__).resolve().parents[2] / "c" / "out" / "libsketch.so"
    monkeypatch.delenv("PERTXOGAI_LIBRARY", raising=False)
    monkeypatch.setattr("pertxogai.program.library.BUILD", Path(library))
    assert Library.find().path == library
    monkeypatch.setenv("PERTXOGAI_LIBRARY", "gone.so")
    with pytest.raises(MissingProgram, match="gone.so"):
        Library.find()


def test_a_library_that_is_none(monkeypatch, tmp_path) -> None:
    for path in ("libc.so.6", str(tmp_path / "gone.so")):
        with pytest.raises(MissingProgram, match="no libsketch"):
            Library.find(path)
    monkeypatch.delenv("PERTXOGAI_LIBRARY", raising=False)
    monkeypatch.setattr("pertxogai.program.library.BUILD", tmp_path / "unbuilt")
    monkeypatch.setattr("ctypes.util.find_library", lambda name: None)
    with pytest.raises(MissingProgram, match="c/build"):
        Library.find()
    monkeypatch.setenv("PERTXOGAI_SKETCH", script(tmp_path, "echo"))
    assert isinstance(quickest(), Program)


@pytest.mark.parametrize("folder", ["lib", f"lib/{os.uname().machine}-linux-gnu"],
                         ids=["tarball", "packages"])
def test_the_library_of_an_unpacked_release_is_beside_its_program(
        folder: str, built_library, monkeypatch, tmp_path) -> None:
    for name in ("own/bin", f"own/{folder}", "links"):
        (tmp_path / name).mkdir(parents=True)
    program = script(tmp_path / "own/bin", "echo")
    (tmp_path / "links/sketch").symlink_to(program)
    monkeypatch.delenv("PERTXOGAI_LIBRARY", raising=False)
    monkeypatch.setattr("pertxogai.program.library.BUILD", tmp_path / "unbuilt")
    monkeypatch.setattr("ctypes.util.find_library", lambda name: "elsewhere.so")
    monkeypatch.setenv("PATH", str(tmp_path / "links"))
    with pytest.raises(MissingProgram, match="elsewhere.so is no libsketch"):
        Library.find()
    (tmp_path / f"own/{folder}/libsketch.so.1").symlink_to(built_library.path)
    assert Library.find().path == str(tmp_path / f"own/{folder}/libsketch.so.1")


def test_where_no_library_is_found_it_says_where_it_looked(monkeypatch, tmp_path) -> None:
    """Beside the `sketch` on the path, or that there is none on it; nothing is built in a release."""
    (tmp_path / "usr/bin").mkdir(parents=True)
    monkeypatch.delenv("PERTXOGAI_LIBRARY", raising=False)
    monkeypatch.setattr("pertxogai.program.library.BUILD", tmp_path / "dist-packages/c/out/libsketch.so")
    monkeypatch.setattr("ctypes.util.find_library", lambda name: None)
    monkeypatch.setenv("PATH", str(tmp_path / "usr/bin"))
    install = "no library: install the Debian package libpertxogai-sketch1, "
    last = ", name one by PERTXOGAI_LIBRARY, or use the program"
    with pytest.raises(MissingProgram) as found:
        Library.find()
    put = "put the `sketch` on the path of a release that is unpacked with its library"
    assert str(found.value) == f"{install}{put}{last}"
    script(tmp_path / "usr/bin", "echo")
    lib = tmp_path / "usr/lib"
    with pytest.raises(MissingProgram) as found:
        Library.find()
    unpack = "unpack the library of a release with the `sketch` on the path"
    folders = f"{lib} and {lib}/{os.uname().machine}-linux-gnu have no libsketch.so.1"
    assert str(found.value) == f"{install}{unpack} ({folders}){last}"


@pytest.mark.parametrize("folder, advice", [
    ("clone/crates", "build it by ./sketch prove"), ("lib/crates", "install the Debian package pertxogai")])
def test_what_to_do_without_a_program_fits_where_the_package_lies(
        folder: str, advice: str, tmp_path: Path, monkeypatch: pytest.MonkeyPatch) -> None:
    """In a clone it is built; a wheel or a Debian package has nothing to build."""
    (tmp_path / "clone/crates").mkdir(parents=True)
    monkeypatch.setenv("PATH", str(tmp_path))
    monkeypatch.setattr("pertxogai.program.running.BUILD", tmp_path / folder / "sketch/out/sketch")
    monkeypatch.delenv("PERTXOGAI_SKETCH", raising=False)
    with pytest.raises(MissingProgram, match=advice):
        Program.find()
    monkeypatch.setenv("PERTXOGAI_SKETCH", "")
    with pytest.raises(MissingProgram, match=advice):
        Program.find()
