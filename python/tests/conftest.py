"""What several tests need: the program under test, the worked rows, and a board in a browser."""
from __future__ import annotations

import gc
import re
from collections.abc import Iterator
from dataclasses import dataclass
from pathlib import Path
from typing import TYPE_CHECKING

import pytest

from pertxogai.program import Answer, Program, Status

if TYPE_CHECKING:
    from boards import Served
    from browsing import Page

TESTS = Path(__file__).resolve().parent
TOP = TESTS.parents[1]
LONGEST = ("board/test_board_browser", "test_style", "test_freecad_commands",
           "test_freecad_window", "board/test_board_hand", "board/test_board_dragging",
           "board/test_board_guesses", "board/test_board_types", "board/test_board_gallery",
           "board/test_board_random", "board/test_board_pointing", "board/test_board_room",
           "board/test_board_again", "hunt/test_answers_are_so", "test_hostile_files",
           "test_release", "test_ranges", "test_search", "test_ranges_worked",
           "board/test_board_server", "test_claims", "test_revalued", "test_dragging",
           "test_answers", "../../c/tests/test_library", "test_fitting", "test_program",
           "board/test_board_sight", "test_fitting_chains", "test_prove", "test_gate",
           "board/test_board_labels", "board/test_board_selecting")
"""The files of tests that take longest, the longest first."""
SHARED = ("hunt/test_answers_are_so", "board/test_board_measured", "board/test_board_types",
          "test_other_numbers", "test_ranges", "test_redrawn")
"""The long files of which each test is run by whichever processor is free; any other file is run by
one processor, which makes its fixtures once. Those that aren't among the longest come last, since
their many short tests keep all processors busy to the end."""
KINDS = {"window": "browser", "dist": "release"}
"""The kind of the tests that take a fixture, which `python/tests/run --without` leaves out."""


@dataclass(frozen=True)
class Row:
    """A worked row: words and a text, and what the program answers."""

    name: str
    words: tuple[str, ...]
    text: str
    answer: Answer


def read_usage() -> bytes:
    """The usage line, from its one copy in the tests."""
    tests = TOP / "crates/sk_test_runs/src/usage.rt"
    found = re.search(rb'"2\\n(usage: sketch .*)\\n";', tests.read_bytes())
    assert found, tests
    return found[1] + b"\n"


NO_NEWLINE = b"\\ No newline at end of file\n"
"""What stands behind an input that ends without a line feed, as in what `diff` writes."""
USAGE = b"usage: ...\n"
"""What stands for the usage line."""


def read_row(path: Path) -> Row:
    """The row of a file, which reads like a session at the shell: `$ ` and the words, the input,
    `> ` and the status, and what is written."""
    first, _, rest = path.read_bytes().partition(b"\n")
    status = re.search(rb"^> (\d+)\n", rest, re.MULTILINE)
    assert first.startswith(b"$ ") and status, path
    given, written = rest[: status.start()], rest[status.end() :]
    if given.endswith(b"\n" + NO_NEWLINE):
        given = given.removesuffix(b"\n" + NO_NEWLINE)
    text = given.decode("utf-8", "surrogateescape")
    said = (read_usage() if written == USAGE else written).decode("ascii")
    answer = Answer(Status(int(status[1])), said)
    return Row(path.stem, tuple(first[2:].decode().split()), text, answer)


def read_rows(form: str) -> list[Row]:
    """The rows of all files whose names have a form, in order."""
    return [read_row(path) for path in sorted((TESTS / "rows").glob(form))]


ROWS = read_rows("*.row")
EXCERPTS = read_rows("*.excerpt")
"""Rows of which some lines of the answer are told, in their order."""
LARGE_ROWS = read_rows("large/*.row")
"""Rows for which only the proved program is quick enough."""
EXCESS_ROWS = read_rows("excess/*.row")
"""Rows of a program that has the command `excess`."""
COMPLETE_ROWS = read_rows("complete/*.row")
MEASURE_ROWS = read_rows("measure/*.row")
WHY_ROWS = read_rows("why/*.row")
NEW_ROWS = COMPLETE_ROWS + MEASURE_ROWS + WHY_ROWS
"""Rows of a program that has the commands `complete`, `measure` and `why`."""
FRAME_ROWS = read_rows("frame/*.row")
"""Rows of a program that has the key `frame`."""
EXAMPLES = sorted((TOP / "examples").rglob("*.sketch"))


def file_of(name: str) -> Path:
    """The file of a name in `LONGEST` or `SHARED`."""
    return (TESTS / f"{name}.py").resolve()


@pytest.hookimpl(hookwrapper=True)
def pytest_collection() -> Iterator[None]:
    """Leaves the thousands of collected tests out of garbage collection, which would look through
    them again and again."""
    gc.disable()
    yield
    gc.freeze()
    gc.enable()


@pytest.hookimpl(tryfirst=True)  # xdist reads the groups in the same hook.
def pytest_collection_modifyitems(config: pytest.Config, items: list[pytest.Item]) -> None:
    """Has the files that take longest begin first, so that none of them is left for one processor
    at the end, keeps the tests of a file that isn't shared on one processor, and marks the kinds of
    tests that a fixture tells."""
    place_of = {file_of(name): place for place, name in enumerate(LONGEST)}
    shared = set(map(file_of, SHARED))
    items.sort(key=lambda item: place_of.get(item.path, len(LONGEST) + (item.path in shared)))
    for item in items:
        if config.pluginmanager.hasplugin("xdist") and item.path not in shared:
            item.add_marker(pytest.mark.xdist_group(item.path.stem))
        names = item.fixturenames if isinstance(item, pytest.Function) else ()
        for kind in {KINDS[name] for name in names if name in KINDS}:
            item.add_marker(kind)


@pytest.fixture(scope="session")
def program() -> Program:
    """The program under test: that of PERTXOGAI_SKETCH, or the repository's build."""
    return Program.find()


@pytest.fixture(scope="session")
def board(program: Program) -> Iterator[Served]:
    """A board that is served to all tests."""
    from boards import served
    with served(program) as found:
        yield found


@pytest.fixture(scope="session")
def window(tmp_path_factory: pytest.TempPathFactory) -> Iterator[Page]:
    """A browser for all tests, since its start takes seconds."""
    from browsing import browser
    with browser(tmp_path_factory.mktemp("downloads")) as found:
        yield found


@pytest.fixture
def page(window: Page, board: Served) -> Iterator[Page]:
    """The board, opened anew with nothing kept; the browser may complain of nothing."""
    if not board.thread.is_alive():
        board.start_again()
    window.clear()
    window.open(board)
    window.faults()
    yield window
    assert window.faults() == []
