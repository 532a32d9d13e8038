"""The folders of the package: which imports which, and that none are crossed both ways."""
from __future__ import annotations

import subprocess
import sys

from conftest import TOP

sys.path.insert(0, str(TOP / "tools"))
import import_graph  # noqa: E402

FOLDERS = {"program", "language", "drawing", "spelling", "judging", "files", "output", "board"}


def test_no_modules_or_folders_are_crossed_both_ways() -> None:
    ended = subprocess.run([TOP / "tools" / "imports"], capture_output=True, text=True)
    assert (ended.returncode, ended.stderr) == (0, "")
    names = {line.partition(":")[0] for line in ended.stdout.splitlines()}
    assert FOLDERS <= names


def test_a_cycle_is_found_and_told_from_its_beginning() -> None:
    assert import_graph.cycle({"a": {"b"}, "b": {"c"}, "c": {"d", "b"}, "d": set()}) == ["b", "c", "b"]
    assert import_graph.cycle({"a": {"b", "c"}, "b": {"c"}, "c": set()}) is None


def test_what_follows_from_others_has_no_arrow() -> None:
    assert import_graph.nearest({"a": {"b", "c"}, "b": {"c"}, "c": set()}) == {
        "a": {"b"}, "b": {"c"}, "c": set()}


def test_a_row_of_the_picture_stands_above_what_it_imports() -> None:
    assert import_graph.levels({"a": {"b", "c"}, "b": {"c"}, "c": set(), "d": set()}) == [
        ["c", "d"], ["b"], ["a"]]
