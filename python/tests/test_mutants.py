"""Each mutant of a crate (`must-fail/*.edit`) can be applied: `rt ci` passes over others."""
from __future__ import annotations

import re
from collections.abc import Iterator
from pathlib import Path

import pytest

from conftest import TOP

MUTANTS = sorted(TOP.glob("crates/*/must-fail/*.edit"))
WORD = re.compile(r"(file(?=: )|old(?=: )|new): ?(.*)")
PLACE = re.compile(r"(src|specs|proofs)/[\w/]+\.\w+")
"""Where a mutant may change something, in its crate."""


def replacements(text: str) -> Iterator[tuple[str, str, str]]:
    """The file, the old and the new text of each replacement, in their order."""
    path = old = ""
    for line in text.splitlines():
        word, rest = found.groups() if (found := WORD.fullmatch(line)) else ("", "")
        if word == "file":
            path = rest.strip()
        elif word == "old":
            old = rest
        elif word == "new":
            yield path, old, rest
            old = ""


def edited(text: str, crate: Path) -> dict[str, str]:
    """The files that a mutant of a crate changes, as they are with it.

    Raises ValueError where it changes nothing, or a text that it replaces isn't there just once."""
    files: dict[str, str] = {}
    for path, old, new in replacements(text):
        if not PLACE.fullmatch(path) or not old:
            raise ValueError(f"no file or no text stands before new: {new}")
        before = files.setdefault(path, (crate / path).read_text())
        if before.count(old) != 1:
            raise ValueError(f"{path} has this {before.count(old)} times: {old}")
        files[path] = before.replace(old, new)
    if all((crate / path).read_text() == after for path, after in files.items()):
        raise ValueError("nothing is changed")
    return files


@pytest.mark.parametrize("mutant", MUTANTS, ids=lambda it: f"{it.parts[-3]}-{it.stem}")
def test_a_mutant_applies(mutant: Path) -> None:
    assert edited(mutant.read_text(), mutant.parent.parent)


def test_the_kit_reads_each_file_beside_the_mutants() -> None:
    """It passes over one with another name, or in a folder."""
    beside = [it for it in TOP.glob("crates/*/must-fail/**/*") if it not in MUTANTS]
    assert not beside
    assert all(re.fullmatch(r"\w[\w.-]*\.edit", it.name, re.ASCII) for it in MUTANTS)


CODE = "fn a() {\n    1\n}\n\nfn b() {\n    1\n}\n"


def test_a_second_replacement_is_made_in_what_the_first_left(tmp_path: Path) -> None:
    (tmp_path / "src").mkdir()
    (tmp_path / "src/lib.rt").write_text(CODE)
    text = "a note\nfile: src/lib.rt\nold: fn a() {\nnew: fn c() {\nold: fn c() {\nnew: fn d() {\n"
    assert edited(text, tmp_path) == {"src/lib.rt": CODE.replace("fn a", "fn d")}


@pytest.mark.parametrize("text", [
    "file: src/lib.rt\nold:     1\nnew:     2\n",
    "file: src/lib.rt\nold:     3\nnew:     2\n",
    "file: src/lib.rt\nold: fn a() {\nnew: fn a() {\n",
    "file: src/lib.rt\nold: fn a() {\n",
    "old: fn a() {\nnew: fn c() {\n",
    "file: README.md\nold: fn a() {\nnew: fn c() {\n",
    "",
], ids=["twice", "gone", "the same", "no new", "no file", "not code", "empty"])
def test_one_that_does_not_apply_is_found(text: str, tmp_path: Path) -> None:
    for name in ("src/lib.rt", "README.md"):
        (tmp_path / name).parent.mkdir(exist_ok=True)
        (tmp_path / name).write_text(CODE)
    with pytest.raises(ValueError):
        edited(text, tmp_path)
