"""FreeCAD's own count of the degrees of freedom of the files, beside that of the search; and that it
calls those fully constrained into which was written what completes them. Passed over where FreeCAD
isn't installed (Debian's `freecad`)."""
from __future__ import annotations

import os
import shutil
import subprocess
from collections.abc import Sequence
from pathlib import Path

import pytest

from pertxogai.completing.choosing import TASTES, choose, with_more
from pertxogai.completing.slack import Slack
from pertxogai.files.contents import Addition
from pertxogai.files.freecad import read_freecad
from pertxogai.files.freecad.writing import write_additions
from pertxogai.search import search
from pertxogai.search.rounding import solution_of

TESTS = Path(__file__).parent
FILES = [path for path in sorted((TESTS / "files").glob("*.FCStd")) if path.stem != "empty"]
FREECAD = shutil.which("freecadcmd") or shutil.which("/usr/lib/freecad/bin/freecadcmd-python3")
SECONDS = 300
needs_freecad = pytest.mark.skipif(FREECAD is None, reason="Debian's freecad isn't installed")


def counts(paths: Sequence[Path], folder: Path) -> dict[tuple[str, str], int | None]:
    """FreeCAD's count by file and sketch; None where it doesn't solve the sketch itself."""
    assert FREECAD is not None
    listed, told = folder / "listed", folder / "told"
    listed.write_text("".join(f"{path}\n" for path in paths))
    environment = {**os.environ, "LISTED": str(listed), "TOLD": str(told), "HOME": str(folder),
                   "QT_QPA_PLATFORM": "offscreen"}
    subprocess.run([FREECAD, str(TESTS / "with_programs/counted.py")], env=environment, check=True,
                   capture_output=True, timeout=SECONDS)
    lines = (line.split() for line in told.read_text().splitlines())
    return {(file, sketch): None if count == "none" else int(count)
            for file, sketch, count in lines}


@pytest.mark.freecad
@needs_freecad
def test_freedoms_are_freecads_where_both_count(tmp_path):
    counted, compared = counts(FILES, tmp_path), 0
    for path in FILES:
        for sketch in read_freecad(path):
            count = counted[path.name, sketch.name]
            if count is not None and not sketch.left_out:
                assert search(sketch.drawing).freedoms == count, path.stem
                compared += 1
    assert compared > 40


@pytest.mark.freecad
@needs_freecad
def test_a_file_with_what_completes_it_is_fully_constrained_for_freecad(tmp_path):
    written = []
    for path in FILES:
        for sketch in read_freecad(path):
            slack = None if sketch.left_out else Slack.of(sketch.drawing)
            if slack is None or not slack.ways.shape[1]:
                continue
            choice = choose(slack, TASTES[0])
            added = (*choice.own, *choice.datum)
            whole = with_more(sketch.drawing, added)
            places = solution_of(slack.equations.unknowns, slack.x)
            written.append((tmp_path / path.name, sketch.name, len(added)))
            write_additions(path, tmp_path / path.name,
                            {sketch.name: Addition(whole, added, places)})
    assert sum(count for _, _, count in written) >= 5
    counted = counts([path for path, _, _ in written], tmp_path)
    assert {key: counted[key] for key in ((path.name, name) for path, name, _ in written)} == {
        (path.name, name): 0 for path, name, _ in written}
