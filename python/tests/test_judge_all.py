"""The script of docs/MANY.md: a line for each file, whatever its name."""
from __future__ import annotations

import subprocess
from pathlib import Path

from conftest import TOP


def test_a_name_stands_in_its_line_as_it_is(tmp_path: Path) -> None:
    """`echo` of some shells takes a backslash in a name for the beginning of a command."""
    names = [r"a\nb.sketch", r"c\cd.sketch", "with blanks.sketch", "-n", "%s.sketch"]
    for name in names:
        (tmp_path / name).write_text(name)
    words = [str(TOP / "examples" / "judge-all.sh"), *names]
    done = subprocess.run(words, cwd=tmp_path, env={"SKETCH": "/bin/cat", "COMMAND": "-"},
                          capture_output=True, check=True, text=True)
    assert (done.stdout, done.stderr) == ("".join(f"0 {name}\n" for name in names), "")
    assert all((tmp_path / f"{name}.answer").read_text() == name for name in names)
