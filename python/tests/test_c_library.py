"""Which version of the C library the pages say that the program and the library need."""
from __future__ import annotations

import os
import re
import sys
from pathlib import Path

import pytest

from conftest import TOP
from pertxogai.program import Program
from pertxogai.program.library import BUILD, VARIABLE

sys.path.insert(0, str(TOP / "tools"))
from packing.debian import c_library  # noqa: E402

SAID = re.compile(r"`sketch` needs glibc (2\.\d+) or later, the library (2\.\d+)")


@pytest.mark.parametrize("page", ["README.md", "docs/EMBEDDING.md"])
def test_a_page_says_which_c_library_is_needed(page: str, program: Program) -> None:
    said = SAID.search((TOP / page).read_text())
    assert said is not None
    assert c_library(Path(program.path)) == said[1]
    library = Path(os.environ.get(VARIABLE) or BUILD)
    if library.exists():
        assert c_library(library) == said[2]
