"""300 drawings of fixed seeds, each with an answer that is so. `bench/hunt` has as many as one likes,
and larger ones."""
from __future__ import annotations

import os

import pytest

os.environ.setdefault("OPENBLAS_NUM_THREADS", "1")
pytest.importorskip("numpy", reason="the hunt takes Debian's python3-numpy")

from hunt.asking import asked  # noqa: E402
from hunt.making import made  # noqa: E402
from hunt.wrongs import wrongs  # noqa: E402

from pertxogai.program import Program  # noqa: E402

TURNS, EACH, BLOCKS = 10, 30, 1


@pytest.mark.parametrize("turn", range(TURNS))
def test_each_answer_is_so(turn: int, program: Program, monkeypatch: pytest.MonkeyPatch) -> None:
    monkeypatch.setenv("PERTXOGAI_SKETCH", program.path)
    for seed in range(EACH * turn, EACH * turn + EACH):
        drawing = made(seed, most=BLOCKS)
        found = wrongs(drawing, asked(drawing.text))
        assert not found, f"seed {seed}: {found}\n{drawing.text}"
