"""`fit` with several processes: they work cases out ahead, and what comes of it is the same."""
from __future__ import annotations

import os
from math import cos, radians, sin
from pathlib import Path

import pytest

from pertxogai.commands import main
from pertxogai.drawing import Drawing, read_drawing
from pertxogai.fitting import Fit, fit
from pertxogai.fitting.ahead import ProcessKilled
from pertxogai.fitting.asking import Asking

FITS = sorted((Path(__file__).parent / "fits").glob("*.drawing"))
CRANK = """check Pin y Crank.end .. 101
segment Crank 0 0 2.6 99.97
coincident Crank.start Origin
length Crank 100 +-0.1
angle Crank +88.5deg +-2deg
segment Rod Crank.end 5.16 0
on Rod.end XAxis
length Rod 99.998
"""
"""A crank whose pin stands too high for the rod between the ends of its angle: that case can't be
placed."""


def bars(count: int) -> Drawing:
    """Bars end to end, at 10 and -10 degrees in turn, each by an angle to the one before."""
    x, y, lines = 0.0, 0.0, []
    for number in range(count):
        bar, before, way = f"B{number}", f"B{number - 1}", 10 if number % 2 == 0 else -10
        x, y = x + 10 * cos(radians(way)), y + 10 * sin(radians(way))
        start, angle = ("0 0", "B0 +10deg") if number == 0 else (
            f"{before}.end", f"{before} {bar} {2 * way:+}deg")
        lines.append(f"segment {bar} {start} {x:.4f} {y:.4f}\nlength {bar} 10 +-0.0{number + 1}\n"
                     f"angle {angle} +-0.05deg\n")
    end = f"B{count - 1}.end"
    return read_drawing(f"check Across x {end} 0 ..\ncheck Along y {end} -100 .. +100\n"
                        f"check Apart distance Origin {end} 0 ..\n"
                        f"{''.join(lines)}coincident B0.start Origin\n")


def found(drawing: Drawing, program, jobs: int) -> tuple[object, ...]:
    """All that comes of a drawing but the drawing."""
    fitted = fit(drawing, program, jobs=jobs)
    assert isinstance(fitted, Fit)
    return (fitted.checks, fitted.dimensions, fitted.placements, fitted.unplaced, fitted.between,
            fitted.loose_nm)


@pytest.mark.parametrize("text", [*(path.read_text() for path in FITS), CRANK],
                         ids=[*(path.stem for path in FITS), "crank"])
def test_any_number_of_processes_gives_the_same(text, program, monkeypatch) -> None:
    monkeypatch.setattr("pertxogai.fitting.ahead.FEW", 2)
    drawing = read_drawing(text)
    assert found(drawing, program, 1) == found(drawing, program, 3)


def test_most_cases_are_asked_for_by_the_processes(program, monkeypatch) -> None:
    asked, by = [], Asking._by
    monkeypatch.setattr(Asking, "_by", lambda asking, way, offs: (
        asked.append(way), by(asking, way, offs))[1])
    drawing = bars(8)
    alone, asked_alone = found(drawing, program, 1), len(asked)
    asked.clear()
    assert found(drawing, program, 2) == alone
    assert len(asked) < asked_alone / 4  # What other processes ask isn't noted here.


def test_for_few_cases_no_process_is_started(program, monkeypatch) -> None:
    monkeypatch.setattr("pertxogai.fitting.ahead._pool", None)
    assert found(read_drawing(CRANK), program, 3)


def test_a_process_that_is_killed_is_told(program, monkeypatch) -> None:
    monkeypatch.setattr(Asking, "tries", lambda asking, offs, ways: os._exit(1))
    with pytest.raises(ProcessKilled, match="--jobs 1"):
        fit(bars(8), program, jobs=2)


def test_the_command_takes_a_number_of_processes(capsys, program, monkeypatch) -> None:
    monkeypatch.setenv("PERTXOGAI_SKETCH", program.path)
    told = []
    for jobs in ("1", "2"):
        assert main(["fit", str(FITS[0]), "--jobs", jobs]) in (0, 1)
        told.append(capsys.readouterr().out)
    assert told[0] == told[1]
    assert main(["fit", str(FITS[0]), "--jobs", "0"]) == 2
    assert "--jobs takes a whole number from 1 on" in capsys.readouterr().err
