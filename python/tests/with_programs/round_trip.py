"""Judges the stock of files, writes the places back, and has the real programs open them again.

    /usr/bin/python3 python/tests/with_programs/round_trip.py

It takes FreeCAD's console (freecadcmd), solvespace-cli, and the program as ./pertxogai finds it.
For each sketch of python/tests/files it compares the verdict with FreeCAD's degrees of freedom,
the written places with those that FreeCAD or SolveSpace solved and stored, and these with what
the same program makes of the written file; and it draws FreeCAD's anew, each point up to 1 mm off,
and compares where they are placed then. It prints a line for each sketch and a summary, and
ends with status 1 where something isn't as expected: more than 2 µm apart, or another verdict
than FreeCAD's that isn't among the known ones below.
"""

import json
import math
import os
import random
import subprocess
import sys
import tempfile
from collections.abc import Iterator, Mapping
from dataclasses import dataclass
from pathlib import Path

HERE = Path(__file__).resolve().parent
TOP = HERE.parents[2]
FILES = HERE.parent / "files"
NEAR_MM = 0.002

KNOWN = {
    "cam": "arcs whose radius nothing tells",
    "free-plate": "rigid, and not held to the origin, which FreeCAD counts as two freedoms",
    "ellipse": "what is left out is free",
    "spline": "what is left out is free",
}
"""Files on which the verdict and FreeCAD's freedoms differ, and why."""

HELD = {"blocked", "solid", "outer", "body"}
"""Files of which a shape lies where it is drawn, so that they aren't drawn anew."""

Places = Mapping[tuple[str, str, str, str], tuple[float, float]]
"""Places in mm by file, sketch, shape and position."""


@dataclass(frozen=True)
class Reopened:
    """What FreeCAD tells of files: places as stored, and once solved; its code, and whether each
    sketch is fully constrained."""

    stored: Places
    solved: Places
    facts: Mapping[tuple[str, str], tuple[int, bool]]


def judged(path: Path, out: Path) -> dict[str, str]:
    """The verdict on each sketch of a file, by its label; writes the placed ones to `out`."""
    words = [str(TOP / "pertxogai"), "judge", "--json", str(path)]
    answer = subprocess.run(words, capture_output=True, text=True)
    if answer.returncode not in (0, 1):
        raise SystemExit(f"{path.name}: {answer.stderr.strip()}")
    sketches = json.loads(answer.stdout)["sketches"]
    if any(sketch["places"] for sketch in sketches):
        subprocess.run([*words, "--write", str(out)], check=False, capture_output=True)
    return {sketch["name"]: sketch["verdict"] for sketch in sketches}


def reopened(paths: list[Path], directory: Path) -> Reopened:
    """What FreeCAD tells of files."""
    listed, told = directory / "listed", directory / "told"
    listed.write_text("\n".join(map(str, paths)) + "\n")
    told.unlink(missing_ok=True)
    subprocess.run(["freecadcmd", str(HERE / "reopened.py")], check=True, capture_output=True,
                   env={**os.environ, "LISTED": str(listed), "TOLD": str(told)})
    stored: dict[tuple[str, str, str, str], tuple[float, float]] = {}
    solved: dict[tuple[str, str, str, str], tuple[float, float]] = {}
    facts: dict[tuple[str, str], tuple[int, bool]] = {}
    for line in told.read_text().splitlines():
        word, file, sketch, *rest = line.split()
        if word == "facts":
            facts[file, sketch] = int(rest[0]), rest[1] == "yes"
        else:
            into = stored if word == "place" else solved
            into[file, sketch, rest[0], rest[1]] = float(rest[2]), float(rest[3])
    return Reopened(stored, solved, facts)


def apart(one: Places, other: Places, file: str, sketch: str) -> float:
    """How far the places of a sketch are apart at most, in mm."""
    return max((math.dist(place, other[key]) for key, place in one.items()
                if key[:2] == (file, sketch)), default=0.0)


def expected(code: int, is_fully: bool) -> str:
    """The verdict that FreeCAD's own answer comes to."""
    if code != 0:
        return "over"
    return "well" if is_fully else "open"


def check_freecad(directory: Path) -> Iterator[tuple[str, bool]]:
    """A line for each sketch of FreeCAD's, and whether it is as expected."""
    verdicts = {path: judged(path, directory / path.name)
                for path in sorted(FILES.glob("*.FCStd")) if path.stem != "empty"}
    given = reopened(list(verdicts), directory)
    back = reopened([directory / path.name for path in verdicts
                     if (directory / path.name).exists()], directory)
    for path, of_file in verdicts.items():
        names = [sketch for file, sketch in given.facts if file == path.name]
        for sketch, verdict in zip(names, of_file.values(), strict=True):
            theirs = expected(*given.facts[path.name, sketch])
            line = f"{path.stem} {sketch}: {verdict}, FreeCAD {theirs}"
            is_right = verdict == theirs or path.stem in KNOWN
            if verdict != theirs:
                line += f" ({KNOWN.get(path.stem, 'unknown why')})"
            if verdict == "well" and (path.name, sketch) in back.facts:
                moved = apart(back.stored, given.stored, path.name, sketch)
                again = apart(back.solved, back.stored, path.name, sketch)
                line += f", written {moved * 1e6:.2f} nm away, solved again {again * 1e6:.2f} nm"
                is_right = is_right and max(moved, again) <= NEAR_MM
            yield line, is_right


def check_solvespace(directory: Path) -> Iterator[tuple[str, bool]]:
    """A line for each of SolveSpace's files, and whether it is as expected."""
    sys.path.insert(0, str(TOP / "python"))
    from pertxogai.files.solvespace import read_solvespace

    def stored(path: Path) -> dict[str, tuple[float, float]]:
        drawing = read_solvespace(path)[0].drawing
        return {str(ref): (float(drawing.drawn(ref).x_um) / 1000,
                           float(drawing.drawn(ref).y_um) / 1000) for ref in drawing.points()}

    for path in sorted(FILES.glob("*.slvs")):
        out = directory / path.name
        verdict = next(iter(judged(path, out).values()))
        line, is_right = f"{path.stem}: {verdict}", verdict == "well" or path.stem == "loose"
        if out.exists():
            given, written = stored(path), stored(out)
            subprocess.run(["solvespace-cli", "regenerate", str(out)], check=True,
                           capture_output=True)
            again = stored(out)
            moved = max(math.dist(given[ref], written[ref]) for ref in given)
            solved = max(math.dist(again[ref], written[ref]) for ref in given)
            line += f", written {moved * 1e6:.2f} nm away, solved again {solved * 1e6:.2f} nm"
            is_right = is_right and max(moved, solved) <= NEAR_MM
        yield line, is_right


def check_rough(directory: Path) -> Iterator[tuple[str, bool]]:
    """A line for each sketch of FreeCAD's that is well, drawn anew with each point moved by up to
    a millimetre: whether it is placed where FreeCAD solved it, as FreeCAD itself has it."""
    sys.path.insert(0, str(TOP / "python"))
    from pertxogai.drawing import Arc, Circle
    from pertxogai.files.freecad import read_freecad
    from pertxogai.files.freecad.writing import write_places
    from pertxogai.judging.measure import Solution

    chance = random.Random(1)
    paths = [path for path in sorted(FILES.glob("*.FCStd"))
             if path.stem not in {"empty", *KNOWN, *HELD}]
    for path in paths:
        solutions = {}
        for found in read_freecad(path):
            drawing = found.drawing
            points = {ref: (round(drawing.drawn(ref).x_um * 1000) + chance.randint(-10**6, 10**6),
                            round(drawing.drawn(ref).y_um * 1000) + chance.randint(-10**6, 10**6))
                      for ref in drawing.points()}
            radii = {shape.name: round(drawing.drawn_radius_um(shape.name) * 1000)
                     for shape in drawing.geometry if isinstance(shape, (Circle, Arc))}
            solutions[found.name] = Solution(points, radii)
        write_places(path, directory / path.name, solutions)
    given = reopened(paths, directory)
    verdicts = {path: judged(directory / path.name, directory / f"placed-{path.name}")
                for path in paths}
    back = reopened([out for path in paths
                     if (out := directory / f"placed-{path.name}").exists()], directory)
    for path, of_file in verdicts.items():
        names = [sketch for file, sketch in given.facts if file == path.name]
        for sketch, verdict in zip(names, of_file.values(), strict=True):
            theirs = expected(*given.facts[path.name, sketch])
            line, is_right = f"rough {path.stem} {sketch}: {verdict}", verdict == theirs
            if verdict == "well":
                placed = {key: place for key, place in back.stored.items()
                          if key[0] == f"placed-{path.name}"}
                renamed = {(path.name, *key[1:]): place for key, place in placed.items()}
                moved = apart(renamed, given.stored, path.name, sketch)
                line += f", placed {moved * 1e6:.2f} nm away"
                is_right = is_right and bool(renamed) and moved <= NEAR_MM
            yield line, is_right


def main() -> int:
    """Prints all lines and a summary; answers the status."""
    wrong = count = 0
    with tempfile.TemporaryDirectory() as name:
        for check in (check_freecad, check_solvespace, check_rough):
            for line, is_right in check(Path(name)):
                print(line if is_right else f"WRONG {line}", flush=True)
                count, wrong = count + 1, wrong + (not is_right)
    print(f"{count} sketches, {wrong} not as expected")
    return 1 if wrong else 0


if __name__ == "__main__":
    sys.exit(main())
