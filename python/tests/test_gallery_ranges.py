"""The page of the gallery's ranges: it lists all of them, its ends are those by hand, and it is as
`bench/ranges` prints it."""
from __future__ import annotations

import re
import subprocess
from dataclasses import dataclass
from functools import cache
from math import atan, cos, degrees, pi, sqrt
from pathlib import Path

import pytest

from conftest import TOP
from pertxogai.drawing import parameters, read_drawing
from pertxogai.program import Program

PAGE = TOP / "python" / "GALLERY-RANGES.md"
DRAWINGS = sorted((TOP / "python" / "tests" / "drawings").glob("*.drawing"))
NOT_GOOD = ("hole-without-size", "off-points-too-far-apart", "off-triangle-too-wide")
"""These are fully constrained, and not good."""
LINE = re.compile(r"  (.*): from (\S+) to (\S+?)( mm| deg)?, now \S+; below: .*; above: .*")


@dataclass(frozen=True)
class Row:
    """A line of the page: what it is the range of, and both ends. step: to what the ends are
    exact."""

    called: str
    low: float
    high: float
    step: float


@cache
def page() -> dict[str, list[Row]]:
    """The ranges on the page by their drawings; none of one that isn't good."""
    shown = PAGE.read_text().split("$ bench/ranges --table\n")[1].split("```")[0]
    name, found = "", dict[str, list[Row]]()
    for line in shown.splitlines():
        match = LINE.fullmatch(line)
        if match:
            called, low, high, unit = match.groups()
            step = .0001 if unit == " deg" else .001
            found[name].append(Row(called, float(low), float(high), step))
        else:
            assert not line.startswith(" ")
            name = line.split(":")[0]
            found[name] = []
    return found


def test_the_page_has_every_drawing() -> None:
    assert [*page()] == [each.stem for each in DRAWINGS]


@pytest.mark.parametrize("path", DRAWINGS, ids=lambda it: it.stem)
def test_the_page_has_each_range_of_a_good_drawing(path: Path) -> None:
    text = path.read_text()
    drawing = read_drawing(text)
    is_good = text.startswith("# expect well") and path.stem not in NOT_GOOD
    due = [each.called(drawing) for each in parameters(drawing)] if is_good else []
    assert [each.called for each in page()[path.stem]] == due


def row_of(name: str, words: str) -> Row:
    """The row of a value or a dimension, by its name or its first words."""
    found, = (each for each in page()[name] if each.called.split(" (")[-1].startswith(words))
    return found


NO_LEAST, NO_MOST = 0.001, 1e6
LEAST_ANGLE, MOST_ANGLE = .0001, 179.9999


@pytest.mark.parametrize(("name", "words", "low", "high"), [
    # The toe is 6 thick, and the back as long as what is left.
    ("angle-iron", "length Foot", 6.001, NO_MOST), ("angle-iron", "length Back", 6.001, NO_MOST),
    ("angle-iron", "length Toe", NO_LEAST, 79.999), ("angle-iron", "length Head", NO_LEAST, 59.999),
    # 300 + 250 is the reach, and 500 the distance of its ends.
    ("arm", "x Fore.end", 0, sqrt(550 ** 2 - 300 ** 2)),
    ("arm", "y Fore.end 300", 0, sqrt(550 ** 2 - 400 ** 2)), ("arm", "length Upper", 250.001, None),
    ("arm", "length Fore", 200.001, None),
    # Holes of 6.6 that lie a quarter turn, or 60 degrees, apart: a cut of a micrometre is a
    # touch.
    ("bolt-circle", "diameter Pitch", 6.599 * sqrt(2), NO_MOST),
    ("bolt-circle", "diameter E", NO_LEAST, 35 * sqrt(2) + .001),
    ("bolt-circle-of-six", "diameter Pitch", 13.198, NO_MOST),
    # The hole H1 of 10 stays in the foot, H2 in the upright, each 20 wide.
    ("bracket", "length Bottom", 20.001, NO_MOST), ("bracket", "length Right", 14.999, 79.999),
    ("bracket", "distance H1.centre Bottom", 4.999, 15.001),
    ("bracket", "distance H1.centre Right", 4.999, 55.001),
    ("bracket", "distance H2.centre Top", 4.999, 75.001),
    ("bracket", "diameter H1", NO_LEAST, 20.002),
    # The centres of nose, base and flank are 34, 22 and 28 apart, by the differences of the
    # radii.
    ("cam", "radius Base", NO_LEAST, 35.999), ("cam", "radius Nose", NO_LEAST, 35.999),
    ("cam", "radius Upper", 28.001, NO_MOST),
    ("cam", "distance Base.centre Nose.centre", 12.001, 55.999),
    # The right side is 50 - 12 less the chamfer's rise of 10; the top is 80 - 2 * 12.
    ("chamfered-and-filleted", "radius FilletNE", NO_LEAST, 39.999),
    ("chamfered-and-filleted", "Width", 24.001, NO_MOST),
    ("chamfered-and-filleted", "Height", 22.001, NO_MOST),
    ("chamfered-and-filleted", "x Bottom.end Chamfer.end", NO_LEAST, 37.999),
    # The right side comes to nothing where the chamfer rises 38 over 10.
    ("chamfered-and-filleted", "angle Bottom Chamfer", 180 - degrees(atan(3.8)), MOST_ANGLE),
    # The ring of 30 holds both coins beside each other: 2 * 30 is more than 2 * 15 + 2 * 10.
    ("coins-in-a-ring", "radius Ring", 25.001, NO_MOST),
    ("coins-in-a-ring", "radius A", NO_LEAST, 19.999),
    ("coins-in-a-ring", "radius B", NO_LEAST, 14.999),
    # The hole of 12 lies between two lands that are 30 apart, and touches both; the last land
    # ends at 1,000,000.
    ("collinear-lands", "distance First.end Second.start", 11.998, 999_940),
    ("collinear-lands", "diameter Hole", NO_LEAST, 30.002),
    # The crank's end is 4/5 of its length high, and the rod 74 long.
    ("crank-and-slider", "length Crank", NO_LEAST, 92.499),
    ("crank-and-slider", "length Rod", 24.001, NO_MOST),
    # The flat, 7 from the centre, is a chord.
    ("d-shaft", "radius Round", 7.001, NO_MOST),
    ("d-shaft", "distance Round.centre Flat", NO_LEAST, 9.999),
    # The window, 600 by 650, lies 150 from two sides of a door of 900 by 2000; three bars stand
    # in it, 150 apart.
    ("door-with-grille", "length DoorBottom", 750, NO_MOST),
    ("door-with-grille", "length DoorRight", 800, NO_MOST),
    ("door-with-grille", "distance WindowLeft DoorLeft", NO_LEAST, 300),
    ("door-with-grille", "distance WindowTop DoorTop", NO_LEAST, 1350),
    ("door-with-grille", "length WindowBottom", 450, 750),
    ("door-with-grille", "length WindowLeft", NO_LEAST, 1850),
    ("door-with-grille", "distance Bar1 WindowLeft", NO_LEAST, 300),
    ("door-with-grille", "distance Bar2 Bar1", NO_LEAST, 300),
    ("door-with-grille", "distance Bar3 Bar2", NO_LEAST, 300),
    # The floor ends 15 / tan 60 beyond each land's end.
    ("dovetail", "length Bottom", 65 + 15 / sqrt(3), NO_MOST),
    ("dovetail", "length Right", 15, NO_MOST),
    ("dovetail", "length LandL", 15 / sqrt(3), 70 - 15 / sqrt(3)),
    ("dovetail", "distance LandL.start LandR.end", NO_LEAST, 65 - 15 / sqrt(3)),
    ("dovetail", "distance Floor LandR", NO_LEAST, 40),
    # The floor reaches the right side 35 beyond the land's end; a flank as drawn, 7 by 16, is
    # square to -240/7 by 15.
    ("dovetail", "angle FlankR Floor", degrees(atan(15 / 35)), 180 - degrees(atan(15 * 7 / 240))),
    # The bore of 6 lies 3 off the middle of a disc of 20.
    ("eccentric", "radius Disc", 8.999, NO_MOST), ("eccentric", "radius Bore", NO_LEAST, 17.001),
    ("eccentric", "distance Disc.centre Bore.centre", NO_LEAST, 14.001),
    # B lies from 10 to 30 on A, which is 40 long.
    ("edge-laid-on-another", "length A", 30, NO_MOST), ("edge-laid-on-another", "x B.start", 0, 20),
    ("edge-laid-on-another", "length B", NO_LEAST, 30),
    # The centres of side, bottom and top are 60 - 30, 60 - 20 and 30 apart.
    ("egg", "radius Bottom", NO_LEAST, 49.999), ("egg", "radius SideR", 40.001, NO_MOST),
    ("egg", "distance Bottom.centre Top.centre", 10.001, 69.999),
    # The post stays on its base, which is 80 long as drawn.
    ("fixed-frame", "x Post.start", 0, 80),
    # The holes of 10 lie in ears of 12.
    ("flange", "diameter H1", NO_LEAST, 24.002),
    # The holes of 12 lie between a hub of 50 and a rim of 120, on a pitch of 85.
    ("gear-blank", "diameter Rim", 96.998, NO_MOST),
    ("gear-blank", "diameter Pitch", 61.998, 108.002),
    # Holes of 5 are 20 and 30 apart.
    ("grid-of-holes", "distance A1.centre A2", 4.999, None),
    ("grid-of-holes", "diameter A1", NO_LEAST, 20.001),
    # The flat lies 2 below the middle of a circle of 16.
    ("half-moon-key", "diameter Round", 4.001, NO_MOST),
    ("half-moon-key", "y Flat.start 2", 0, 7.999),
    # The gaps' floor lies 40 - 30 above the base.
    ("heat-sink", "length F1Right", NO_LEAST, 40),
    # A hexagon's sides lie cos 30 of its corners' radius from the middle.
    ("hexagon-nut", "radius Around", 7.999 / cos(pi / 6), NO_MOST),
    ("hexagon-nut", "diameter Bore", NO_LEAST, 2 * (30 * cos(pi / 6) + .001)),
    # The other rafter rises at 45 degrees, and meets a line at any other angle.
    ("house", "angle RoofR", LEAST_ANGLE, MOST_ANGLE),
    # The side goes from where the head is 4 wide to 30 below its middle.
    ("keyhole", "radius Head", 4, sqrt(30 ** 2 + 4 ** 2)),
    # Twice 29, and twice 52, are more than 40.
    ("kite", "length A", 20.001, None), ("kite", "distance A.end", NO_LEAST, 57.999),
    ("lens", "radius Under", 30.001, NO_MOST), ("lens", "distance A B", NO_LEAST, 99.999),
    # The eyes of 16 and 10 stay apart and within the ends of 15 and 10.
    ("link-plate", "Pitch", 12.999, NO_MOST), ("link-plate", "diameter EyeA", NO_LEAST, 30.002),
    ("link-plate", "diameter EyeB", NO_LEAST, 20.002), ("link-plate", "radius EndA", 8, 69.999),
    # Each hole of 6 has a diameter of its own; they are 50 apart.
    ("mirrored-holes", "x Left.centre", 5.999, NO_MOST),
    ("mirrored-holes", "diameter Left", NO_LEAST, 94.002),
    # The mirror is drawn 39 over 40, and square to that it runs neither way.
    ("mirrored-in-a-slanted-line", "angle Mirror", LEAST_ANGLE, 90 + degrees(atan(39 / 40))),
    # At 50 beside 50 the point lies on the mirror, and is its own image.
    ("mirrored-in-a-slanted-line", "y P", 0, 49.999),
    # A side as long as the height is square to the base.
    ("parallelogram-by-height", "distance South", NO_LEAST, 30),
    ("parallelogram-by-height", "length East", 24, None),
    # A regular pentagon has any size.
    ("pentagon", "radius Around", NO_LEAST, NO_MOST),
    # Inches: 114.3 by 63.5, the hole of 6.35 at 57.15, 31.75.
    ("plate-in-inches", "length PlateBottom", 60.324, NO_MOST),
    ("plate-in-inches", "length PlateLeft", 34.924, NO_MOST),
    ("plate-in-inches", "diameter Hole", NO_LEAST, 63.502),
    # Holes of 9 at 15 and 105, 15 and 65, in a plate of 120 by 80.
    ("plate-with-four-holes", "length PlateBottom", 109.499, NO_MOST),
    ("plate-with-four-holes", "x H1", 4.499, 25.501),
    ("plate-with-four-holes", "y H1", 4.499, 25.501),
    ("plate-with-four-holes", "distance H1.centre H2", 8.999, 100.501),
    ("plate-with-four-holes", "distance H1.centre H4", 8.999, 60.501),
    ("plate-with-four-holes", "diameter H1", NO_LEAST, 30.002),
    ("plate-by-values", "Width", 35.999, None), ("radius-by-a-touch", "radius A", NO_LEAST, 19.999),
    ("radius-by-a-touch", "distance A", 10.001, NO_MOST),
    # At 40 E6 goes on along E5; what E1 is longer lies sin 60 of it aside, and a micrometre of that
    # is no corner.
    ("hexagon-by-angles", "length E1", NO_LEAST, 40 + .001 / sqrt(.75)),
    ("hexagon-by-angles", "length E5", NO_LEAST, 40 + .001 / sqrt(.75)),
    # The joints stay on rafters of 4000 / cos 30.
    ("roof-truss", "distance West", NO_LEAST, 4000 / cos(pi / 6)),
    ("roof-truss", "length Tie", 4600 * cos(pi / 6), NO_MOST),
    # At 90 degrees a rafter lies along the post, which beyond that stands beside the tie.
    ("roof-truss", "angle Tie RafterW", None, 90),
    # A slot of 8 in a plate of 100 by 50, from 35 to 65 at 25: a cut of a micrometre is a touch.
    ("slotted-plate", "length PlateBottom", 72.999, NO_MOST),
    ("slotted-plate", "length PlateRight", 32.999, NO_MOST),
    ("slotted-plate", "radius East", NO_LEAST, 25.001),
    ("slotted-plate", "distance West", NO_LEAST, 57.001),
    ("slotted-plate", "x West", 7.999, 62.001), ("slotted-plate", "y West", 7.999, 42.001),
    # Three planets of 10 about a sun of 10; two of them are a quarter turn apart. They are drawn
    # across the ring of 30, so that is no fault, wherever their middles lie. A planet reaches from
    # the sun's rim to 20 beyond: it leaves a ring that it only touches, but for a micrometre.
    ("sun-and-planets", "radius Sun", 19.999 / sqrt(2) - 10, 29.998),
    ("sun-and-planets", "radius Ring", 10.002, NO_MOST),
    # Planets of P are (10 + P) sqrt(2) apart, and cross where that is below 2 P - 0.001.
    ("sun-and-planets", "radius P1", NO_LEAST, (10 * sqrt(2) + .001) / (2 - sqrt(2))),
    # The slot's head lies 62 from the right, 18 from the top, and 18 wide of the neck.
    ("t-slot", "length Bottom", 62, NO_MOST), ("t-slot", "length Right", 18, NO_MOST),
    ("t-slot", "length TopR", 6, 82), ("t-slot", "length NeckR", NO_LEAST, 32),
    ("t-slot", "length ShelfR", NO_LEAST, 11.999), ("t-slot", "length HeadR", NO_LEAST, 30),
    ("t-slot", "length Head ", 18.001, 62), ("t-slot", "distance TopR", NO_LEAST, 17.999),
    ("teardrop", "radius Round", NO_LEAST, 25.999), ("teardrop", "distance Tip", 10.001, NO_MOST),
    # A side as long as the height is square to the base.
    ("triangle-by-height", "length Side", 40, None),
    ("triangle-by-height", "distance Side", NO_LEAST, 50),
    # C lies (30*30 + AB*AB - 40*40) / 2AB from A; CA, drawn as -18 -23, turns about below 11.846.
    ("triangle-on-the-datum", "length AB", 11.846, 69.999),
    ("triangle-on-the-datum", "length BC", 20.001, None),
    ("triangle-on-the-datum", "length CA", 10.001, None),
    ("u-channel", "length Under", 10.001, NO_MOST), ("u-channel", "length Right", 5.001, NO_MOST),
    ("u-channel", "length EndR", NO_LEAST, 54.999),
    ("u-channel", "distance Floor", NO_LEAST, 39.999),
    # Two circles about one centre aren't one.
    ("washer", "diameter Rim", 10.501, NO_MOST), ("washer", "diameter Bore", NO_LEAST, 19.999),
    # From 40 back by 30 and on by 40, and home: the last level edge is 30 long.
    ("z-profile", "length A", 30, 69.999), ("z-profile", "length C", NO_LEAST, 40),
    ("z-profile", "length E", 10.001, NO_MOST), ("z-profile", "length F", NO_LEAST, 59.999),
])
def test_ends_are_those_by_hand(name: str, words: str, low: float | None,
                                high: float | None) -> None:
    """An end that is no whole number of steps is the one next to it, within the range."""
    row = row_of(name, words)
    if low is not None:
        assert -1e-9 <= row.low - low < row.step
    if high is not None:
        assert -1e-9 <= high - row.high < row.step


@pytest.mark.parametrize("name", [
    "washer", "d-shaft", "plate-by-values", "open-hinge", "sun-and-planets",
    "triangle-with-median"])
def test_the_page_is_as_it_is_printed(name: str, program: Program) -> None:
    path = f"python/tests/drawings/{name}.drawing"
    done = subprocess.run(["bench/ranges", "--table", "--jobs", "1", path], cwd=TOP,
                          capture_output=True, text=True, check=True)
    assert f"\n{done.stdout}" in PAGE.read_text()
