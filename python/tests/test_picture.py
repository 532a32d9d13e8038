"""Pictures: what stands in the SVG, where texts go, and how a part is laid on its drawing."""
from __future__ import annotations

import math
import re
import xml.etree.ElementTree as ElementTree
from fractions import Fraction

import pytest

from conftest import EXAMPLES, TOP
from pertxogai.board.marks import marks
from pertxogai.drawing import PointRef, Which, read_drawing
from pertxogai.judging.judged_sketch import judge_sketch
from pertxogai.judging.measure import Frame, Solution
from pertxogai.language import Sketch
from pertxogai.output.picture.fitting import Motion
from pertxogai.output.picture import (
    Bow, Dot, Ink, LengthBar, Manner, Marking, Ring, Scene, Square, Stroke, Tag, picture_of,
    picture_of_designed, picture_of_drawing, picture_of_parts, picture_of_shape)
from pertxogai.output.picture.drawings import DrawnPlaces
from pertxogai.output.picture.page import Figure, Page
from pertxogai.output.picture.placed import (
    LaidLine, as_drawn, as_placed, laid_on, moved, segments)
from pertxogai.output.picture.plane import crosses, crossing, foot, overlaps
from pertxogai.output.picture.texts import Texts
from pertxogai.output.sketch_picture import picture_of_judged
from pertxogai.program.reports import Spare, read_parts, read_solve

SVG = "{http://www.w3.org/2000/svg}"
TRIANGLE = Sketch.parse(
    "sketch 1\npoint A 0 0\npoint B 4 0\npoint C 4 3\ndistance A B 4\ndistance A C 5\n"
    "distance B C 3\nend\n"
)
PLACES = read_solve(
    "verdict well\nsteps 1\nbits 38\npoint A 0 0\npoint B 4000000 0\npoint C 4000000 3000000\n"
    "length tolerance 0 nm at c1\nangle tolerance 0 ppb at none\n"
)


def texts_of(svg: str) -> list[str]:
    return [it.text or "" for it in ElementTree.fromstring(svg).iter(f"{SVG}text")]


def boxes_of(svg: str) -> list[tuple[float, float, float, float]]:
    """The boxes of names and dimensions, a little less wide than they are taken to be."""
    boxes = []
    for it in ElementTree.fromstring(svg).iter(f"{SVG}text"):
        size = {"name": 14, "length": 12}.get(it.get("class", ""))
        if size:
            x, y, wide = (
                float(it.get("x", 0)),
                float(it.get("y", 0)),
                len(it.text or "") * size * 0.5,
            )
            boxes.append((x - wide / 2, y - 0.7 * size, x + wide / 2, y))
    return boxes


def test_a_placed_triangle() -> None:
    picture = picture_of_shape(TRIANGLE, PLACES, "a <triangle> & more")
    root = ElementTree.fromstring(picture.svg)
    assert root.findtext(f"{SVG}title") == "a <triangle> & more"
    assert sorted(texts_of(picture.svg)) == ["3", "4", "5", "A", "B", "C"]
    assert len([it for it in root.iter(f"{SVG}circle") if it.get("class") == "f0"]) == 3
    assert len([it for it in root.iter(f"{SVG}line") if it.get("class") == "bar"]) == 3
    assert picture._repr_svg_() == picture.svg


def test_a_page_keeps_proportions_and_puts_y_up() -> None:
    page = Page.fitted(Scene("", (Dot((0, 0)), Dot((4, 0)), Dot((4, 3)))))
    a, b, c = (page.at(spot) for spot in ((0, 0), (4, 0), (4, 3)))
    assert a[1] == b[1] > c[1]
    assert math.dist(a, b) / math.dist(b, c) == pytest.approx(4 / 3)
    for x, y in (a, b, c):
        assert 40 < x < page.width - 40 and 40 < y < page.height - 40


def test_every_kind_of_mark_and_dimension() -> None:
    scene = Scene(
        "all",
        (
            Dot((0, 0), "P"),
            Stroke((0, 0), (10, 0), "S", Ink(Manner.CONSTRUCTION)),
            Ring((5, 5), 2, "R"),
            Bow((0, 0), (10, 0), (0, 10), "Q"),
        ),
        (
            LengthBar((0, 0), (10, 0), "10"),
            Tag((0, 0), 0.0, "90°"),
            Square((0, 0), (1, 0), (0, 1)),
        ),
        (("a line", Ink(part=2)),),
    )
    root = ElementTree.fromstring(picture_of(scene).svg)
    assert sorted(texts_of(picture_of(scene).svg)) == ["10", "90°", "P", "Q", "R", "S", "a line"]
    path = next(it for it in root.iter(f"{SVG}path")).get("d", "")
    x1, y1, radius, _, _, large, sweep, x2, y2 = map(float, re.findall(r"-?[\d.]+", path))
    assert (large, sweep) == (0, 0) and x1 > x2 and y1 > y2  # a quarter to the left, y down
    assert radius == pytest.approx(x1 - x2, abs=0.2) == pytest.approx(y1 - y2, abs=0.2)
    assert any("construction" in it.get("class", "") for it in root.iter(f"{SVG}line"))


def test_an_arc_of_more_than_half_a_turn() -> None:
    path = re.search(r' d="(.*?)"', picture_of(Scene("", (Bow((0, 0), (1, 0), (0, -1)),))).svg)
    assert path and path[1].split()[7:9] == ["1", "0"]


def test_a_scene_of_one_place_and_of_none() -> None:
    for scene in (Scene("", (Dot((7, 7), "A"),)), Scene("", ())):
        assert "nan" not in picture_of(scene).svg and "inf" not in picture_of(scene).svg


@pytest.mark.parametrize("path", EXAMPLES, ids=lambda path: path.stem)
def test_each_example(path, program) -> None:
    judged = judge_sketch(path.stem, path.read_text(), program)
    for svg in (picture_of_judged(judged).svg, picture_of_judged(judged, as_drawn=True).svg):
        assert "nan" not in svg and {it.name for it in judged.sketch.elements} <= set(
            texts_of(svg)
        )
        root = ElementTree.fromstring(svg)
        wide, tall = float(root.get("width", 0)), float(root.get("height", 0))
        for left, top, right, bottom in boxes_of(svg):
            assert -4 <= left and right <= wide + 4 and 0 <= top and bottom <= tall


@pytest.mark.parametrize(
    "name",
    [
        "bracket",
        "flange",
        "wedge",
        "rectangle",
        "gusset",
        "roof-truss",
        "slotted-plate",
        "belt-drive",
        "four-bar",
        "arm",
        "motor",
        "hinge",
        "braced-square",
    ],
)
def test_texts_do_not_cover_each_other(name: str, program) -> None:
    path = TOP / "examples" / f"{name}.sketch"
    boxes = boxes_of(picture_of_judged(judge_sketch(name, path.read_text(), program)).svg)
    covered = [
        (one, two) for k, one in enumerate(boxes) for two in boxes[:k] if overlaps(one, two)
    ]
    assert len(covered) <= (1 if name == "flange" else 0)


def test_a_name_goes_where_it_covers_least() -> None:
    marks = (
        Dot((0, 0), "A"),
        Stroke((0, 0), (0, 50)),
        Stroke((0, 0), (0, -50)),
        Stroke((0, 0), (50, 0)),
        Stroke((0, 0), (50, 50)),
        Stroke((0, 0), (50, -50)),
    )
    page = Page.fitted(Scene("", marks))
    texts = Texts(page, [Figure.of(mark, page) for mark in marks], [])
    texts.put_name(Figure.of(marks[0], page))
    assert texts.written[0].at[0] < page.at((0, 0))[0]  # to the left is nothing


def test_parts_are_laid_on_their_drawing() -> None:
    """Turned by the angle of a 3-4-5 triangle and moved: laying it on the drawing undoes both."""
    drawn = as_drawn(TRIANGLE.elements)
    elsewhere = moved(drawn, Motion(0.6, 0.8, 70.0, -20.0))
    for one, two in zip(laid_on(elsewhere, drawn), drawn):
        assert math.dist(one.at, two.at) < 1e-6


def test_a_part_is_not_mirrored() -> None:
    mirrored = read_solve(PLACES.text().replace("4000000 3000000", "4000000 -3000000"))
    laid = {
        it.name: it.at for it in laid_on(as_placed(mirrored.places), as_drawn(TRIANGLE.elements))
    }
    (ax, ay), (bx, by), (cx, cy) = laid["A"], laid["B"], laid["C"]
    assert (bx - ax) * (cy - ay) - (by - ay) * (cx - ax) < 0


def test_a_part_of_lines_is_laid_on_their_directions() -> None:
    sketch = Sketch.parse("sketch 1\nline L 5 5 5 25\npoint P 2 10\ndistance P L 3\nend\n")
    placed = as_placed(
        read_solve(
            "verdict well\nsteps 0\nbits 38\nline L 0 1000000000 0\npoint P 0 3000000\n"
            "length tolerance 0 nm at c1\nangle tolerance 0 ppb at line L\n"
        ).places
    )
    line, point = laid_on(placed, as_drawn(sketch.elements))
    assert isinstance(line, LaidLine)
    assert line.way == pytest.approx((0, 1)) and line.through[0] == pytest.approx(5)
    assert point.at == pytest.approx((2, 10))


def test_lines_run_over_what_is_tied_to_them() -> None:
    sketch = Sketch.parse(
        "sketch 1\nline L 0 0 1 0\nline N 0 9 1 9\npoint P 2 0\ncircle H 30 5 5\npoint Q 7 7\n"
        "on P L\ntangent L H\nend\n"
    )
    found = segments(sketch, as_drawn(sketch.elements))
    assert found["L"] == ((2, 0), (30, 0))
    assert found["N"] == ((-10, 9), (10, 9))  # nothing is tied to it: 10 mm to either side


def test_parts_have_colours_and_spare_ones_are_marked() -> None:
    text = (
        "sketch 1\npoint A 0 0\npoint B 4 0\npoint C 9 9\npoint D 12 9\ndistance A B 4\ndistance"
        " B A 4\n"
        "distance C D 3\nend\n"
    )
    sketch = Sketch.parse(text)
    report = read_parts(
        "verdict over\nparts 2\npart 1 over elements 2 held 2 due 1 : A B\n"
        "part 2 sound elements 2 held 1 due 1 : C D\nsteps 0\nbits 38\npoint C 0 0\npoint D"
        " 3000000 0\n"
        "length tolerance 0 nm at c3\nangle tolerance 0 ppb at none\n"
    )
    spare = tuple(Spare(number, sketch.constraints[number - 1]) for number in (1, 2))
    svg = picture_of_parts(sketch, report, spare).svg
    assert {
        "c1: 4",
        "c2: 4",
        "3",
        "part 1, over-constrained, constraints 2, required 1: A B",
        "part 2, placed: C D",
        "removable, each by itself: c1, c2",
    } <= set(texts_of(svg))
    root = ElementTree.fromstring(svg)
    assert {it.get("class") for it in root.iter(f"{SVG}circle")} == {"f1", "f2"}
    assert [it.get("class") for it in root.iter(f"{SVG}line")] == ["spare", "spare", "bar"]


def test_a_drawing_as_it_is() -> None:
    assert sorted(texts_of(picture_of_drawing(TRIANGLE).svg)) == ["3", "4", "5", "A", "B", "C"]


def test_angles_and_right_angles() -> None:
    sketch = Sketch.parse(
        "sketch 1\nline X 0 0 9 0\nline Y 0 0 0 9\nline Z 0 0 9 9\npoint P 0 0\npoint Q 9 0\n"
        "point R 0 9\npoint S 9 9\non P X\non Q X\non P Y\non R Y\non P Z\non S Z\nangle X Y 1/0\n"
        "angle X Z 1/1\nend\n"
    )
    svg = picture_of_drawing(sketch).svg
    assert "45°" in texts_of(svg) and svg.count("<polyline") == 1


DIMENSIONED = """segment A 0 0 12345.678 0
segment B 0 0 8000 9000
segment C 12345.678 0 13000 9000
circle H 500 800 33
length A 12345.678
length B 100000.001
length C 10in/3
radius H 1234.56789
angle A B 60.125deg
angle A C 123.456deg
angle B C 360deg/7
"""


def test_dimensions_are_drawn_at_the_values_that_are_told() -> None:
    """10 in / 3 are 84.6666.. mm, to the nanometre 84.666667; 360/7 are 51.428571 degrees."""
    drawing = read_drawing(DIMENSIONED)
    told = {"12345.678", "100000.001", "84.666667", "R1234.56789", "60.125°", "123.456°",
            "51.428571°", "A", "B", "C", "H"}
    assert set(texts_of(picture_of_designed(drawing).svg)) == told
    shown = {mark["text"] for number, constraint in enumerate(drawing.constraints, 1)
             for mark in marks(DrawnPlaces(drawing, None), number, constraint)}
    assert shown == told - set("ABCH")


@pytest.mark.parametrize("p, q, degrees", [
    (1, 2, "26.5651°"), (-1, 30, "1.9092°"), (2911, 5042, "30°"), (1, 1, "45°")])
def test_the_angle_of_a_ratio_is_told_to_a_ten_thousandth(p: int, q: int, degrees: str) -> None:
    """atan(1/2) is 26.56505.., atan(1/30) 1.90915.. degrees."""
    lines = "line L 0 0 1 0\nline M 0 0 1 1"
    sketch = Sketch.parse(f"sketch 1\n{lines}\nangle L M {p}/{q}\nend\n")
    assert degrees in texts_of(picture_of_drawing(sketch).svg)
    drawing = read_drawing(f"segment L 0 0 1 0\nsegment M 0 0 1 1\nangle L M {p}/{q}\n")
    assert degrees in texts_of(picture_of_designed(drawing).svg)


def test_a_designers_drawing_as_drawn_and_as_placed() -> None:
    drawing = read_drawing(
        "segment Base 0 0 60 0\narc Bend 60 10 60 0 70 10\ncircle Hole 20 20 5\npoint P 1 2\n"
        "length Base 60\nradius Hole 5\n"
    )
    assert {"Base", "Bend", "Hole", "P", "60", "R5"} == set(
        texts_of(picture_of_designed(drawing).svg)
    )
    base = [PointRef("Base", Which.START), PointRef("Base", Which.END)]
    places = {
        base[0]: (0, 0),
        base[1]: (0, 60_000_000),
        PointRef("Bend", Which.CENTRE): (-10_000_000, 60_000_000),
        PointRef("Bend", Which.START): (0, 60_000_000),
        PointRef("Bend", Which.END): (-10_000_000, 70_000_000),
        PointRef("Hole", Which.CENTRE): (-20_000_000, 20_000_000),
        PointRef("P"): (-2_000_000, 1_000_000),
    }
    turned = Solution(places, {"Hole": 5_000_000, "Bend": 10_000_000}, Frame((0, 0), (0, 1)))
    assert picture_of_designed(drawing, turned).svg == picture_of_designed(drawing).svg


def test_plane_geometry() -> None:
    box = (0.0, 0.0, 10.0, 10.0)
    assert (
        crosses((-5, 5), (15, 5), box)
        and crosses((5, 5), (6, 6), box)
        and crosses((-5, 0), (0, 0), box)
    )
    assert not crosses((-5, -1), (15, -1), box) and not crosses((-5, 8), (3, 16), box)
    assert crossing(((0, 0), (1, 0)), ((5, 5), (5, 6))) == (5, 0)
    assert crossing(((0, 0), (1, 0)), ((5, 5), (6, 5))) is None


def test_pieces_of_a_drawing_have_colours_and_what_may_go_is_marked() -> None:
    drawing = read_drawing(
        "segment A 0 0 60 0\nsegment B 0 20 60 20\nhorizontal A B\nlength A 60\nlength B 50\n"
    )
    marking = Marking(
        {"A": 1, "B": 2}, frozenset({1, 3}), (("piece 2: B", Ink(part=2)), ("long " * 40, Ink()))
    )
    svg = picture_of_designed(drawing, None, "two", marking).svg
    root = ElementTree.fromstring(svg)
    classes = [it.get("class") for it in root.iter(f"{SVG}line")]
    assert (
        classes.count("edge p1") == 1
        and classes.count("edge p2") == 1
        and classes.count("spare") == 1
    )
    assert {drawing.called(1), "60", "50", "piece 2: B"} <= set(texts_of(svg))
    assert max(map(len, texts_of(svg))) < 80  # what is long goes on in the next line


def test_a_sketch_without_places_says_why_below_it(program) -> None:
    text = TRIANGLE.text().replace("distance A C 5", "distance A C 9")
    judged = judge_sketch("far", text, program)
    told = texts_of(picture_of_judged(judged).svg)
    assert any(it.startswith("can't be placed, shown as drawn: fault s1 build height C gap") for it in told)
    assert "of distance A C 9" in told and any(it.startswith("what to do:") for it in told)
    assert "of distance A C 9" not in texts_of(picture_of_judged(judged, as_drawn=True).svg)


def test_a_picture_to_scale_is_as_long_on_paper_as_its_scale_says() -> None:
    """A plate 120 mm wide at 1:2 is 60 mm wide on paper; SVG has 96 pixels to 25.4 mm."""
    plate = read_drawing("segment Edge 0 0 120 0\nlength Edge 120\n")
    drawn = picture_of_designed(plate, None, "plate", Marking()).to_scale(Fraction(1, 2))
    root = ElementTree.fromstring(drawn.svg)
    width, view = root.get("width", ""), root.get("viewBox", "").split()
    assert width.endswith("mm")
    assert float(width[:-2]) == pytest.approx(float(view[2]) / 96 * 25.4, abs=1e-3)
    (edge,) = [it for it in root.iter(f"{SVG}line") if "edge" in (it.get("class") or "")]
    pixels = float(edge.get("x2", 0)) - float(edge.get("x1", 0))
    assert pixels / 96 * 25.4 == pytest.approx(60, abs=0.05)


@pytest.mark.parametrize("width_mm, scale, length", [
    # The page is the drawing and 44 pixels at each side; a third of it holds the bar.
    (120, Fraction(1, 1), 20),    # (120 + 2 * 11.64) / 3 = 47.8: 20, since 50 is too long
    (120, Fraction(1, 2), 50),    # (60 + 23.3) / 3 = 27.8 on paper, 55.5 drawn
    (3, Fraction(100, 1), 1),     # (300 + 23.3) / 3 = 107.8 on paper, 1.08 drawn
    (1000, Fraction(1, 10), 200)])  # (100 + 23.3) / 3 = 41.1 on paper, 411 drawn
def test_the_bar_is_round_and_takes_at_most_a_third(
        width_mm: float, scale: Fraction, length: float) -> None:
    scene = Scene("edge", (Stroke((0.0, 0.0), (width_mm, 0.0), "", Ink()),), (), ())
    svg = picture_of(scene).to_scale(scale).svg
    assert texts_of(svg)[-1] == f"{length} mm, scale {scale.numerator}:{scale.denominator}"
    (bar,) = [it for it in ElementTree.fromstring(svg).iter(f"{SVG}polyline")]
    spots = [float(it.split(",")[0]) for it in (bar.get("points") or "").split()]
    assert (max(spots) - min(spots)) / 96 * 25.4 == pytest.approx(length * float(scale), abs=0.01)


@pytest.mark.parametrize("radius_m", [3, 30, 1000])
def test_a_page_of_any_size_has_few_cells(radius_m: int) -> None:
    """Of 2 m each way a page to scale has as many cells as any larger one: 200 along each side, and
    two or three that the edge of a shape touches besides."""
    scene = Scene("ring", (Ring((0.0, 0.0), radius_m * 1000.0, "Ring"),), (), ())
    page = Page.to_scale(scene, 1.0)
    texts = Texts(page, [Figure.of(mark, page) for mark in scene.marks], [])
    assert 150 ** 2 < len(texts.figures) < 203 ** 2
    assert "Ring" in texts_of(picture_of(scene).to_scale(Fraction(1)).svg)


@pytest.mark.parametrize("name", ["triangle", "square", "d-shaft", "bent-sheet"])
@pytest.mark.parametrize("scale", [1, 2, 5])
def test_no_name_is_cut_off_on_a_page_that_is_little_wider(name: str, scale: int) -> None:
    """A name of 10 letters, 14 pixels high, is 81 wide; the least page is 92."""
    drawing = read_drawing((TOP / f"python/tests/drawings/{name}.drawing").read_text())
    svg = picture_of_designed(drawing, None, name, Marking()).to_scale(Fraction(1, scale)).svg
    root = ElementTree.fromstring(svg)
    _, _, width, height = map(float, root.get("viewBox", "").split())
    for it in root.iter(f"{SVG}text"):
        half = len(it.text or "") * 14 * 0.58 / 2
        x, y = (float(it.get(axis, 0)) for axis in "xy")
        assert it.get("class") != "name" or (half <= x <= width - half and 9 <= y <= height - 2)


def test_no_name_is_cut_off_at_the_edge_of_the_page() -> None:
    """The name of a corner of 8 mm, beside which a hole and its dimensions stand, is wider than
    the margin: it stands within the plate, over other lines where there is no other room."""
    plate = read_drawing("segment Bottom 8 0 102 0\nsegment Left 0 62 0 8\n"
                         "arc CornerSW 8 8 Left.end Bottom.start\ncircle H1 10 10 3.25\n"
                         "circle H2 100 10 3.25\ncircle H4 10 60 3.25\nradius CornerSW 8\n"
                         "x H1 10\ny H1 10\nx H2 100\ny H2 10\nx H4 10\ny H4 60\ndiameter H1 6.5\n")
    svg = picture_of_designed(plate, None, "plate", Marking()).to_scale(Fraction(1)).svg
    root = ElementTree.fromstring(svg)
    width = float(root.get("viewBox", "").split()[2])
    names = [it for it in root.iter(f"{SVG}text") if it.get("class") == "name"]
    assert {"CornerSW", "Bottom", "Left"} <= {it.text for it in names}
    for it in names:
        half, x = len(it.text or "") * 14 * 0.58 / 2, float(it.get("x", 0))
        assert 0 < x - half and x + half < width, it.text


def test_the_foot_on_an_edge_that_has_come_to_nothing() -> None:
    assert foot((3, 4), (0, 0), (10, 0)) == (3, 0)
    assert foot((3, 4), (1, 1), (1, 1)) == (1, 1)
