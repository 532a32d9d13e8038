"""The command line: what is printed and written, exit statuses, and no traces."""
from __future__ import annotations

import io
import json
import math
import os
import subprocess
import xml.etree.ElementTree as ElementTree
from pathlib import Path

import ezdxf
import pytest

from conftest import TOP
from pertxogai.commands import main
from pertxogai.program import Status
from pertxogai.program.reports import read_solve

EXAMPLES = TOP / "examples"


@pytest.fixture(autouse=True)
def _program(program, monkeypatch) -> None:
    monkeypatch.setenv("PERTXOGAI_SKETCH", program.path)


def judged(capsys, *words: str) -> tuple[int, str, str]:
    status = main(list(words))
    out, err = capsys.readouterr()
    return status, out, err


def test_judge_a_sketch_that_is_well(capsys) -> None:
    status, out, err = judged(capsys, "judge", str(EXAMPLES / "triangle.sketch"))
    assert (status, err) == (0, "")
    assert out.splitlines() == [
        "triangle: well (fully constrained), elements 3, constraints 3, rigid clusters 1",
        "  placed within 0 nm and 0 ppb",
        "  point A 0 0",
        "  point B 4000000 0",
        "  point C 4000000 3000000",
    ]


def row_of(count: int) -> str:
    """A row of points at (10 i, 7 (i mod 3)), each of which has its drawn distances, to a
    micrometre, from the one before it and from the third before it, so that each step of the
    construction is built on the one before it."""
    at = [(10 * number, number % 3 * 7) for number in range(count)]
    pairs = [(0, 1), (0, 2), (1, 2)] + [(number - back, number) for number in range(3, count)
                                        for back in (1, 3)]
    points = [f"point P{number} {x} {y}" for number, (x, y) in enumerate(at)]
    lengths = [f"distance P{one} P{two} {math.dist(at[one], at[two]):.3f}" for one, two in pairs]
    return "\n".join(["sketch 1", *points, *lengths, "end", ""])


def test_what_points_place_and_boxes_do_not_is_told(capsys, tmp_path, program) -> None:
    """The row of 12 lies as it is drawn, but for the rounding of its lengths: no length has a slip.
    Of a flat triangle nothing of points is told, since they place it by luck alone."""
    path, text = tmp_path / "row.sketch", row_of(12)
    path.write_text(text)
    assert program.ask(["solve"], text).status is not Status.DONE
    placed = read_solve(program.ask(["solve", "place=points"], text).text)
    last = [each for each in placed.places if each.name == "P11"][0]
    first = [each for each in placed.places if each.name == "P0"][0]
    across = math.dist((first.x_nm, first.y_nm), (last.x_nm, last.y_nm))
    assert across == pytest.approx(1e6 * math.hypot(110, 14), abs=1e6)
    status, out, _ = judged(capsys, "judge", str(path))
    assert status == 1 and out.splitlines()[-1] == (
        "  what to do: ask `./sketch solve place=points`, which places it within "
        f"{placed.length_tolerance_nm} nm and {placed.angle_tolerance_ppb} ppb: by boxes the "
        "intervals of its steps grow too wide")
    assert placed.length_tolerance_nm <= 1000
    _, out, _ = judged(capsys, "judge", str(EXAMPLES / "faults" / "flat-triangle.sketch"))
    assert "what to do: change a length" in out and "place=points" not in out


@pytest.mark.parametrize(
    "name, lines",
    [
        (
            "braced-square",
            [
                "over",
                "redundant or conflicting in part 1; without these the others can be placed:\n"
                "    c6 : distance C D 4 repeat off 0 nm (redundant)\n",
                "remove any one of these",
            ],
        ),
        (
            "hinge",
            ["open", "part 2 sound elements 4 held 5 due 5 : Pin Door D1 D2", "connect the rigid clusters"],
        ),
        (
            "no-triangle",
            ["well", "can't be placed as drawn (no real solution): fault s1 build height C gap", "of distance A B 5", "change one of these lengths"],
        ),
    ],
)
def test_judge_what_is_not_well(name: str, lines: list[str], capsys) -> None:
    status, out, err = judged(capsys, "judge", str(EXAMPLES / f"{name}.sketch"))
    assert (status, err) == (1, "") and all(line in out for line in lines), out


def test_json_of_a_sketch_that_is_well(capsys) -> None:
    status, out, _ = judged(capsys, "judge", "--json", str(EXAMPLES / "wedge.sketch"))
    found = json.loads(out)
    assert status == 0 and found["file"].endswith("wedge.sketch")
    (sketch,) = found["sketches"]
    assert list(sketch) == [
        "name",
        "verdict",
        "good",
        "why_not",
        "parts",
        "spelled",
        "exact",
        "left_out",
        "frozen",
        "spare",
        "excess",
        "places",
        "length_tolerance_nm",
        "angle_tolerance_ppb",
        "fault",
        "other_choice",
        "deviations",
    ]
    assert (sketch["name"], sketch["verdict"], sketch["exact"], sketch["fault"]) == (
        "wedge",
        "well",
        True,
        None,
    )
    assert (sketch["good"], sketch["why_not"]) == (True, [])
    assert sketch["places"]["Top"] == {"x_nm": 60000000, "y_nm": 34641015}
    assert sketch["places"]["Back"] == {"a_ppb": -1000000000, "b_ppb": 0, "c_nm": -60000000}
    assert (sketch["length_tolerance_nm"], sketch["angle_tolerance_ppb"]) == (1, 1)
    assert sketch["deviations"] == [
        {"amount": 1, "unit": "nm", "of": "on Top Face"},
        {"amount": 1, "unit": "ppb", "of": "line Face"},
    ]


def test_json_of_what_is_not_well(capsys) -> None:
    (sketch,) = json.loads(
        judged(capsys, "judge", "--json", str(EXAMPLES / "hole-row.sketch"))[1]
    )["sketches"]
    assert (sketch["verdict"], sketch["places"], sketch["good"]) == ("over", None, False)
    assert [each["why"] for each in sketch["why_not"]] == ["verdict"]
    assert sketch["spare"][5] == {"number": 6, "name": "distance A C 70"}
    (over,) = sketch["excess"]
    assert (over["part"], over["fault"], over["stays_over"]) == (1, None, False)
    (left_out,) = over["left_out"]
    assert (left_out["name"], left_out["repeats"]) == ("distance A C 70", True)
    assert (left_out["off"], left_out["unit"], left_out["turned"]) == (0, "nm", False)
    (sketch,) = json.loads(judged(capsys, "judge", "--json", str(EXAMPLES / "hinge.sketch"))[1])[
        "sketches"
    ]
    assert [part["places"]["Pin"] for part in sketch["parts"]] == [{"x_nm": 0, "y_nm": 0}] * 2
    (sketch,) = json.loads(
        judged(capsys, "judge", "--json", str(EXAMPLES / "no-triangle.sketch"))[1]
    )["sketches"]
    assert (
        sketch["fault"]["text"]
        == "fault s1 build height C gap -1443109011456 -1443109011456 bits 38"
    )
    assert sketch["fault"]["constraints"] == ["distance A B 5", "distance A C 1", "distance B C 1"]
    assert sketch["fault"]["at"] == ["C"]


def test_json_says_by_how_much_dimensions_miss_each_other(capsys, tmp_path) -> None:
    """40 and 50 are 10 short of 100."""
    path = tmp_path / "short.drawing"
    path.write_text("segment Base 0 0 100 0\nsegment Left 60 30 Base.start\nsegment Right Left.start Base.end\n"
                    "coincident Base.start Origin\non Base.end XAxis\nlength Base 100\nlength Left 50\n"
                    "length Right 40\n")
    (sketch,) = json.loads(judged(capsys, "judge", "--json", str(path))[1])["sketches"]
    assert "10 mm too short to meet" in sketch["fault"]["message"]
    lines = judged(capsys, "judge", str(path))[1]
    assert f"can't be placed as drawn: {sketch['fault']['message']}" in lines.replace("\u00a0", " ")


def test_json_of_a_drawing_has_the_same_members(capsys, tmp_path) -> None:
    path = tmp_path / "plate.drawing"
    path.write_text("segment Base 0 0 60 0\nlength Base 60\n")
    judged(capsys, "judge", "--json", str(path))
    main(["judge", "--json", str(path)])
    (sketch,) = json.loads(capsys.readouterr().out)["sketches"]
    assert {
        "name",
        "verdict",
        "good",
        "why_not",
        "parts",
        "spelled",
        "exact",
        "left_out",
        "frozen",
        "spare",
        "places",
        "length_tolerance_nm",
        "angle_tolerance_ppb",
        "fault",
        "other_choice",
        "deviations",
    } <= set(sketch)


def _not_good(out: Path) -> str:
    """What `draw` says where it has drawn what isn't good."""
    return f"pertxogai: {out}: drawn, but the sketch isn't good, and the picture says why\n"


@pytest.mark.parametrize("name, status", [("bracket", 0), ("hinge", 1), ("hole-row", 1),
                                          ("no-triangle", 1)])
def test_draw_svg(name: str, status: int, capsys, tmp_path) -> None:
    """What isn't good is drawn too, and the status and a line say so."""
    out = tmp_path / "out.svg"
    words = "draw", str(EXAMPLES / f"{name}.sketch"), "-o", str(out)
    assert judged(capsys, *words) == (status, "", _not_good(out) if status else "")
    assert ElementTree.parse(out).getroot().tag.endswith("svg")
    assert [it.name for it in tmp_path.iterdir()] == ["out.svg"]


@pytest.mark.parametrize("release", ["R12", "R2010"])
def test_draw_dxf(release: str, capsys, tmp_path) -> None:
    out = tmp_path / "out.dxf"
    words = ("draw", str(EXAMPLES / "plate.sketch"), "-o", str(out), "--release", release)
    assert judged(capsys, *words) == (0, "", "")
    line, _, circle = ezdxf.read(io.StringIO(out.read_text())).modelspace()
    assert (tuple(line.dxf.start)[:2], tuple(line.dxf.end)[:2]) == ((20, 0), (40, 0))
    assert (tuple(circle.dxf.center)[:2], circle.dxf.radius) == ((30, 5), 5)


def write(folder: Path, name: str, data: bytes) -> str:
    (folder / name).write_bytes(data)
    return str(folder / name)


@pytest.mark.parametrize(
    "name, data, inside",
    [
        ("empty.sketch", b"", "refused line 0 E18 empty"),
        ("empty.drawing", b"", ""),
        ("empty.FCStd", b"", ""),
        ("other.sketch", b"\x89PNG\r\n\x1a\n\x00\xff", "refused line 1 E19"),
        ("a.png", b"", "ending .png"),
        ("bare", b"", "ending"),
        ("name.sketch", b"sketch 1\npoint my point 0 0\nend\n", "line 2 E3 shape"),
        ("small.sketch", b"sketch 1\npoint A 0 0\npoint B 0.0004 0\nend\n", "line 3 E8 number"),
        (
            "long.sketch",
            b"sketch 1\n" + b"".join(b"point P%d %d 0\n" % (k, k) for k in range(3000)) + b"end\n",
            "line 2002 E13",
        ),
        ("other.FCStd", b"sketch 1\n", ""),
        ("other.slvs", b"\xff\xfe", ""),
        ("other.dxf", b"x", ""),
    ],
)
def test_bad_files_are_refused_in_a_line(
    name: str, data: bytes, inside: str, capsys, tmp_path
) -> None:
    path = write(tmp_path, name, data)
    for words in (
        ["judge", path],
        ["judge", "--json", path],
        ["draw", path, "-o", str(tmp_path / "out.svg")],
    ):
        status, out, err = judged(capsys, *words)
        if name != "empty.drawing":
            if "--json" in words:
                told, out = json.loads(out), ""
                assert told == {"file": path, "refused": err.removeprefix("pertxogai: ").rstrip()}
            assert (status, out, err.count("\n")) == (2, "", 1), err
            assert err.startswith("pertxogai: ") and inside in err
            assert name.partition(".")[0] in err
            assert not (tmp_path / "out.svg").exists()


def test_files_that_are_not_there_and_outputs_that_cannot_be(capsys, tmp_path) -> None:
    sketch = str(EXAMPLES / "triangle.sketch")
    for words, inside in [
        (["judge", str(tmp_path / "gone.sketch")], "No such file"),
        (["judge", str(tmp_path)], f"{tmp_path}: it is a folder: name the files in it, such as {tmp_path}/*\n"),
        (["range", str(tmp_path)], "it is a folder"),
        (["draw", sketch, "-o", str(tmp_path / "no" / "out.svg")], "can't be written"),
        (["draw", sketch, "-o", str(tmp_path / "out.png")], ".svg or .dxf"),
        (["draw", str(EXAMPLES / "hinge.sketch"), "-o", str(tmp_path / "out.dxf")], "it is open"),
        (["draw", sketch, "--sketch", "other", "-o", str(tmp_path / "out.svg")], "--sketch"),
        (["judge", "--seconds", "0", sketch], "--seconds"),
    ]:
        status, out, err = judged(capsys, *words)
        assert (status, out, err.count("\n")) == (2, "", 1) and inside in err, err
    assert list(tmp_path.iterdir()) == []


def test_programs_that_give_no_answer(capsys, tmp_path) -> None:
    sketch = str(EXAMPLES / "triangle.sketch")
    for body, seconds, inside in [
        ("exec sleep 9", "0.2", "0.2 s"),
        ("kill -SEGV $$", "20", "signal 11"),
        ("echo rubbish", "20", "no report of check"),
        ("exit 5", "20", "memory ran out"),
        ("exit 3", "20", "input"),
        ("exit 77", "20", "status 77"),
    ]:
        script = write(tmp_path, "sketch", b"#!/bin/sh\n" + body.encode() + b"\n")
        os.chmod(script, 0o755)
        status, out, err = judged(capsys, "judge", "--program", script, "--seconds", seconds, sketch)
        assert (status, out, err.count("\n")) == (3, "", 1) and inside in err, err
    status, _, err = judged(capsys, "judge", "--program", str(tmp_path / "gone"), sketch)
    assert status == 3 and "gone" in err


@pytest.mark.parametrize(
    "words",
    [
        [],
        ["paint"],
        ["judge"],
        ["draw", "a.sketch"],
        ["certify", "a", "b", "-o", "c"],
        ["judge", "--seconds", "x", "a"],
        ["judge", "--within", "0", "a"],
        ["judge", "--within", "1000001", "a"],
        ["draw", "--within", "x", "a", "-o", "b.svg"],
    ],
)
def test_words_that_are_not_of_the_form(words: list[str], capsys) -> None:
    with pytest.raises(SystemExit) as ended:
        main(words)
    assert ended.value.code == 2 and "usage: pertxogai" in capsys.readouterr().err


@pytest.mark.parametrize("words", [["--help"], ["judge", "--help"], ["draw", "--help"]])
def test_help(words: list[str], capsys) -> None:
    with pytest.raises(SystemExit) as ended:
        main(words)
    assert ended.value.code == 0 and "exit status" in capsys.readouterr().out


def test_the_launcher(tmp_path) -> None:
    def run(*words: str, **more: str) -> subprocess.CompletedProcess[str]:
        return subprocess.run(
            [str(TOP / "pertxogai"), *words],
            cwd=tmp_path,
            capture_output=True,
            text=True,
            env={**os.environ, **more},
        )

    done = run("judge", str(EXAMPLES / "triangle.sketch"))
    assert (done.returncode, done.stderr) == (0, "") and done.stdout.startswith("triangle: well")
    assert run("judge", str(EXAMPLES / "hinge.sketch")).returncode == 1
    done = run("judge", "x.sketch", PERTXOGAI_PYTHON="/nowhere/python3")
    assert (
        done.returncode == 2 and done.stderr.count("\n") == 1 and "PERTXOGAI_PYTHON" in done.stderr
    )
    closed = subprocess.run(
        ["sh", "-c", f"'{TOP}/pertxogai' judge '{EXAMPLES}/bracket.sketch' | head -n 1"],
        capture_output=True,
        text=True,
    )
    assert closed.stderr == ""


@pytest.mark.parametrize("words", [
    ["--version"], ["judge", "--help"], ["judge", "triangle.sketch"],
    ["judge", "--json", "plate.sketch"],
    ["judge", "--jobs", "1", "plate.sketch", "triangle.sketch"],
])
def test_an_answer_that_a_full_device_does_not_take_is_told(words: list[str]) -> None:
    environment = {**os.environ, "PYTHONUNBUFFERED": ""}
    with open("/dev/full", "w") as full:
        done = subprocess.run([str(TOP / "pertxogai"), *words], cwd=EXAMPLES, stdout=full,
                              stderr=subprocess.PIPE, text=True, env=environment)
    assert (done.returncode, done.stderr) == (
        2, "pertxogai: the answer can't be written: No space left on device\n")


def test_the_example_of_the_readme(tmp_path) -> None:
    def run(*sides: str) -> subprocess.CompletedProcess[str]:
        words = [
            "/usr/bin/python3",
            str(TOP / "python" / "examples" / "triangle.py"),
            *sides,
            str(tmp_path / "out.svg"),
        ]
        return subprocess.run(
            words,
            capture_output=True,
            text=True,
            env={**os.environ, "PYTHONPATH": str(TOP / "python")},
        )

    assert run("4", "5", "3").stdout.splitlines() == [
        "well",
        "point A 0 0",
        "point B 4000000 0",
        "point C 4000000 3000000",
    ]
    assert run("5", "1", "1").stdout.splitlines() == [
        "well",
        "distance A B 5",
        "distance A C 1",
        "distance B C 1",
    ]
    assert ElementTree.parse(tmp_path / "out.svg").getroot().tag.endswith("svg")
    assert "the nearest is 3 mm" in run("4", "5", "3.00005").stderr


def test_names_that_are_no_text(tmp_path) -> None:
    """A file name of any byte, and a terminal of few letters."""
    path = os.fsencode(tmp_path) + b"/\xff\xc3\xbc.sketch"
    with open(path, "wb") as file:
        file.write((EXAMPLES / "triangle.sketch").read_bytes())
    for words in (
        [b"judge", path],
        [b"judge", b"--json", path],
        [b"draw", path, b"-o", path + b".svg"],
    ):
        done = subprocess.run(
            [os.fsencode(TOP / "pertxogai"), *words],
            capture_output=True,
            env={**os.environ, "LC_ALL": "C", "PYTHONIOENCODING": "ascii"},
        )
        assert (done.returncode, done.stderr) == (0, b"")


def test_a_picture_tells_what_is_left_out(capsys, tmp_path) -> None:
    out = tmp_path / "out.svg"
    file = Path(__file__).parent / "files" / "ellipse.FCStd"
    for status, words in ((1, ["draw", str(file)]), (0, ["draw", "--as-drawn", str(file)])):
        found, _, err = judged(capsys, *words, "-o", str(out))
        assert (found, err) == (status, _not_good(out) if status else "")
        assert "left out of the file: Ellipse" in out.read_text()


def test_pieces_that_share_a_line_without_a_name(capsys, tmp_path: Path) -> None:
    """The hole is told from the left edge alone, so it slides along y, on a line that no one
    drew."""
    path = tmp_path / "plate.drawing"
    path.write_text(
        "rectangle Plate 0 0 100 60\ncircle Hole 30 20 6\ncoincident PlateBottom.start Origin\n"
        "length PlateBottom 100\nlength PlateRight 60\nradius Hole 6\nx Hole 40\n"
    )
    status, out, _ = judged(capsys, "judge", str(path))
    assert status == 1 and ("clusters 1 and 2: they slide along y: add a distance along y between "
                            "points of both\n") in out


def test_a_point_in_two_clusters_is_told_with_the_line_of_each(capsys, tmp_path: Path) -> None:
    """H lies level with K and above L, and nothing else ties these: H is in the cluster of its
    horizontal line, on which K lies, and in that of its vertical line, on which L lies."""
    path = tmp_path / "holes.drawing"
    path.write_text(
        "rectangle Plate 0 0 80 50\ncoincident PlateBottom.start Origin\nlength PlateBottom 80\n"
        "length PlateRight 50\ncircle H 8 8 2\ncircle K 72 8 2\ncircle L 8 42 2\ndiameter H 4\n"
        "equal H K L\nhorizontal H.centre K.centre\nvertical H.centre L.centre\n"
    )
    _, out, _ = judged(capsys, "judge", "--no-search", str(path))
    clusters = [line.partition(": ")[2] for line in out.splitlines() if "  cluster " in line]
    assert sorted(clusters[1:]) == [
        "H.centre, with a horizontal line of the encoding",
        "H.centre, with a vertical line of the encoding",
        "K.centre, with a horizontal line of the encoding",
        "L.centre, with a vertical line of the encoding",
    ]


ROUNDED = """segment Bottom 6 0 74 0
arc SE 74 6 Bottom.end 80 6
segment Right SE.end 80 44
arc NE 74 44 Right.end 74 50
segment Top NE.end 6 50
arc NW 6 44 Top.end 0 44
segment Left NW.end 0 6
arc SW 6 6 Left.end Bottom.start
tangent Bottom SE
tangent SE Right
tangent Right NE
tangent NE Top
tangent Top NW
tangent NW Left
tangent Left SW
tangent SW Bottom
collinear Bottom XAxis
collinear Left YAxis
horizontal Top
vertical Right
radius SE 6
equal SE NE NW SW
y Top.start 50
Wide: x Right.end 80
circle Hole 8 8 2.5
diameter Hole 5
Along: x Hole 8
y Hole 8
Across: distance Hole Right 70
"""


def test_what_opens_a_drawing_stands_below_what_does_not(capsys, tmp_path: Path) -> None:
    """The hole is 8 from the left and 70 from the right of a plate that is 80 wide: 2 mm too few.
    Without any of the three the rest is well; without the direction of the right edge it is open,
    as rounded corners alone don't hold that."""
    path = tmp_path / "rounded.drawing"
    path.write_text(ROUNDED)
    _, out, _ = judged(capsys, "judge", "--no-search", str(path))
    lines = out.splitlines()
    first = lines.index("  what to do: remove one of these, and judge again (by rank; each was"
                        " tried)")
    assert [line for line in lines[first + 1:first + 4] if line.startswith("    ")] == [
        f"    '{name}': conflicting, off by 2 mm; without it the rest is well"
        for name in ("Wide", "Along", "Across")]
    assert lines[first + 4] == "  removable too, but then the rest is open:"
    assert lines[first + 5] == "    constraint 12 (vertical Right); without it the rest is open"


def test_what_opens_a_drawing_stands_below_where_two_have_to_go(capsys, tmp_path: Path) -> None:
    """The top edge has its height twice more: one of these has to go, and one of the three across.
    Without the direction of the right edge, and that height, the rest is open."""
    path = tmp_path / "rounded.drawing"
    path.write_text(ROUNDED + "Twice: y Top.end 50\n")
    _, out, _ = judged(capsys, "judge", "--no-search", str(path))
    lines = out.splitlines()
    below = lines.index("  removable too, but then the rest is open:")
    assert ("  what to do: more than one has to go; remove one of these, and judge again "
            "(by rank; each was tried)" in lines)
    above = [line for line in lines[:below] if line.startswith("    '")]
    assert [line.split("'")[1] for line in above] == ["Wide", "Along", "Across", "Twice"]
    assert ("    constraint 12 (vertical Right); without it the rest is over still, and open once "
            "enough is removed") in lines[below:]


def test_what_is_loose_beside_it_makes_nothing_open_a_drawing(capsys, tmp_path: Path) -> None:
    """A plate with its width and its height told twice, and a hole without a height, which lacks
    one whatever goes: no line of the plate opens more but that it lies at the origin."""
    path = tmp_path / "plate.drawing"
    path.write_text("rectangle P 0 0 100 50\ncoincident PBottom.start Origin\n"
                    "Wide: length PBottom 100\nWide2: x PTop.start 100\nHigh: length PRight 50\n"
                    "High2: y PTop.end 50\ncircle H 20 20 5\ndiameter H 10\nx H 20\n")
    _, out, _ = judged(capsys, "judge", "--no-search", str(path))
    assert "open once enough is removed" not in out and "removable too" not in out
    for name in ("Wide", "Wide2", "High", "High2"):
        assert f"    '{name}': redundant, off by 0 nm; without it the rest is over still\n" in out
    assert "  a dimension is missing all the same (by rank): no dimension gives the y of H" in out


def test_one_redundancy_is_told_once(capsys, tmp_path: Path) -> None:
    """That A is level follows from its line, the x axis; that P lies free is another matter."""
    path = tmp_path / "level.drawing"
    path.write_text("segment A 0 0 40 0\npoint P 20 10\nhorizontal A\ncollinear A XAxis\n"
                    "x A.start 0\nlength A 40\ny P 10\n")
    _, out, _ = judged(capsys, "judge", str(path))
    assert [line for line in out.splitlines() if "redundant" in line] == [
        "  redundant, and removable: constraint 1 (horizontal A), given constraint 2 (collinear A "
        "XAxis) (by numbers)"]
