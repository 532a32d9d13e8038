"""How the pieces of an open drawing are laid on it: turned to the drawing, about what is fixed."""
from __future__ import annotations

from math import hypot

import pytest

from pertxogai.board.board_drawing import BoardDrawing
from pertxogai.board.document import read_document
from pertxogai.board.laying import Piece, in_turn
from pertxogai.board.placed_parts import parts_laid
from pertxogai.judging.edited import EditedDrawing
from pertxogai.output.picture.fitting import Motion
from pertxogai.output.picture.marks import PointMm
from pertxogai.program import Program
from pertxogai.program.reports import Verdict

CRANK = """segment Ground 0 0 40 0
segment Crank Ground.start 10 25
coincident Ground.start Origin
on Ground.end XAxis
length Ground 40
length Crank 30
"""
ORIGIN = {"O": (0.0, 0.0)}


def lies(pieces: list[Piece], drawn: dict[str, PointMm],
         fixed: dict[str, PointMm] = ORIGIN) -> dict[int, dict[str, PointMm]]:
    """Where the points of each piece come to lie."""
    return {piece.number: {name: motion.of(spot) for name, spot in piece.points.items()}
            for piece, motion in in_turn(pieces, drawn, fixed)}


def near(x: float, y: float) -> object:
    """A place, to a nanometre."""
    return pytest.approx((x, y), abs=1e-6)


def test_a_piece_is_turned_about_the_origin_to_where_it_is_drawn() -> None:
    """Of 3 4 5: drawn 10 long that way, placed 20 long along the axis."""
    found = lies([Piece(1, {"O": (5.0, 5.0), "E": (25.0, 5.0)})], {"O": (0, 0), "E": (6.0, 8.0)})
    assert found[1]["O"] == near(0, 0) and found[1]["E"] == near(12, 16)


def test_a_piece_hangs_at_the_point_that_another_has_laid() -> None:
    """The bar lies on the axis, 50 long though it is drawn 40 long; the arm turns about its end,
    to where it is drawn, straight up from there, at 40 and not at 50."""
    bar = Piece(2, {"O": (0.0, 0.0), "B": (50.0, 0.0), "M": (25.0, 0.0)}, Motion())
    arm = Piece(1, {"B": (0.0, 0.0), "E": (10.0, 0.0)})
    found = lies([arm, bar], {"O": (0, 0), "B": (40.0, 0.0), "M": (20.0, 0.0), "E": (50.0, 30.0)})
    assert found[2]["B"] == near(50, 0)
    assert found[1]["B"] == near(50, 0) and found[1]["E"] == near(50, 10)


def test_a_piece_that_lies_on_an_axis_is_shifted_along_it_alone() -> None:
    """It is drawn 3 above the axis, and its y is fixed."""
    piece = Piece(1, {"A": (0.0, 0.0), "B": (10.0, 0.0)}, Motion(), dy_mm=0.0)
    found = lies([piece], {"A": (4.0, 3.0), "B": (14.0, 3.0)})
    assert found[1]["A"] == near(4, 0) and found[1]["B"] == near(14, 0)


def test_a_piece_that_holds_nothing_fixed_lies_on_its_drawing() -> None:
    piece = Piece(1, {"A": (0.0, 0.0), "B": (10.0, 0.0)})
    found = lies([piece], {"A": (5.0, 0.0), "B": (5.0, 10.0)})
    assert found[1]["A"] == near(5, 0) and found[1]["B"] == near(5, 10)


def laid(program: Program, text: str) -> dict[str, PointMm]:
    """Where the points of an open drawing are shown while no shape of all of it is known: as the
    first piece that has each is laid."""
    judgement = BoardDrawing(EditedDrawing(read_document(text)), program).judgement
    assert judgement.verdict is Verdict.OPEN
    pieces = [part.points for part in parts_laid(judgement, program)]
    return {str(ref): spot for points in reversed(pieces) for ref, spot in points.items()}


def test_a_crank_is_turned_to_its_drawing_about_the_origin(program: Program) -> None:
    """It is drawn from 0 0 to 10 25, and 30 long."""
    found, long = laid(program, CRANK), hypot(10, 25)
    assert found["Crank.end"] == near(300 / long, 750 / long)
    assert found["Ground.start"] == near(0, 0) and found["Ground.end"] == near(40, 0)


def test_a_crank_hangs_at_the_end_of_what_is_fixed(program: Program) -> None:
    """The ground is drawn 30 long, and is 40; the crank is drawn straight up from there."""
    text = CRANK.replace("40 0\n", "30 0\n", 1).replace("Ground.start 10 25", "Ground.end 30 25")
    found = laid(program, text)
    assert found["Ground.end"] == near(40, 0)
    x, y = found["Crank.end"]
    assert hypot(x - 40, y) == pytest.approx(30, abs=1e-6) and y > 0 and x < 40


def test_a_crank_hangs_at_a_point_whose_place_is_told(program: Program) -> None:
    """The point is drawn at 12 22, and told at 10 20; the crank is drawn up to 12 50."""
    found = laid(program, "point P 12 22\nsegment Crank P 12 50\nlength Crank 30\nx P 10\ny P 20\n")
    long = hypot(2, 30)
    assert found["P"] == near(10, 20)
    assert found["Crank.end"] == near(10 + 60 / long, 20 + 900 / long)


def test_a_piece_that_an_angle_alone_holds_is_turned_as_it_is_told(program: Program) -> None:
    """All else of the triangle is lengths; it is drawn at 45 degrees, and told at 30."""
    found = laid(program, "segment A 0 0 30 30\nsegment B A.end 0 40\nsegment C B.end A.start\n"
                          "length A 40\nlength B 36\nlength C 35\nangle A 30deg\npoint Q 90 90\n")
    (x, y), (u, v) = found["A.start"], found["A.end"]
    assert (u - x, v - y) == near(40 * 3 ** 0.5 / 2, 20)
