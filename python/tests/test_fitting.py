"""What tolerances do to what must fit: five chains of textbooks, worked by hand, and what is said
where a check doesn't go one way.

The chains stand in `fits`. Of each, the worst case, the root of the sum of squares and the shares
were worked out by hand; the numbers agree to the last printed digit, a ten-thousandth of a
millimetre."""
from __future__ import annotations

import json
from math import cos, radians, sin, sqrt, tan
from pathlib import Path

import pytest

from pertxogai.commands import main
from pertxogai.drawing import read_drawing
from pertxogai.fitting import Answer, CheckedFit, Fit, NoFit, UnknownFit, fit
from pertxogai.output.fit_chart import fit_chart
from pertxogai.output.fit_text import fit_lines
from toleranced_drawings import tried

FITS = Path(__file__).parent / "fits"


def checked(text: str, program) -> Fit:
    found = fit(read_drawing(text), program)
    assert isinstance(found, Fit), found
    return found


def chain(name: str, program) -> dict[str, CheckedFit]:
    """What comes of the checks of a chain, by their names."""
    found = checked((FITS / f"{name}.drawing").read_text(), program)
    return {each.check.name: each for each in found.checks}


def mm(millionths: float) -> float:
    return round(float(millionths) / 1_000_000, 4)


def ranges(found: CheckedFit) -> tuple[float, ...]:
    """The nominal value, the worst case, and the root of the sum of squares."""
    squares = found.by_squares
    return tuple(map(mm, (found.nominal, found.worst.least, found.worst.greatest, squares.least,
                          squares.greatest)))


def gives(found: CheckedFit) -> list[tuple[float, float]]:
    """How much each dimension gives, and for how much of its own change, the greatest first."""
    return [(mm(each.gives), round(each.per_unit, 4)) for each in found.shares]


# -- five chains

def test_a_row_of_blocks(program) -> None:
    # The gap is 60 - 20 - 20 - 19.5 = 0.5. Blocks: 0.1 + 0.1 + 0.05 = 0.25 to both sides, the slot
    # 0.2 more alone: 0.25 to 0.95. Squares: the middle is 0.6, and 0.03 + 0.0025 = 0.0325.
    gap = chain("row-of-blocks", program)["Gap"]
    off = sqrt(0.0325)
    assert ranges(gap) == (0.5, 0.25, 0.95, round(0.6 - off, 4), round(0.6 + off, 4))
    assert gives(gap) == [(0.1, -1.0), (0.1, -1.0), (0.1, 1.0), (0.05, -1.0)]
    assert [round(each.part, 4) for each in gap.shares] == [0.2857, 0.2857, 0.2857, 0.1429]
    assert gap.answer is Answer.BEYOND and gap.fits_by_squares and gap.worst.is_one_way


def test_a_slot_in_a_plate(program) -> None:
    # The web is 100 - 30 - 20 = 50, within 0.2 + 0.1 + 0.05 = 0.35; squares 0.04 + 0.01 + 0.0025.
    # The floor is 12 by ISO 2768-m: 0.2 between 6 and 30.
    found = chain("slot-in-a-plate", program)
    off = sqrt(0.0525)
    assert ranges(found["Web"]) == (50, 49.65, 50.35, round(50 - off, 4), round(50 + off, 4))
    assert gives(found["Web"]) == [(0.2, 1.0), (0.1, -1.0), (0.05, -1.0)]
    assert ranges(found["Floor"]) == (12, 11.8, 12.2, 11.8, 12.2)
    assert found["Web"].answer is Answer.BEYOND and found["Floor"].answer is Answer.FITS
    assert found["Floor"].shares[0].dimension.is_general


def test_a_lever(program) -> None:
    # Its end stands R sin a high. At the corners that is 99.9 sin 29.5 and 100.1 sin 30.5.
    height = chain("lever", program)["Height"]
    up, down = 100 * sin(radians(30.5)), 100 * sin(radians(29.5))
    middle, off = 50 + (up + down) / 2 - 50, sqrt(((up - down) / 2) ** 2 + 0.05 ** 2)
    assert ranges(height) == (50, round(down * 0.999, 4), round(up * 1.001, 4),
                              round(middle - off, 4), round(middle + off, 4))
    assert gives(height) == [(round((up - down) / 2, 4), round(up - down, 4)), (0.05, 0.5)]


def test_a_dovetail_over_pins(program) -> None:
    # A pin of radius r touches the floor and the flank, whose angle is a: its centre lies
    # r / tan(a/2) outside of the corner.
    over = chain("dovetail-over-pins", program)["OverPins"]

    def pin(diameter: float, angle: float) -> float:
        return diameter / 2 / tan(radians(angle / 2))

    least, greatest = 49.95 + 2 * pin(9.99, 60.25), 50.05 + 2 * pin(10.01, 59.75)
    by_angle, by_size = (pin(10, 59.75) - pin(10, 60.25)) / 2, (pin(10.01, 60) - pin(9.99, 60)) / 2
    middle = 50 + 2 * (pin(10, 59.75) + pin(10, 60.25)) / 2
    off = sqrt(0.05 ** 2 + 2 * by_angle ** 2 + 2 * by_size ** 2)
    assert ranges(over) == tuple(round(each, 4) for each in (
        50 + 2 * pin(10, 60), least, greatest, middle - off, middle + off))
    assert gives(over) == [
        (0.05, 1.0), *[(round(by_angle, 4), round(-4 * by_angle, 4))] * 2,
        *[(round(by_size, 4), round(by_size / 0.01, 4))] * 2]


def test_a_hole_pattern(program) -> None:
    # The centres lie 60 by 45 apart, so 75: a 0.1 in x counts 60/75 = 0.8 of it, in y 0.6. At the
    # corners that is 60.2 by 45.2, and 59.8 by 44.8.
    pitch = chain("hole-pattern", program)["Pitch"]
    apart = {(x, y): sqrt((60 + x) ** 2 + (45 + y) ** 2) for x in (-0.1, 0, 0.1)
             for y in (-0.1, 0, 0.1)}
    by_x, by_y = ((apart[0.1, 0] - apart[-0.1, 0]) / 2, (apart[0, 0.1] - apart[0, -0.1]) / 2)
    middle = 75 + (apart[0.1, 0] + apart[-0.1, 0] + apart[0, 0.1] + apart[0, -0.1] - 4 * 75)
    off = sqrt(2 * by_x ** 2 + 2 * by_y ** 2)
    assert ranges(pitch) == tuple(round(each, 4) for each in (
        75, sqrt(59.8 ** 2 + 44.8 ** 2), sqrt(60.2 ** 2 + 45.2 ** 2), middle - off, middle + off))
    assert gives(pitch) == [(0.08, -0.8), (0.08, 0.8), (0.06, -0.6), (0.06, 0.6)]


# -- what doesn't go one way

def test_a_crank_at_its_highest_turns_round_between_its_ends(program) -> None:
    # At 90 degrees it stands 100 high, at 89 and 91 both 100 cos 1 = 99.9848.
    crank = ("check Height y C.end 99 .. 100\nsegment C 0 0 0 100\ncoincident C.start Origin\n"
             "length C 100\nangle C +90deg +-1deg\n")
    (height,) = checked(crank, program).checks
    assert (mm(height.worst.least), mm(height.worst.greatest)) == (
        round(100 * cos(radians(1)), 4), 100)
    assert not height.worst.is_one_way and height.turning_numbers == (3,)


def test_what_moves_nothing_by_itself_may_with_others(program) -> None:
    # The point lies where the edge turns. By itself neither the turn nor a shift along the edge
    # takes it off; together the edge leaves it by 5 sin 10 to either side.
    text = ("check Off distance P L -1 .. +1\nsegment L 0 0 0 100\ncoincident L.start Origin\n"
            "length L 100\nangle L +90deg +-10deg\npoint P 0 3\non P YAxis\ny P +0 +-5\n")
    (off,) = checked(text, program).checks
    most = round(5 * sin(radians(10)), 4)
    assert (mm(off.worst.least), mm(off.worst.greatest)) == (-most, most)
    assert not off.worst.is_one_way and off.by_squares is None


@pytest.mark.parametrize("text, why", [
    ("segment A 0 0 40 0\n", "there is no check: add a line such as check Gap"),
    ("check G length A 39 .. 41\nsegment A 0 0 40 0\npoint P 3 3\nlength A 40 +-0.1\n",
     "with nominal dimensions it isn't good: "),
])
def test_why_nothing_is_known(text, why, program) -> None:
    found = fit(read_drawing(text), program)
    assert isinstance(found, NoFit) and why in " ".join(found.why)


@pytest.mark.parametrize("angle, away", [("90deg +-1deg", 1), ("89.5deg +-1deg", 1),
                                         ("90deg +1-0deg", 1), ("1/0 +-1deg", 1)])
def test_an_angle_of_lines_that_cross_goes_on_beyond_the_right_angle(angle, away, program) -> None:
    # The bar of 80 stands on the middle of the other; a degree more tilts it the one way, a degree
    # less the other. As on paper 91 and 89 degrees are the same there.
    text = ("check End x B.end 40 .. 60\nsegment A 0 0 100 0\nsegment B 50 0.001 50 80\n"
            "coincident A.start Origin\nhorizontal A\nlength A 100\nlength B 80\nx B.start 50\n"
            f"on B.start A\nangle A B {angle}\n")
    (end,) = checked(text, program).checks
    degrees = 89.5 if angle.startswith("89") else 90
    least, greatest = sorted(50 + 80 * cos(radians(degrees + off))
                             for off in (away, 0 if "+1-0" in angle else -away))
    assert (mm(end.worst.least), mm(end.worst.greatest)) == (round(least, 4), round(greatest, 4))
    assert end.worst.is_one_way


def test_an_angle_doesnt_leap_at_half_a_turn(program) -> None:
    # The corner of 179 degrees may open by two: to 181, which is 179 from the other side.
    text = ("check Corner angle A B 170 .. 180\ncheck Turn angle A B -10 .. +10\n"
            "segment A 0 0 100 0\nsegment B A.end 200 1.7\ncoincident A.start Origin\n"
            "horizontal A\nlength A 100\nlength B 100\nangle B +1deg +-2deg\n")
    corner, turn = checked(text.replace(" .. 180", "deg .. 180deg").replace(
        "-10 .. +10", "-10deg .. +10deg"), program).checks
    assert (mm(corner.worst.least), mm(corner.worst.greatest)) == (177, 181)
    assert corner.answer is Answer.FITS
    assert (mm(turn.worst.least), mm(turn.worst.greatest)) == (-1, 3)


def test_where_a_check_turns_round_only_with_others_off_it_is_worst_between(program) -> None:
    # The end stands 60 sin a + B sin(a + 40) high. With B = 60 it is highest at a = 70 degrees, 0.2
    # beyond the tolerance, so by itself the angle turns nothing round. With B = 66 it is highest at
    # 69.01 degrees, by the root of 60^2 + 66^2 + 2 60 66 cos 40: 0.0113 more than at the corner.
    found = checked("check Height y B.end .. 118.415\nsegment A 0 0 25 55\n"
                    "segment B A.end 8 112\ncoincident A.start Origin\nlength A 60\n"
                    "length B 60 +-6\nangle A +65.8deg +-4deg\nangle A B +40deg\n", program)
    (height,) = found.known
    highest = sqrt(60 ** 2 + 66 ** 2 + 2 * 60 * 66 * cos(radians(40)))
    assert abs(height.worst.greatest / 1_000_000 - highest) < 0.0001
    assert height.answer is Answer.BEYOND and height.turning_numbers == (4,)


def test_of_what_turns_round_no_squares_are_told(program) -> None:
    # They would be taken to both sides of a middle, and a crank at its top has none.
    crank = ("check Height y C.end 99 .. 100\nsegment C 0 0 0 100\ncoincident C.start Origin\n"
             "length C 100\nangle C +90deg +-1deg\n")
    (height,) = checked(crank, program).checks
    assert height.by_squares is None


def test_two_chains_that_end_in_one_point_come_apart_by_all_of_their_dimensions(program) -> None:
    # Five lengths of 10 within 0.1 in each. As all is given the ends are one; with one chain all
    # long and the other all short they are 2 * 5 * 0.1 = 1 apart. By itself each dimension goes
    # both ways.
    def chain(name: str, y: int) -> str:
        lines = [f"segment {name}0 0 {y} 10 {y}"]
        lines += [f"segment {name}{n} {name}{n - 1}.end {10 * n + 10} {y}" for n in range(1, 5)]
        lines += [f"horizontal {name}{n}\nlength {name}{n} 10 +-0.1" for n in range(5)]
        return "\n".join(lines) + "\n"

    text = ("check Off distance P4.end Q4.end .. 0.7\n" + chain("P", 0) + chain("Q", 1)
            + "coincident P0.start Origin\ncoincident Q0.start Origin\n")
    (off,) = checked(text, program).checks
    assert (mm(off.worst.least), mm(off.worst.greatest)) == (0, 1)
    assert off.answer is Answer.BEYOND
    assert not off.worst.is_one_way and off.by_squares is None


BAR = "segment A 0 0 20 0\ncoincident A.start Origin\nhorizontal A\n"


@pytest.mark.parametrize("wall", ["20 -5 20 5", "20 5 20 -5"])
def test_a_gap_of_nothing_counts_to_the_side_where_it_is_drawn(wall, program) -> None:
    # The bar ends at the wall, and may be 0.1 shorter; it is drawn 0.5 short. Which end of the wall
    # is drawn first says nothing.
    text = (f"check Gap distance A.end W 0 ..\nsegment W {wall}\nfixed W\n"
            + BAR.replace("20 0", "19.5 0") + "length A 20 +0-0.1\n")
    (gap,) = checked(text, program).checks
    assert (mm(gap.worst.least), mm(gap.worst.greatest)) == (0, 0.1)
    assert gap.answer is Answer.FITS


def test_a_coordinate_of_nothing_is_more_to_the_side_where_the_first_of_joined_points_is(
        program) -> None:
    # So x Q 1 puts Q at -1 too: Q is C's start, which is drawn to the left of the origin.
    text = ("segment C -5 10 -5 20\npoint Q 5 10\ncoincident C.start Q\nvertical C\nlength C 10\n"
            "y Q 10\nx Q 0 +1-0\ncheck There x Q -2 .. +2\n")
    (there,) = checked(text, program).checks
    assert (mm(there.worst.least), mm(there.worst.greatest)) == (-1, 0)


def test_a_gap_of_nothing_that_is_drawn_so_has_no_side(program) -> None:
    text = ("check Gap distance A.end W 0 ..\nsegment W 20 -5 20 5\nfixed W\n" + BAR
            + "length A 20 +0-0.1\n")
    (gap,) = checked(text, program).checks
    assert isinstance(gap, UnknownFit) and "draw it on the side" in gap.why


@pytest.mark.parametrize("degrees", [0, 30, 37])
def test_what_just_reaches_a_limit_fits_in_each_direction(degrees, program) -> None:
    # 60 - 20 = 40, within 0.1: the limits themselves. Places are whole nanometres, which a slanted
    # line doesn't have for each length.
    x, y = cos(radians(degrees)), sin(radians(degrees))
    slant = f"angle {{}} +{degrees}deg" if degrees else "horizontal {}"
    text = ("check Gap distance A.end B.end 39.9 .. 40.1\n"
            f"segment A 0 0 {20 * x:.4f} {20 * y:.4f}\n"
            f"segment B A.start {60 * x:.4f} {60 * y:.4f}\ncoincident A.start Origin\n"
            f"{slant.format('A')}\n{slant.format('B')}\nlength A 20 +-0.1\nlength B 60\n")
    (gap,) = checked(text, program).checks
    assert gap.answer is Answer.FITS


def test_what_is_told_to_be_tightened_is_enough(program) -> None:
    # Up to 0.88336 the gap is 0.06664 too large: the first block may have 0.1 - 0.06664 = 0.03336,
    # which is 0.033 in whole micrometres; with 0.034 it would not be enough.
    text = (FITS / "row-of-blocks.drawing").read_text().replace("0.1 .. 0.9", "0.1 .. 0.88336")
    (gap,) = checked(text, program).checks
    assert gap.tightened == 33
    (tight,) = checked(text.replace("length A 20 +-0.1", "length A 20 +-0.033"), program).checks
    assert tight.answer is Answer.FITS


def test_both_deviations_may_lie_on_one_side(program) -> None:
    # g6 of a shaft of 20: 19.98 to 19.993.
    text = "check Size length A 19.98 .. 19.993\n" + BAR + "length A 20 -0.007-0.02\n"
    (size,) = checked(text, program).checks
    assert (mm(size.worst.least), mm(size.worst.greatest)) == (19.98, 19.993)
    assert size.answer is Answer.FITS


# -- what is measured

PLATE = ("rectangle P 0 0 80 60\ncoincident PBottom.start Origin\nlength PBottom 80 +-0.1\n"
         "length PRight 60 +-0.2\nsegment D PBottom.start PTop.start\n")


@pytest.mark.parametrize("check, least, greatest", [
    ("length D 90 .. 110", sqrt(79.9 ** 2 + 59.8 ** 2), sqrt(80.1 ** 2 + 60.2 ** 2)),
    ("distance PTop PBottom 59 .. 61", 59.8, 60.2),
    ("distance PLeft PRight 79 .. 81", 79.9, 80.1),
    ("distance PTop.start PLeft 79 .. 81", 79.9, 80.1),
    ("x PTop.start PTop.end 79 .. 81", 79.9, 80.1),
    ("x PTop.start PTop.end -81 .. -79", -80.1, -79.9),
    ("y PRight.end 59 .. 61", 59.8, 60.2)])
def test_what_a_check_measures(check, least, greatest, program) -> None:
    (found,) = checked(f"check C {check}\n{PLATE}", program).checks
    assert (found.worst.least, found.worst.greatest) == (
        pytest.approx(least * 1e6, abs=2), pytest.approx(greatest * 1e6, abs=2))


def test_a_gap_that_closes_is_below_nothing(program) -> None:
    # The pin stands 0.1 off the wall, and may come 0.2 nearer: it overlaps by 0.1.
    text = ("check Gap distance Pin Wall 0 ..\nsegment Wall 10 -5 10 5\nfixed Wall\n"
            "point Pin 9.9 0\nx Pin 9.9 +-0.2\ny Pin 0\n").replace("y Pin 0\n", "on Pin XAxis\n")
    (gap,) = checked(text, program).checks
    assert (mm(gap.worst.least), mm(gap.worst.greatest)) == (-0.1, 0.3)
    assert gap.answer is Answer.BEYOND


# -- the command

def told(capsys, *words: object) -> tuple[int, str]:
    status = main([str(word) for word in words])
    return status, capsys.readouterr().out


def test_the_lines_and_the_status(capsys, program, monkeypatch) -> None:
    monkeypatch.setenv("PERTXOGAI_SKETCH", program.path)
    status, lines = told(capsys, "fit", FITS / "row-of-blocks.drawing")
    assert status == 1
    assert "    worst case       0.25 to 0.95 mm: 0.05 too large" in lines.splitlines()
    assert ("    tighten first: length A 20 +-0.1; tightened alone to +-0.05 it is enough, as "
            "placed" in lines.splitlines())
    assert "which was sampled, not proved" in lines
    assert told(capsys, "fit", FITS / "lever.drawing")[0] == 0


def test_what_is_said_beside_the_numbers(program) -> None:
    # The bar is level, however long it is.
    found = checked(f"check Rise y A.end -0.1 .. +0.1\n{BAR}length A 20 +-0.1\n", program)
    lines = list(fit_lines("bar", found))
    assert "    no single dimension changes it" in lines
    assert "  these alone change no check: length A 20 +-0.1" in lines


def test_what_may_move_a_check_that_is_not_known_is_not_called_idle(program) -> None:
    # Nothing ties the two bars to the origin, so it isn't known how high the upright one ends; but
    # wherever the level one is held, that is 0.1 higher if the other is 0.1 longer.
    text = ("check Long length A 19 .. 21\nsegment A 0 5 20 5\nsegment B A.end 20 15\n"
            "horizontal A\nvertical B\nlength A 20 +-0.1\nlength B 10 +-0.1\n")
    found = checked(f"check High y B.end ..\n{text}", program)
    assert isinstance(found.checks[0], UnknownFit) and found.idle == ()
    assert not any("change no check" in line for line in fit_lines("bars", found))
    assert [each.number for each in checked(text, program).idle] == [4]


def test_why_no_squares_are_told_of_what_is_longer_and_steeper_at_once(program) -> None:
    # 105 sin 32 is 55.6415. By itself the length gives 2.5, the angle 100 sin 32 - 50 = 2.9919: in
    # sum 5.4919, a fiftieth less than the 5.6415 of both together. Each gives more throughout, and
    # nothing tilts.
    found = checked("check High y C.end ..\nsegment C 0 0 86.6 50\ncoincident C.start Origin\n"
                    "length C 100 +5-0\nangle C +30deg +2-0deg\n", program)
    (high,) = found.known
    assert (mm(high.worst.least), mm(high.worst.greatest)) == (50, 55.6415)
    assert high.worst.is_one_way and high.by_squares is None
    assert ("    root sum square  not given, because the dimensions change it more together than "
            "each by itself" in fit_lines("high", found))


def test_json_and_the_chart(capsys, program, monkeypatch, tmp_path) -> None:
    monkeypatch.setenv("PERTXOGAI_SKETCH", program.path)
    out = tmp_path / "chart.svg"
    status, text = told(capsys, "fit", FITS / "slot-in-a-plate.drawing", "--json", "-o", out)
    (sketch,) = json.loads(text)["sketches"]
    web, floor = sketch["checks"]
    assert (web["name"], web["nominal"], web["worst"]["least"], web["tighten_first"]) == (
        "Web", 50.0, 49.65, "constraint 10 (length PlateBottom 100 +-0.2)")
    assert floor["high"] is None and floor["dimensions"][0]["general"] is True
    svg = out.read_text()
    assert "length PlateBottom 100 +-0.2" in svg and "49.65 .. 50.35" in svg


@pytest.mark.parametrize("tolerance", ["0.01", "0.0{}"])
@pytest.mark.parametrize("count", [12, 15])
def test_how_many_dimensions_are_left_out_is_told(program, count: int, tolerance: str) -> None:
    """The lines name eight and the chart twelve; the others may give as much as these."""
    ends = ["0 0", *(f"S{number}.end" for number in range(count))]
    lines = [f"segment S{number} {ends[number]} {10 * number + 10} 0\nhorizontal S{number}\n"
             f"length S{number} 10 +-{tolerance.format(number + 10)}" for number in range(count)]
    total = f"check Total distance S0.start S{count - 1}.end .."
    found = checked("\n".join([*lines, "coincident S0.start Origin", total, ""]), program)
    svg = fit_chart("stack", found)
    told = f"and {count - 12} more, each as much or less"
    assert svg.count(" %</text>") == 12 and (told in svg) == (count > 12)
    assert f"and {count - 8} more, each as much or less" in map(str.strip, fit_lines("", found))


def test_the_chart_names_a_check_that_is_not_known(program) -> None:
    # The bar may lie anywhere along x; how long it is, is known.
    found = checked("check Aside x A.end 19 .. 21\ncheck Long length A 19 .. 21\n"
                    "segment A 0 5 20 5\nhorizontal A\ny A.start 5\nlength A 20 +-0.1\n", program)
    svg = fit_chart("bar", found)
    assert "Aside: x A.end 19 .. 21 (not known)" in svg and "Long: length A 19 .. 21 (mm)" in svg


def test_corners_by_chance_lie_within_the_worst_case(program) -> None:
    # bench/fitting asks of 1,000 drawings, and of 100 corners by chance of each. A drawing of three
    # dimensions has eight corners.
    found = [what for what in (tried(seed, 12, program) for seed in range(8, 17)) if what]
    assert sum(what.corners for what in found if what.is_known) > 60
    assert sum(what.anew for what in found) > 5
    assert [line for what in found for line in what.wrong] == []


# -- without limits

END = ("check End x C.end ..\nsegment A 0 0 20 0\nsegment B A.end 40 0\nsegment C B.end 59.5 0\n"
       "coincident A.start Origin\nhorizontal A B C\nlength A 20 +-0.1\nlength B 20 +0.2-0\n"
       "length C 19.5 +-0.05\n")


def test_how_far_something_varies_is_told_without_a_verdict(capsys, program, monkeypatch,
                                                            tmp_path) -> None:
    # 20 + 20 + 19.5, within 0.1, +0.2 and 0.05: 59.35 to 59.85. The middle is 59.6, and the root of
    # 0.01 + 0.01 + 0.0025 is 0.15.
    monkeypatch.setenv("PERTXOGAI_SKETCH", program.path)
    path, out = tmp_path / "end.drawing", tmp_path / "end.svg"
    path.write_text(END)
    status, lines = told(capsys, "fit", path, "-o", out)
    assert status == 0
    assert lines.splitlines()[:5] == [
        "end: 1 check, it has no limits; 3 dimensions with a tolerance", "  End: x C.end ..",
        "    nominal          59.5 mm", "    worst case       59.35 to 59.85 mm",
        "    root sum square  59.45 to 59.75 mm"]
    assert "tighten" not in lines and "fits" not in lines
    assert "fit" not in out.read_text().replace("fits {", "")
    (sketch,) = json.loads(told(capsys, "fit", path, "--json")[1])["sketches"]
    (end,) = sketch["checks"]
    assert sketch["fits"] is end["worst"]["fits"] is end["by_squares"]["fits"] is None
    assert (end["low"], end["high"], end["worst"]["least"]) == (None, None, 59.35)


@pytest.mark.parametrize("limits, said, status", [
    ("0 .. 59.8", "2 checks, none fits in the worst case, 1 doesn't, 1 has no limits", 1),
    ("0 .. 60", "2 checks, 1 fits in the worst case, 1 has no limits", 0),
    ("..", "2 checks, none has limits", 0)])
def test_checks_without_limits_are_counted_by_themselves(limits, said, status, capsys, program,
                                                         monkeypatch, tmp_path) -> None:
    monkeypatch.setenv("PERTXOGAI_SKETCH", program.path)
    path = tmp_path / "two.drawing"
    path.write_text(f"check Other x C.end {limits}\n{END}")
    found, lines = told(capsys, "fit", path)
    assert found == status and lines.startswith(f"two: {said}; 3 dimensions")


def test_a_check_without_limits_that_is_not_known_is_not_passed_over(program) -> None:
    # The bar may lie anywhere along x.
    found = checked("check Aside x A.end ..\nsegment A 0 5 20 5\nhorizontal A\ny A.start 5\n"
                    "length A 20 +-0.1\n", program)
    assert isinstance(found.checks[0], UnknownFit) and found.answer is Answer.UNSURE


def test_of_lines_that_cross_the_acute_angle_is_told_without_limits(program) -> None:
    # The bar stands on the middle of the other at 120 degrees, so at 60.
    (tilt,) = checked("check Tilt angle A B ..\nsegment A 0 0 100 0\nsegment B 50 0 10 69.3\n"
                      "coincident A.start Origin\nhorizontal A\nlength A 100\nlength B 80\n"
                      "x B.start 50\non B.start A\nangle A B 60deg +1-0deg\n", program).checks
    assert (mm(tilt.worst.least), mm(tilt.worst.greatest)) == (60, 61)
