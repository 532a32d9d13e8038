"""That the hunt knows what is true of a drawing, and finds what isn't so."""
from __future__ import annotations

import argparse
import os
import types
from pathlib import Path

import pytest

pytest.importorskip("numpy", reason="the hunt takes Debian's python3-numpy")

from hunt.asking import Answer  # noqa: E402
from hunt.making import WANTED, Kind, Made, can_be_parallel, made  # noqa: E402
from hunt.reading import read  # noqa: E402
from hunt.shrinking import shrunk  # noqa: E402
from hunt.truth import Model, truth  # noqa: E402
from hunt.wrongs import Cause, offs, wrongs  # noqa: E402

HUNT = Path(__file__).resolve().parents[3] / "bench" / "hunt"

os.environ.setdefault("OPENBLAS_NUM_THREADS", "1")
PLATE = """rectangle Plate 0 0 118 79
circle Hole 47 28 5
coincident PlateBottom.start Origin
length PlateBottom 120
length PlateRight 80
x Hole 45
y Hole 30
diameter Hole 12
"""
CORNERS = {"PlateBottom": ((0, 0), (120, 0)), "PlateRight": ((120, 0), (120, 80)),
           "PlateTop": ((120, 80), (0, 80)), "PlateLeft": ((0, 80), (0, 0))}


def plate_of(text: str = PLATE, kind: Kind = Kind.COMPLETE) -> Made:
    """A plate, with what is true of it."""
    model = Model.of(read(text))
    at = model.solved(model.index.vector(model.sheet.drawn, model.sheet.radii))
    assert at is not None
    return Made(kind, 0, text, at, truth(model, at))


def placed(moved_nm: int = 0) -> dict[str, object]:
    """The plate's places as an answer has them, with its hole moved to the right."""
    places: dict[str, object] = {
        name: {end: {"x_nm": x * 10 ** 6, "y_nm": y * 10 ** 6} for end, (x, y) in zip(("start", "end"), ends)}
        for name, ends in CORNERS.items()}
    places["Hole"] = {"centre": {"x_nm": 45 * 10 ** 6 + moved_nm, "y_nm": 30 * 10 ** 6}, "radius_nm": 6 * 10 ** 6}
    return places


def by_rank(lacks: int | None = None) -> dict[str, object]:
    """What an answer tells by rank: how many dimensions are lacking, and nothing that is too many."""
    return {"lacks": lacks, "excess": None}


def causes(made_: Made, status: int = 0, lacks: int | None = None, **said: object) -> set[Cause]:
    """In what ways an answer is wrong that tells so many dimensions to be lacking."""
    answer = Answer(status, {"verdict": "well", "places": placed(), "by_rank": by_rank(lacks), **said})
    return {found.cause for found in wrongs(made_, answer)}


def test_what_is_true_of_a_plate() -> None:
    plate = plate_of().truth
    assert (plate.lacks, plate.excess, plate.sizeless) == (0, 0, frozenset())
    loose = plate_of(PLATE.replace("x Hole 45\n", "").replace("diameter Hole 12\n", "")).truth
    assert (loose.lacks, loose.sizeless) == (2, frozenset({"Hole"}))
    twice = plate_of(PLATE + "length PlateTop 120\n").truth
    assert (twice.lacks, twice.excess) == (0, 1)
    # Constraints 2 and 4 are the rectangle's two verticals, 6 and 11 the two widths.
    assert twice.alone == {2, 4, 6, 11}


def test_what_moves_the_whole_is_no_dimension_that_is_missing() -> None:
    free = plate_of(PLATE.replace("coincident PlateBottom.start Origin\n", "")).truth
    assert (free.lacks, free.excess) == (2, 0)
    alone = plate_of("segment A 0 0 40 0\nlength A 50\n").truth
    assert (alone.lacks, alone.excess) == (0, 0)


@pytest.mark.parametrize("text", [
    # The end of L has two freedoms, and its direction takes one.
    "segment L Origin 40 40\nangle L 45deg\n",
    # Two points have four freedoms; a direction, a level and a length take three.
    "segment L Origin 40 40\nsegment M L.end 70 40\nangle L 45deg\nhorizontal M\nlength M 30\n",
])
def test_a_shape_that_begins_in_the_origin_may_not_be_moved(text: str) -> None:
    assert plate_of(text).truth.lacks == 1


def test_an_answer_that_is_so() -> None:
    assert causes(plate_of()) == set()
    assert causes(plate_of(PLATE.replace("x Hole 45\n", "")), 1, verdict="open", lacks=1) == set()


def test_a_word_that_is_off_is_found() -> None:
    assert max(each.nm for each in offs(PLATE, placed(999))) == pytest.approx(999)
    assert causes(plate_of(), places=placed(1003)) == set()
    assert causes(plate_of(), places=placed(1020)) == {Cause.GOOD_BUT_OFF}
    tilted = "segment A 0 0 40 0\nangle A 30deg\n"
    assert offs(tilted, level_edge(40, 0))[0].ppb == pytest.approx(0.5e9)


def level_edge(length_mm: int, end_y_nm: int) -> dict[str, object]:
    """The places of a segment A from the origin, of which the end lies so high."""
    end = {"x_nm": length_mm * 10 ** 6, "y_nm": end_y_nm}
    return {"A": {"start": {"x_nm": 0, "y_nm": 0}, "end": end}}


@pytest.mark.parametrize("length_mm, end_y_nm, is_off", [
    (4, 900, True),  # 225,000 parts per 10^9 of a short edge
    (4, 6, False),  # 1,500 of them, which is rounding
    (4, 9, True),
    (1000, 900, False),  # 900 of them
    (1000, 1100, True),
])
def test_a_direction_is_off_by_its_parts_per_billion(length_mm: int, end_y_nm: int, is_off: bool) -> None:
    text = f"segment A 0 0 {length_mm} 0\ncoincident A.start Origin\nhorizontal A\nlength A {length_mm}\n"
    found = causes(plate_of(text), places=level_edge(length_mm, end_y_nm))
    assert (Cause.GOOD_BUT_OFF in found) is is_off


def test_edges_that_have_a_distance_have_it_at_both_ends() -> None:
    """The second edge leaves the first by 4 um on its way."""
    text = "segment A 0 0 40 0\nsegment B 0 20 40 20\ndistance A B 20\n"
    ends = {name: {"start": {"x_nm": 0, "y_nm": y}, "end": {"x_nm": 40000000, "y_nm": y + off}}
            for name, y, off in (("A", 0, 0), ("B", 20000000, 4000))}
    assert [each.nm for each in offs(text, ends)] == [pytest.approx(4000), 0]


@pytest.mark.parametrize("words, can_be", [
    # By the angles S is turned to L by 79.8 and by 79.82449 degrees, which is the tangent 39/7.
    ("angle L M 79.8deg\nangle M S 39/7\n", False),
    ("angle L M 79.8deg\nparallel L S\n", True),
    ("angle L M 79.8deg\n", True),
])
def test_edges_that_angles_turn_to_each_other_have_no_distance(words: str, can_be: bool) -> None:
    model = Model.of(read("segment L 12 33.4 38.9 33.4\nsegment M L.end 36 49.7\n"
                          "segment S 37 57.4 27.7 57.4\ndistance L S 24\nlength S 9.3\n" + words))
    at = model.solved(model.index.vector(model.sheet.drawn, model.sheet.radii))
    assert at is not None and can_be_parallel(model, at, frozenset()) is can_be


def test_a_part_that_lies_mirrored_is_found() -> None:
    """Each corner of the plate, drawn above its lower edge, lies as far below it."""
    places: dict[str, object] = {
        name: {end: {"x_nm": x * 10 ** 6, "y_nm": -y * 10 ** 6} for end, (x, y) in zip(("start", "end"), ends)}
        for name, ends in CORNERS.items()}
    plain = PLATE[:PLATE.index("circle")] + PLATE[PLATE.index("coincident"):PLATE.index("x Hole")]
    assert causes(plate_of(plain), places=places) == {Cause.GOOD_BUT_TURNED_OVER}


def test_three_points_on_a_line_that_rounding_turns_are_not_mirrored() -> None:
    """The middle of a segment from the origin lies 4 nm above it, and is drawn below."""
    text = ("segment S1 1 1 -20 1\npoint P2 -10 1\nmidpoint P2 S1\ncoincident S1.start Origin\n"
            "length S1 22\nangle S1 176.396deg\n")
    ends = {"start": {"x_nm": 0, "y_nm": 0}, "end": {"x_nm": -21956492, "y_nm": 1382924}}
    places = {"S1": ends, "P2": {"at": {"x_nm": -10978246, "y_nm": 691458}}}
    assert causes(plate_of(text), places=places) == set()


@pytest.mark.parametrize("kind, found", [
    (Kind.COMPLETE, {Cause.GOOD_BUT_TURNED_OVER}),
    (Kind.ELSEWHERE, set()),
])
def test_what_is_moved_past_the_origin_is_not_mirrored(kind: Kind, found: set[Cause]) -> None:
    """An upright edge is drawn to the left of the origin, and lies to the right of it."""
    text = "segment S1 -1 -5 -1 5\nlength S1 10\nvertical S1\nx S1.end +2\n"
    ends = {"start": {"x_nm": 2000000, "y_nm": -5000000}, "end": {"x_nm": 2000000, "y_nm": 5000000}}
    assert causes(plate_of(text, kind), places={"S1": ends}) == found


@pytest.mark.parametrize("more, found", [
    ("", set()), ("y L1.end 10.276\n", {Cause.GOOD_BUT_TURNED_OVER})])
def test_what_words_do_not_tell_from_the_origin_is_not_mirrored(more: str, found: set[Cause]) -> None:
    """The line of an edge is drawn below the origin, and lies above it: nothing tells how high."""
    text = "segment L1 1 0 27 10\nangle L1 21deg\nx L1.end 26.927637885\nlength L1 29\n" + more
    ends = {"start": {"x_nm": -146194, "y_nm": 0}, "end": {"x_nm": 26927638, "y_nm": 10392671}}
    plate = plate_of(text)
    assert causes(plate, places={"L1": ends}) - {Cause.GOOD_BUT_OFF} == found


def test_a_verdict_that_is_not_so_is_found() -> None:
    whole, loose = plate_of(), plate_of(PLATE.replace("x Hole 45\n", ""))
    twice = plate_of(PLATE + "length PlateTop 120\n", Kind.REPEATED)
    assert causes(whole, 1, verdict="over", spare=[]) == {Cause.OVER_INDEPENDENT}
    assert causes(whole, 1, verdict="open", lacks=1) == {Cause.LACKS_UNTRUE}
    assert causes(loose) == {Cause.WELL_LACKS, Cause.GOOD_BUT_LACKS}
    assert causes(loose, 1, verdict="open", lacks=2) == {Cause.LACKS_UNTRUE}
    assert causes(loose, 1, verdict="open", lacks=0) == {Cause.LACKS_UNTOLD}
    assert causes(twice) == {Cause.REPEAT_SILENT}
    assert causes(twice, repeats=[["constraint 11 (length PlateTop 120)"]]) == set()
    assert causes(whole, repeats=[["constraint 7 (length PlateRight 80)"]]) == {Cause.REPEAT_UNTRUE}
    assert causes(twice, 1, verdict="over", spare=[]) == {Cause.OVER_UNLISTED}


def listed(number: int, repeats: bool | None) -> dict[str, object]:
    return {"number": number, "name": str(number), "repeats": repeats, "off": 1, "unit": "nm"}


def test_what_is_listed_wrongly_is_found() -> None:
    twice = plate_of(PLATE + "length PlateTop 120\n", Kind.REPEATED)
    # Of the two widths and the two uprights each may go.
    rest = [listed(number, None) for number in (2, 4, 6)]
    assert causes(twice, 1, verdict="over", spare=[*rest, listed(11, True)]) == set()
    assert causes(twice, 1, verdict="over", spare=rest) == {Cause.SPARE_UNLISTED}
    needed = [*rest, listed(11, True), listed(7, None)]
    assert causes(twice, 1, verdict="over", spare=needed) == {Cause.NEEDED_LISTED}
    assert causes(twice, 1, verdict="over", spare=[*rest, listed(11, False)]) == {Cause.REPEAT_CALLED_CONFLICT}
    against = Made(Kind.CONTRADICTING, 0, twice.text.replace("Top 120", "Top 130"), twice.exact, twice.truth,
                   frozenset({"length PlateTop 130"}))
    assert causes(against, 1, verdict="over", spare=[*rest, listed(11, True)]) == {Cause.CONFLICT_CALLED_REPEAT}
    assert causes(against, 1, verdict="open", lacks=0) == {Cause.CONFLICT_SILENT}
    assert causes(against, 1) == {Cause.WELL_CONTRADICTS}


def found_by_search(lacks: int, whole: int = 0, **more: object) -> dict[str, object]:
    """What the search finds, of what is open."""
    return {"verdict": "open", "places": None, "contradictions": [], "free_radii": [],
            "freedoms": {"count": lacks + whole, "of_the_whole": whole, "doubtful": False}, **more}


def test_what_is_found_wrongly_by_numbers_is_found() -> None:
    loose = plate_of(PLATE.replace("y Hole 30\n", ""))
    assert causes(loose, 1, lacks=1, **found_by_search(1)) == set()
    assert causes(loose, 1, lacks=1, **found_by_search(0, whole=1)) == {Cause.FREEDOMS_UNTRUE}
    freed = found_by_search(1, free_radii=["Hole"])
    assert causes(loose, 1, lacks=1, **freed) == {Cause.RADII_UNTRUE}
    clash = found_by_search(1, contradictions=[["constraint 7 (length PlateRight 80)"]])
    assert causes(loose, 1, lacks=1, **clash) == {Cause.CLASH_UNTRUE}
    # 2 um too far to the right, by what is told 3 nm at most.
    off = {"amount": 3, "unit": "nm", "of": "constraint 8"}
    there = found_by_search(1, places=placed(2000), deviations=[off])
    assert causes(loose, 1, lacks=1, **there) == {Cause.FOUND_BUT_OFF}
    assert causes(loose, 1, lacks=1, **{**there, "deviations": [{**off, "amount": 2000}]}) == set()


def test_what_is_no_answer_is_found() -> None:
    plate = plate_of()
    assert [found.cause for found in wrongs(plate, Answer(None, late=True))] == [Cause.LATE]
    assert [found.cause for found in wrongs(plate, Answer(None, crash="KeyError: 1\n"))] == [Cause.TRACEBACK]
    assert [found.cause for found in wrongs(plate, Answer(2, complaint="refused"))] == [Cause.REFUSED]


def test_every_kind_is_made() -> None:
    found = [made(seed, kind) for kind in WANTED for seed in range(4)]
    assert {each.kind for each in found} == set(Kind)
    assert any(each.contradicts() for each in found) and any(each.is_impossible() for each in found)
    assert any(each.truth.lacks for each in found) and any(each.truth.excess for each in found)


def test_a_value_that_moves_the_whole_contradicts_nothing() -> None:
    """A segment's length, and where its end lies from the y axis: that isn't where it was drawn,
    and nothing else ties the segment to the axes."""
    alone = made(27, most=1)
    assert alone.text.splitlines() == ["segment L1 1 1 16 -1", "length L1 16.141", "x L1.end 19.72"]
    assert alone.kind is Kind.ELSEWHERE and not alone.contradicts()
    assert (alone.truth.lacks, alone.truth.excess) == (0, 0)


def test_a_seed_makes_one_drawing() -> None:
    assert made(17).text == made(17).text != made(18).text


def lie(text: str) -> Answer:
    """Calls everything over where there is a hole."""
    said: dict[str, object] = {"verdict": "over", "spare": []} if "circle" in text else {"verdict": "open"}
    return Answer(1, {**said, "by_rank": by_rank()})


def test_a_drawing_is_made_smaller() -> None:
    """What is left is the hole."""
    assert shrunk(plate_of(), Cause.OVER_INDEPENDENT, lie).text == "circle Hole 47 28 5\n"


def test_a_wrong_answer_is_shown_by_the_way_in_which_it_was_given(
        monkeypatch: pytest.MonkeyPatch, capsys: pytest.CaptureFixture[str]) -> None:
    """Only the library says what is wrong, and only where all else is left out."""
    def told(text: str, search: bool, solver: object, all_of_it: bool) -> Answer:
        is_that_way = (search, solver, all_of_it) == (False, "library it.so", False)
        return lie(text) if is_that_way else Answer(1, {"verdict": "open", "by_rank": by_rank()})

    script = types.ModuleType("bench_hunt")
    script.__file__ = str(HUNT)
    exec(compile(HUNT.read_text(), HUNT, "exec"), vars(script))
    for name, instead in (("asked", told), ("Library", lambda path: f"library {path}"),
                          ("made", lambda seed, most: plate_of())):
        monkeypatch.setattr(script, name, instead)
    script.show(1, argparse.Namespace(blocks=1, search=False, library="it.so", compared=True),
                Cause.OVER_INDEPENDENT)
    shown = capsys.readouterr().out
    assert shown.startswith(f"# {Cause.OVER_INDEPENDENT.value}: ") and "'verdict': 'over'" in shown
    assert shown.endswith("\ncircle Hole 47 28 5\n\n")
