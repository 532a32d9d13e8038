"""What is too much on the board: the last dimensions that the others can do without, each a repeat
or a contradiction by how much, in the designer's words, and what becomes of the others."""
from __future__ import annotations

from collections.abc import Callable, Mapping, Sequence
from dataclasses import dataclass, field
from fractions import Fraction

import pytest

from boards import drawing
from pertxogai.board.calls import Desk
from pertxogai.board.panel import excess_told, rounded_of
from pertxogai.drawing import read_drawing
from pertxogai.judging import Excess, Rest, TooMuch, judge, judge_at_once, too_much
from pertxogai.language import Angle, Sketch
from pertxogai.program import Answer, Program, ProgramTimedOut, Solver, Status

TRIANGLE = """segment A 0 0 40 0
segment B A.end 20 30
segment C B.end A.start
length C 40
length A 50
length B 30
distance A.start A.end 51
"""
"""How long A is is told twice: by 1 mm more the second time."""
TWO = """segment A 0 0 40 0
segment B 0 50 30 50
length A 40
length B 30
distance A.start A.end 41
distance B.start B.end 31
"""
"""Two parts, in each of which a length is told twice."""
LESS = " conflict off -1000000 nm"
FLAT = "fault s1 build height C flat 0 0 bits 38\n"

Said = Callable[[Sketch, Sequence[str]], str]


@dataclass
class LeavesOut:
    """A program that is asked for what is too much, and answers what stands in for that: by the
    sketch, and by the words."""

    program: Solver
    said: Said
    asked: list[tuple[str, ...]] = field(default_factory=list)

    def ask(self, words: Sequence[str], text: str) -> Answer:
        if words[0] != "excess":
            return self.program.ask(words, text)
        self.asked.append(tuple(words))
        return Answer(Status.DONE, self.said(Sketch.parse(text), words))


@dataclass(frozen=True)
class Fails:
    """A program that answers all but what is too much; of that it gives the answer, or raises."""

    program: Solver
    answer: Answer | Exception

    def ask(self, words: Sequence[str], text: str) -> Answer:
        if words[0] != "excess":
            return self.program.ask(words, text)
        if isinstance(self.answer, Exception):
            raise self.answer
        return self.answer


def one_part(left: Mapping[str, str], end: str = "") -> Said:
    """Of one part that has all elements these lines are left out, so much off, or as its end
    says."""
    def said(sketch: Sketch, _: Sequence[str]) -> str:
        texts = [each.text() for each in sketch.constraints]
        numbers = {len(texts) - texts[::-1].index(text): off for text, off in left.items()}
        names = [each.name for each in sketch.elements]
        due = 2 * len(names) - 3
        held = due + len(left) + (end == "stays over\n")
        lines = [f"c{number} : {texts[number - 1]}{numbers[number]}\n"
                 for number in sorted(numbers)]
        return (f"excess 1\npart 1 over elements {len(names)} held {held} due {due} : "
                f"{' '.join(names)}\n{''.join(lines)}{end}")
    return said


def last(off: str, end: str = "") -> Said:
    """The last line is left out."""
    return lambda sketch, words: one_part({sketch.constraints[-1].text(): off}, end)(sketch, words)


def left_out(text: str, program: Solver) -> TooMuch:
    return too_much(judge_at_once(read_drawing(text), program).names, program)


def panel(text: str, program: Solver) -> list[dict[str, object]]:
    """The lines of the panel, once what may go was weighed."""
    return Desk(program).answer("weigh", {"text": text})["lines"]


def listed(lines: list[dict[str, object]], name: str) -> list[dict[str, object]]:
    return [each for each in lines if each.get("list") == name]


# What is left out, and by how much.

@pytest.mark.parametrize("off, told", [
    (LESS, "conflicting by 1\u00a0mm, the others give less"),
    (" conflict off 2500000 nm", "conflicting by 2.5\u00a0mm, the others give more"),
    (" conflict off 999999000000 nm",
     "conflicting by 999999\u00a0mm, the others give more"),
    (" repeat off 0 nm", "redundant"),
    (" repeat off 2 nm", "redundant"),
    (" repeat off -1000 nm", "redundant, within 0.001\u00a0mm"),
])
def test_the_last_dimension_is_left_out(program, off: str, told: str) -> None:
    stands_in = LeavesOut(program, last(off))
    found = left_out(TRIANGLE, stands_in)
    (each,) = found.dimensions
    assert (each.number, each.name) == (4, "constraint 4 (distance A.start A.end 51)")
    assert excess_told(each) == told and not each.in_part
    assert (found.rest, found.helps) == (Rest.PLACED, 0)
    assert stands_in.asked == [("excess", "within=1000", "place=boxes")]


def test_a_size_that_is_told_twice_is_its_own(program) -> None:
    """The length is spelled a second time between points of help; a diameter by its radius."""
    text = TRIANGLE.replace("distance A.start A.end 51", "length A 51")
    (each,) = left_out(text, LeavesOut(program, last(LESS))).dimensions
    assert (each.number, each.off_um, each.in_part) == (4, -1000, False)
    hole = "circle H 1 1 5\nx H.centre 10\ny H.centre 5\nradius H 5\ndiameter H 12\n"
    (each,) = left_out(hole, LeavesOut(program, last(LESS))).dimensions
    assert (each.number, each.off_um) == (4, -2000)


def test_the_limit_is_of_the_drawing(program) -> None:
    """1/16 in is 1.5875 mm: the sketch is told larger."""
    inches = TRIANGLE.replace("51", "0.0625in")
    stands_in = LeavesOut(program, last(" conflict off 2000000 nm"))
    (each,) = left_out(inches, stands_in).dimensions
    assert stands_in.asked == [("excess", "within=2000", "place=boxes")]
    assert each.off_um == 1000


@pytest.mark.parametrize("strict, end, conflicts", [
    (" conflict off 1500 ppb", "", True), (" repeat off 900 ppb", "", False), ("", FLAT, None)])
def test_an_angle_is_asked_for_again_by_its_own_limit(program, strict: str, end: str,
                                                      conflicts: bool | None) -> None:
    """The sketch is told larger, and with it the limit of lengths. Where the others have no places
    by the angle's own limit, it isn't measured."""
    text = ("segment A 0 0 50 0\nsegment B A.end 32 24\nsegment C B.end A.start\n"
            "length C 40.0005\nlength A 50\nlength B 30\nangle A B 4/3\n")
    lines = judge_at_once(read_drawing(text), program).names.spelled.sketch.constraints
    (angle,) = [line.text() for line in lines if isinstance(line, Angle)]

    def said(sketch: Sketch, words: Sequence[str]) -> str:
        is_strict = "within=1000" in words
        return one_part({angle: strict if is_strict else " repeat off 1500 ppb"},
                        end if is_strict else "")(sketch, words)
    stands_in = LeavesOut(program, said)
    found = left_out(text, stands_in)
    assert [each.conflicts for each in found.dimensions] == [conflicts]
    assert found.rest is Rest.PLACED
    assert [words[1] for words in stands_in.asked][:2] == ["within=2000", "within=1000"]


def test_a_height_that_the_others_turn_over(program) -> None:
    """They put the corner 40 mm to the other side, where 121 mm are said."""
    plate = drawing("over-plate-contradiction")
    stands_in = LeavesOut(program, one_part({"distance P2 Y 121": " conflict off -161000000 nm"}))
    (each,) = left_out(plate, stands_in).dimensions
    assert each.off_um == -81_000


@pytest.mark.parametrize("line, told", [
    ("distance P2 Y 40", "conflicting"),
    ("distance P1 Y 40", "conflicting by 1\u00a0mm, the others give less"),
])
def test_what_several_say_is_told_without_an_amount(program, line: str, told: str) -> None:
    """One line is said by a length and by what is vertical, the other by the length alone."""
    text = drawing("over-equal-lengths")
    (each,) = left_out(text, LeavesOut(program, one_part({line: LESS}))).dimensions
    assert excess_told(each).removeprefix("in part ") == told


def test_of_an_angle_no_amount_is_told() -> None:
    assert excess_told(Excess(3, "angle A B 45deg", True)) == "conflicting"
    assert excess_told(Excess(3, "angle A B 45deg", False)) == "redundant"
    assert excess_told(Excess(3, "angle A B 45deg")) == "redundant or conflicting; not measured"


WAY = ("segment A 0 0 80 0\nsegment B A.end 80 30\npoint P 40 10\ncoincident A.start Origin\n"
       "horizontal A\nvertical B\nlength A 80\nlength B 30\nx P 40\ny P 10\ndistance P B 45\n")
"""The upright line is 40 mm from the point, and 45 mm are told."""


def test_a_way_to_a_line_is_off_by_what_is_measured_of_it(program) -> None:
    lines = panel(WAY, program)
    (line,) = listed(lines, "left out")
    assert line["text"] == "constraint 8 (distance P B 45): conflicting by 5\u00a0mm"
    assert "Or remove one of these instead:" in [each["text"] for each in lines]


def test_of_a_rest_that_is_not_good_it_says_what_is_off(program) -> None:
    # By hand: without its upright Right leans from 100 0 to 105 on the right, so its end is 5 mm too
    # far from Left.
    lines = panel("segment Left 0 0 0 40\nsegment Right 100 0 102 40\n"
                  "coincident Left.start Origin\nvertical Left\nUpright: vertical Right\n"
                  "length Left 40\nlength Right 40\nWidth: distance Left Right 100\n"
                  "y Right.start 0\nFar: x Right.end 105\n", program)
    (line,) = (each["text"] for each in lines if each.get("takes") == 3)
    assert line.endswith(
        "; without it the rest is well, but not good: 'Width' is off by 5 mm")


def test_of_several_none_is_told_as_if_it_went_alone(program) -> None:
    """What the line is off, as one that may go, is measured where the point's other x is taken
    away too; and without one of the two that are left out there is still one too many. Of the x it
    is measured beside the line."""
    lines = panel(WAY + "x P 42\n", program)
    assert [(each["text"], each["takes"]) for each in listed(lines, "left out")] == [
        ("constraint 8 (distance P B 45): conflicting", 8),
        ("constraint 9 (x P 42): conflicting by 2\u00a0mm, the others give less", 9)]
    assert "Or remove one of these instead of one of those:" in [each["text"] for each in lines]


def test_of_two_lines_one_is_left_out(program) -> None:
    """That the top is horizontal is told of its line, and of each of its ends."""
    plate = drawing("over-plate-contradiction")
    number = next(place for place, each in enumerate(read_drawing(plate).wordings, 1)
                  if each == "horizontal PlateTop")
    stands_in = LeavesOut(program, one_part({"on P2 R3": " repeat off 0 nm"}))
    (each,) = left_out(plate, stands_in).dimensions
    assert (each.number, each.in_part) == (number, True)
    (line,) = listed(panel(plate, stands_in), "left out")
    assert line["text"].endswith(": in part redundant") and "takes" not in line


def test_what_is_known_to_go_as_a_whole_is_not_in_part(program) -> None:
    plate = drawing("over-plate-contradiction")
    stands_in = LeavesOut(program, one_part({"on P2 R3": " repeat off 0 nm"}))
    names = judge_at_once(read_drawing(plate), program).names
    (each,) = too_much(names, stands_in).dimensions
    assert each.in_part
    (each,) = too_much(names, stands_in, {each.number}).dimensions
    assert not each.in_part


def test_of_several_each_may_be_needed_in_part(program) -> None:
    """That each may go where the other stays doesn't say that both may."""
    plate = drawing("over-plate-contradiction")
    stands_in = LeavesOut(program, one_part({"on P2 R3": " repeat off 0 nm",
                                             "distance P2 Y 121": LESS}))
    names = judge_at_once(read_drawing(plate), program).names
    numbers = {each.number for each in too_much(names, stands_in).dimensions}
    assert len(numbers) == 2
    found = too_much(names, stands_in, numbers)
    assert sum(each.in_part for each in found.dimensions) == 1


def test_a_line_of_help_that_is_left_out_is_told(program) -> None:
    plate = drawing("over-plate-contradiction")
    stands_in = LeavesOut(program, one_part({"on O X": " repeat off 0 nm"}))
    assert left_out(plate, stands_in) == TooMuch((), Rest.PLACED, 1)
    lines = [each["text"] for each in panel(plate, stands_in)]
    assert lines[0] == "Over-constrained. Remove one of these:"
    assert "A construction line is redundant too." in lines


# What becomes of the others.

def test_what_boxes_do_not_place_is_asked_by_points(program) -> None:
    def said(sketch: Sketch, words: Sequence[str]) -> str:
        by_points = "place=points" in words
        return last(LESS if by_points else "", "" if by_points else FLAT)(sketch, words)
    stands_in = LeavesOut(program, said)
    found = left_out(TRIANGLE, stands_in)
    assert found.rest is Rest.PLACED and found.dimensions[0].off_um == -1000
    assert [words[-1] for words in stands_in.asked] == ["place=boxes", "place=points"]


@pytest.mark.parametrize("end, rest, head", [
    (FLAT, Rest.NO_PLACES, "Without these the others are fully constrained, but can't be placed:"),
    ("stays over\n", Rest.OVER, "Without these the others are still over-constrained:"),
])
def test_others_without_places(program, end: str, rest: Rest, head: str) -> None:
    stands_in = LeavesOut(program, last("", end))
    found = left_out(TRIANGLE, stands_in)
    assert found.rest is rest and found.dimensions[0].conflicts is None
    lines = panel(TRIANGLE, stands_in)
    assert lines[0]["text"] == f"Over-constrained. {head}"
    (line,) = listed(lines, "left out")
    assert line["text"].endswith(": redundant or conflicting; not measured") and line["takes"] == 4


def test_of_others_without_places_the_next_choice_is_taken(program) -> None:
    """A rectangle of two widths and no height is just enough, and has no places."""
    plate = drawing("over-plate-contradiction")

    def said(sketch: Sketch, words: Sequence[str]) -> str:
        line = sketch.constraints[-1].text()
        fails = line == "distance P2 X 80"
        return one_part({line: "" if fails else LESS}, FLAT if fails else "")(sketch, words)
    found = left_out(plate, LeavesOut(program, said))
    (each,) = found.dimensions
    assert (each.name, each.off_um, found.rest) == ("Top width", -1000, Rest.PLACED)


def test_lines_of_help_are_kept_before_all_dimensions(program) -> None:
    """Also where some dimensions are to be kept."""
    plate = drawing("over-plate-contradiction")
    told: list[list[str]] = []

    def said(sketch: Sketch, words: Sequence[str]) -> str:
        if "place=boxes" in words:
            told.append([line.text() for line in sketch.constraints])
        return last("", FLAT)(sketch, words)
    left_out(plate, LeavesOut(program, said))
    owners = judge_at_once(read_drawing(plate), program).names.spelled.owners
    helps = sum(not any(owner.number and not owner.shape for owner in who) for who in owners)
    assert helps > 1 and len(told) > 2
    assert all(lines[:helps] == told[0][:helps] for lines in told)


def test_no_choice_is_taken_that_leaves_out_more_lines_of_help(program) -> None:
    plate = drawing("over-plate-contradiction")

    def said(sketch: Sketch, words: Sequence[str]) -> str:
        line = sketch.constraints[-1].text()
        fails = line == "distance P2 X 80"
        return one_part({line if fails else "on O X": "" if fails else LESS},
                        FLAT if fails else "")(sketch, words)
    found = left_out(plate, LeavesOut(program, said))
    assert (found.rest, found.helps) == (Rest.NO_PLACES, 0)
    assert len(found.dimensions) == 1


def test_none_is_left_out_of_what_stays_over(program) -> None:
    stands_in = LeavesOut(program, one_part({}, "stays over\n"))
    assert left_out(TRIANGLE, stands_in) == TooMuch((), Rest.OVER)
    lines = panel(TRIANGLE, stands_in)
    assert lines[0]["text"] == "Over-constrained. Remove one of these:"
    assert listed(lines, "spare constraints") and not listed(lines, "left out")


@pytest.mark.parametrize("ends, rest", [
    (("", ""), Rest.PLACED), ((FLAT, ""), Rest.NO_PLACES), (("", FLAT), Rest.NO_PLACES)])
def test_two_parts(program, ends: tuple[str, str], rest: Rest) -> None:
    def said(sketch: Sketch, _: Sequence[str]) -> str:
        lines = [f"excess {len(ends)}\n"]
        for number, (line, end) in enumerate(zip(sketch.constraints[2:], ends), 1):
            lines.append(f"part {number} over elements 2 held 2 due 1 : {' '.join(line.names())}\n"
                         f"c{number + 2} : {line.text()}{'' if end else LESS}\n{end}")
        return "".join(lines)
    found = left_out(TWO, LeavesOut(program, said))
    assert [each.number for each in found.dimensions] == [3, 4] and found.rest is rest
    assert [each.off_um for each in found.dimensions] == [None if end else -1000 for end in ends]


# The panel, and what is told a moment later.

def test_it_stands_in_the_list_with_its_button(program) -> None:
    desk = Desk(LeavesOut(program, last(LESS)))
    at_once = desk.answer("judge", {"text": TRIANGLE})["judgement"]
    assert at_once["verdict"] == "over" and at_once["excess"] == []
    assert at_once["lines"][0]["text"] == "Over-constrained. Remove one of these:"
    found = desk.answer("weigh", {"text": TRIANGLE})
    assert found["lines"][0]["text"] == (
        "Over-constrained. Without these the others can be placed:")
    (line,) = listed(found["lines"], "left out")
    assert line["takes"] == 4 and "(distance A.start A.end 51): conflicting by" in line["text"]
    others = [each["takes"] for each in listed(found["lines"], "spare constraints")]
    assert 4 not in others and 2 in others
    assert [(each["number"], each["conflicts"]) for each in found["excess"]] == [(4, True)]


@pytest.mark.parametrize("answer, why", [
    (Answer(Status.REFUSED, "refused line 3 E20 too-long\n"), "excess with status 1"),
    (Answer(Status.USAGE, "usage: sketch check|solve\n"), "excess with status 2"),
    (Answer(Status.NO_MEMORY, ""), "memory ran out"),
    (Answer(Status.DONE, "excess 1\n"), "no report of excess"),
    (ProgramTimedOut("it took\nmore than 60 s"), "it took more than 60 s"),
], ids=["refused", "unknown", "memory", "rubbish", "time"])
def test_the_verdict_stays_where_excess_fails(program, answer: Answer | Exception,
                                              why: str) -> None:
    desk = Desk(Fails(program, answer))
    assert desk.answer("judge", {"text": TRIANGLE})["judgement"]["verdict"] == "over"
    found = desk.answer("weigh", {"text": TRIANGLE})
    assert found["excess"] == [] and [each["number"] for each in found["spare"]] == [2, 4]
    lines = [each["text"] for each in found["lines"]]
    assert lines[0] == "Over-constrained. Remove one of these:"
    (untold,) = [each for each in lines if each.startswith("The program gives no set to remove: ")]
    assert why in untold and "\n" not in untold


@dataclass
class Tires:
    """A program that places nothing more once it has told what is spare; it counts what it was
    asked then."""

    program: Solver
    refused: int | None = None

    def ask(self, words: Sequence[str], text: str) -> Answer:
        if words[0] == "solve" and self.refused is not None:
            self.refused += 1
            raise ProgramTimedOut("it took\nmore than 60 s")
        if words[0] == "spare":
            self.refused = self.refused or 0
        return self.program.ask(words, text)


def test_what_is_left_out_is_told_where_what_may_go_cannot_be_measured(program) -> None:
    tires = Tires(program)
    desk = Desk(tires)
    assert desk.answer("judge", {"text": TRIANGLE})["judgement"]["verdict"] == "over"
    found = desk.answer("weigh", {"text": TRIANGLE})
    assert [(each["number"], each["conflicts"]) for each in found["excess"]] == [(4, True)]
    assert [(each["number"], each["off"]) for each in found["spare"]] == [(2, None), (4, None)]
    (line,) = listed(found["lines"], "spare constraints")
    assert line["text"].endswith(": removable")
    lines = [each["text"] for each in found["lines"]]
    assert "The removable dimensions can’t be measured: it took more than 60 s" in lines
    assert tires.refused == 1


def test_what_could_not_be_spelled_is_not_called_left_out(program) -> None:
    text = ("point A 0 0\npoint B 10 0\npoint M 5 0\npoint C 5 12\nHalf: symmetric A B about M\n"
            "distance A C 8\ndistance B C 9\ndistance M C 7\n")
    lines = Desk(program).answer("judge", {"text": text})["judgement"]["lines"]
    assert [each["text"] for each in lines if each.get("kind") == "note"] == [
        "not passed to the program: Half"]


# The program itself.

def test_the_program_leaves_the_last_one_out(program) -> None:
    (found,) = left_out(TRIANGLE, program).dimensions
    assert (found.number, found.conflicts, found.off_um) == (4, True, -1000)


def test_of_a_plate_that_contradicts_itself(program) -> None:
    (found,) = left_out(drawing("over-plate-contradiction"), program).dimensions
    assert (found.name, found.conflicts, found.off_um) == ("Top width", True, -1000)


def test_of_an_angle_that_contradicts_two_others(program) -> None:
    """Sides of 50, 30 and 40 mm: the tangent of A and C is 3/4. Where 3000/4001 is told, the end
    of C is 24/5001 mm off."""
    text = ("segment A 0 0 50 0\nsegment B A.end 32 24\nsegment C B.end A.start\nlength A 50\n"
            "angle A B 4/3\nperpendicular B C\nangle A C 3000/4001\n")
    (found,) = left_out(text, program).dimensions
    assert (found.number, found.conflicts) == (4, True)
    (line,) = listed(panel(text, program), "left out")
    assert line["text"].endswith("conflicting by 0.0048\u00a0mm")


BEHIND = "point P 10 0\ny P 0\nx P -20\n"
"""P is drawn at x 10, and told at -20: a length to it is told from a line of help."""
HOOP = "circle C 10 0 5\ny C.centre 0\nx C.centre -20\nradius C 5\n"


@pytest.mark.parametrize("text, off_mm", [
    ("point A 0 20\nfixed A\ny A -20\n", [40]),  # At 20, and told at -20.
    ("point A 0 -20\nfixed A\ny A +20\n", [-40]),
    ("point A 20 0\ny A 0\nx A 20\nx A -25\n", [45]),
    ("point A 20 0\ny A 0\nx A 20\nx A 25\n", [-5]),
    ("point A 20 0\ny A 0\nx A 20\nx A -25\nx A 21.5\n", [45, -1.5]),
    ("point A -20 0\ny A 0\nx A 20\nx A 25\n", [-5]),  # At -20, and told 25 to the left.
    ("point A -20 0\ny A 0\nx A -20\nx A -25\n", [5]),
    ("point A 0.03175in 0\ny A 0\nx A 0.0625in\nx A -0.125in\n", [4.7625]),
    (BEHIND + "distance Origin P 30\n", [-10]),  # A length has no side.
    (BEHIND + "distance Origin P 12.5\n", [7.5]),
    (BEHIND + "distance Origin P 30\ndistance P Origin 20\nx P +20\n", [-10, 0, -40]),
    ("segment S 0 0 10 0\nfixed S.start\ny S.end 0\nx S.end -20\nlength S 30\n", [-10]),
    (HOOP + "x Origin C.centre -25\n", [5]),
    (HOOP + "x C.centre Origin +25\n", [-5]),
])
def test_of_what_is_told_on_the_other_side(program, text: str, off_mm: list[float]) -> None:
    """What is measured, less what is told, where both are told from a line of help: of x and y
    with their signs."""
    found = left_out(text, program)
    assert [each.off_um for each in found.dimensions] == [1000 * each for each in off_mm]
    assert [each.conflicts for each in found.dimensions] == [each != 0 for each in off_mm]


def test_a_row_on_the_other_side_is_told_by_how_much(program) -> None:
    (line,) = listed(panel("point A 0 20\nfixed A\ny A -20\n", program), "left out")
    assert line["text"] == ("constraint 2 (y A -20): conflicting by 40\u00a0mm, "
                            "the others give more")


def test_of_a_row_that_repeats_itself(program) -> None:
    row = drawing("over-hole-row")
    found = left_out(row, program)
    assert found.rest is Rest.PLACED
    assert [excess_told(each) for each in found.dimensions] == ["redundant"]


# What is open, and says too much or what has no shape.

def told(text: str, call: str, program: Solver) -> list[object]:
    answer = Desk(program).answer(call, {"text": text})
    lines = answer["judgement"]["lines"] if call == "judge" else answer["lines"]
    return [each["text"] for each in lines]


def test_what_is_open_and_says_too_much_says_so(program) -> None:
    """Two braced quadrilaterals, and four bars between them, of which three would be enough."""
    places = ("0 0", "40 0", "40 30", "0 30", "10 60", "50 70", "44 100", "8 92")
    bars = [(0, 1, 40), (1, 2, 30), (2, 3, 40), (3, 0, 30), (0, 2, 50), (4, 5, 41), (5, 6, 31),
            (6, 7, 37), (7, 4, 32), (4, 6, 52), (0, 4, 61), (1, 5, 71), (2, 6, 70), (3, 7, 63)]
    text = "".join([*(f"point P{number} {place}\n" for number, place in enumerate(places)),
                    *(f"B{one}{other}: distance P{one} P{other} {long}\n" for one, other, long in bars)])
    (line,) = [each for each in told(text, "judge", program) if str(each).startswith("One of these is redundant")]
    assert line.startswith("One of these is redundant or conflicting, by rank: 'B01', 'B12', ")


def test_what_is_open_and_has_no_shape_says_so_once_it_is_weighed(program) -> None:
    """A chain of 40, 30 and 40 doesn't reach over 200."""
    text = ("segment S 0 0 40 1\nsegment T S.end 40 30\nsegment U T.end 2 31\nsegment V U.end S.start\n"
            "A: length S 40\nB: length T 30\nC: length U 40\nD: length V 200\nangle S U 10deg\n")
    said = ("No shape with these values was found near the drawing, by numbers. Without any one of "
            "these a shape is found: 'A', 'B', 'C', 'D'.")
    assert said in told(text, "weigh", program)


def test_what_is_open_and_contradicts_says_so_once_it_is_weighed(program) -> None:
    """10, 20 and 10 don't reach over 100."""
    text = ("segment A 0 0 100 0\nsegment B A.end 90 10\nsegment C B.end 10 10\n"
            "segment D C.end A.start\nW: length A 100\nX: length B 10\nY: length C 20\nZ: length D 10\n")
    said = "These can’t all be met, by numbers: 'Z', 'Y', 'X', 'W'."
    assert said in told(text, "weigh", program)
    lines = told(text.replace("W: length A 100", "W: length A 30"), "weigh", program)
    assert not any("all be met" in str(each) for each in lines)


def test_what_is_well_and_says_too_much_does_not_say_that_it_is_just_enough(program) -> None:
    """The middle of a segment from -18 26 to 30 40, by x and y, its length, and where its end lies
    twice: of these one is too many."""
    text = ("segment S -18 26.2 30 39\npoint P 6.2 33\npoint Q 5.8 33.3\nmidpoint P S\n"
            "Yours: midpoint Q S\nRight: x Q 6\nUp: y Q 33\nLong: length S 50\n"
            "Far: distance S.end Origin 50\n")
    more = "One of these is redundant or conflicting, by rank: 'Yours', 'Right', 'Up', 'Long', 'Far', 'End'."
    lines = told(text, "judge", program)
    assert more not in lines
    assert any(str(each).startswith("Fully constrained. ") for each in lines)
    lines = told(text + "End: x S.end +30\n", "judge", program)
    assert more in lines and not any(str(each).startswith("Fully constrained.") for each in lines)


def test_what_a_near_ratio_makes_too_much_is_no_contradiction_beside_others(program: Program) -> None:
    """The cosine of 88 degrees, told by 315/11, is off by 0.000000134, which is 2.68 um of 20 m. Finely
    told it follows; how long the edge is isn't known, by 34 nm across that have to be rounded."""
    drawing = read_drawing(
        "segment S -100 0 -65 999\nsegment A 0 0 698 19988\non S.start XAxis\nx S.start -100\n"
        "length S 1000\nangle S 88deg\ncoincident A.start Origin\nparallel S A\n"
        "Long: length A 20000\nAcross: x A.end 697.989934\n")
    judged = judge(drawing, program)
    across, long = (Excess(each.number, each.name, True, Fraction(3)) for name in ("Across", "Long")
                    for each in judged.surplus if each.name == name)
    assert "conflicting" in excess_told(across)
    assert excess_told(across, rounded_of(judged, across)).startswith("redundant")
    assert excess_told(long, rounded_of(judged, long)).startswith("off by 0.0009")
    assert ", which rounding changes by up to 0.00" in excess_told(long, rounded_of(judged, long))
