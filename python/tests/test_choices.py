"""Other choices of a plan's steps: which are tried, and what is told where one of them is placed."""
from __future__ import annotations

import json
from dataclasses import replace

import pytest

from conftest import TOP
from pertxogai.commands import main
from pertxogai.drawing import read_drawing
from pertxogai.judging import judge
from pertxogai.judging.choices import Tried, beneath, change, tried, tried_lines
from pertxogai.judging.good import Lack, reasons_against
from pertxogai.judging.judged_drawing import JudgedDrawing
from pertxogai.judging.judged_sketch import judge_sketch
from pertxogai.language import Sketch
from pertxogai.output import drawing_json, drawing_lines
from pertxogai.program import Answer, Status
from pertxogai.program.reports import read_fault, read_plan

EXAMPLE = (TOP / "examples" / "faults" / "other-choice.sketch").read_text()
"""C is drawn above A B, and D below: 5.4 mm apart, so that nothing lies 2 mm from both. With C
turned over the two lie 2.2 mm apart."""
LINES = "".join(line + "\n" for line in EXAMPLE.splitlines()[1:-1])
STEPS = ["turn +", "none", "turn -", "advance +"]


class Said:
    """A program that answers each list of flips with a fault, and keeps what it was asked."""

    def __init__(self, status: Status = Status.DONE) -> None:
        self.status = status
        self.texts: list[str] = []

    def ask(self, words, text):
        self.texts.append(text)
        count = sum(line.startswith("flip ") for line in text.splitlines())
        fault = "fault s1 build height C gap -5 -5 bits 38\n"
        return Answer(self.status, "".join(f"flip {number} fault\n{fault}"
                                           for number in range(1, count + 1)))


def flips(said: Said) -> list[str]:
    return [line for line in said.texts[-1].splitlines() if line.startswith("flip")]


def plan_of(count: int, choices: list[str]):
    """The plan of a strip of triangles, each built on the one before, with these choices."""
    names = [f"P{number}" for number in range(count + 2)]
    pairs = [(0, 1)] + [(k, k + 2) for k in range(count)] + [(k + 1, k + 2) for k in range(count)]
    leaves = "".join(f"leaf c{number} : distance {names[one]} {names[other]} 5\n"
                     for number, (one, other) in enumerate(pairs, 1))
    steps, last = "", "c1"
    for k in range(count):
        first, second = f"c{2 + k + count}", f"c{2 + k}"
        joins = sorted((last, first, second), key=lambda name: (name[0] == "c", -int(name[1:])))
        ends = {frozenset((last, first)): names[k + 1], frozenset((first, second)): names[k + 2],
                frozenset((second, last)): names[k]}
        at = " ".join(ends[frozenset(pair)] for pair in zip(joins, joins[1:] + joins[:1]))
        steps += (f"step s{k + 1} joins {' '.join(joins)} at {at} keeps {last} "
                  f"{choices[k % len(choices)]}\n")
        last = f"s{k + 1}"
    return read_plan(f"verdict well\nelements {count + 2}\nconstraints {len(pairs)}\n"
                     f"steps {count}\n{leaves}{steps}")


SKETCH = Sketch.parse("sketch 1\npoint A 0 0\nend\n")


def test_the_lists_turn_fewest_over_first_and_are_all_where_they_are_few():
    said = Said()
    assert tried(SKETCH, plan_of(3, ["turn +"]).steps, said, []) == Tried(7, True)
    assert flips(said) == ["flip s1", "flip s2", "flip s3", "flip s1 s2", "flip s1 s3",
                           "flip s2 s3", "flip s1 s2 s3"]


def test_a_step_that_leaves_nothing_open_is_not_turned():
    said = Said()
    assert tried(SKETCH, plan_of(4, STEPS).steps, said, []) == Tried(7, True)
    assert flips(said)[:3] == ["flip s1", "flip s3", "flip s4"]


@pytest.mark.parametrize("steps, lists, whole", [(6, 63, True), (7, 64, False), (70, 64, False)])
def test_at_most_64_lists_are_tried(steps, lists, whole):
    said = Said()
    assert tried(SKETCH, plan_of(steps, ["turn +"]).steps, said, []) == Tried(lists, whole)
    assert len(flips(said)) == lists


def test_nothing_is_asked_where_there_is_nothing_to_turn_over():
    said = Said()
    assert tried(SKETCH, plan_of(3, ["none"]).steps, said, []) == Tried(0, True)
    assert said.texts == []


def test_a_text_that_is_too_long_with_the_lists_is_not_tried():
    assert tried(SKETCH, plan_of(3, ["turn +"]).steps, Said(Status.REFUSED), []) == Tried(0, False)


@pytest.mark.parametrize("fault, numbers", [
    ("fault s3 build height P4 gap -5 -5 bits 38\n", [1, 2]),
    ("fault s3 build height P4 flat 0 0 bits 38\n", [1, 2]),
    ("fault s3 build height P4 range bits 38\n", [1, 2]),
    ("fault s3 first fx P4 flat 0 0 bits 38\n", [1, 2, 3]),  # It has made its element already.
    ("fault s1 build height P2 gap -5 -5 bits 38\n", []),
    ("fault c1 tolerance 2000 nm limit 1000\n", []),
])
def test_the_steps_beneath_a_fault(fault, numbers):
    found = beneath(plan_of(4, ["turn +"]), read_fault(fault))
    assert [step.number for step in found] == numbers


def test_what_a_turned_choice_means_for_the_drawing():
    sketch = Sketch.parse("sketch 1\npoint P0 0 0\npoint P1 4 0\npoint P2 0 3\nline L 0 0 1 0\n"
                          "end\n")
    step, = plan_of(1, ["turn +"]).steps
    assert change(sketch, step, str) == "draw P2 on the other side of the line through P0 and P1"
    assert change(sketch, step, {"P0": "A", "P1": "B"}.get) == "flip the choice of step s1"
    text = ("verdict well\nelements 3\nconstraints 3\nsteps 1\nleaf c1 : on P0 L\n"
            "leaf c2 : on P1 L\nleaf c3 : distance P0 P1 4\n"
            "step s1 joins c3 c2 c1 at P1 L P0 keeps c1 advance +\n")
    step, = read_plan(text).steps
    assert change(sketch, step, str) == "draw P1 on the other side of P0, along L"
    assert change(sketch, step, {"P0": "A", "P1": "B"}.get) == "draw B on the other side of A"


def test_a_sketch_that_another_choice_places(program, monkeypatch, capsys, tmp_path):
    found = judge_sketch("example", EXAMPLE, program)
    assert found.fault is not None and found.tried.whole and found.tried.lists == 3
    other = found.tried.found
    assert other.flip() == "flip s1" and other.shape.length_tolerance_nm <= 1
    # C lies at 0 -3 then, and E as far from it as from D, which is at 2 -1.9994.
    assert abs(other.shape.place("C").y_nm + 3_000_000) <= 1
    path = tmp_path / "example.sketch"
    path.write_text(EXAMPLE)
    monkeypatch.setenv("PERTXOGAI_SKETCH", program.path)
    assert main(["judge", str(path)]) == 1
    lines = capsys.readouterr().out.splitlines()
    assert "  an alternative solution is placed within 1 nm and 0 ppb: flip s1" in lines
    assert "    draw C on the other side of the line through A and B" in lines
    assert "draw it so, or change a length" in lines[-1]
    assert main(["judge", "--json", str(path)]) == 1
    sketch, = json.loads(capsys.readouterr().out)["sketches"]
    assert sketch["other_choice"] == {
        "tried": 3, "all": True, "flip": ["s1"],
        "changes": ["draw C on the other side of the line through A and B"],
        "length_tolerance_nm": 1, "angle_tolerance_ppb": 0}


def test_a_drawing_that_another_choice_places(program):
    drawing = read_drawing(LINES)
    judged = JudgedDrawing("it", drawing, judge(drawing, program))
    lines = list(drawing_lines(judged))
    assert "    draw C on the other side of the line through A and B" in lines
    assert drawing_json(judged)["other_choice"]["changes"] == [
        "draw C on the other side of the line through A and B"]
    redrawn = read_drawing(LINES.replace("point C 0 3", "point C 0 -3"))
    assert reasons_against(JudgedDrawing("it", redrawn, judge(redrawn, program))) == ()


def test_the_tolerance_of_another_choice_is_told_of_the_drawing(program):
    """The sketch is told ten times as large, and its tolerance is of that."""
    drawing = read_drawing(LINES.replace("distance C E 2", "distance C E 2.0001"))
    found = judge(drawing, program).tried
    assert found.scale == 10 and found.within()[0] <= 1
    shape = found.found.shape
    worse = replace(shape, tolerances=replace(shape.tolerances, length_nm=21))
    assert replace(found, found=replace(found.found, shape=worse)).within()[0] == 3


def test_what_could_not_be_tried_is_told_so():
    line, = tried_lines(SKETCH, Tried(0, False))
    assert line == "no alternative solution is tried: the text would be too long for the program"
    assert list(tried_lines(SKETCH, Tried(0, True))) == list(tried_lines(SKETCH, None)) == []
    line, = tried_lines(SKETCH, Tried(64, False))
    assert line == "no alternative solution of the steps beneath is placed (64 tried, not all)"


def test_where_no_choice_places_it_that_is_told(program):
    """Beside sides of 5, 1 and 1 there is none to choose; a point 9 mm from A and 1 mm from C has
    no place, whichever way C is turned."""
    found = judge_sketch("none", (TOP / "examples" / "no-triangle.sketch").read_text(), program)
    assert found.tried == Tried(0, True)
    text = LINES.replace("distance C E 2\ndistance D E 2\n", "distance C E 1\ndistance A E 9\n")
    drawing = read_drawing(text)
    judged = JudgedDrawing("it", drawing, judge(drawing, program))
    assert judged.judgement.tried.found is None and judged.judgement.tried.whole
    line, = (line for line in drawing_lines(judged) if "no alternative" in line)
    assert line.strip() == ("no alternative solution of the steps beneath meets all of it "
                            f"({judged.judgement.tried.lists} tried, all there are)")


def test_a_constraint_that_another_choice_meets(program):
    """Placed as drawn the angle is missed; what other choices do is told of all steps."""
    text = ("segment A 0 0 40 0\nsegment B A.end 20 30\nsegment C B.end A.start\nlength B 38\n"
            "length C 36\nangle A B 120deg\nangle C 60deg\ncoincident A.start Origin\n")
    drawing = read_drawing(text)
    judged = JudgedDrawing("it", drawing, judge(drawing, program))
    assert [each.lack for each in reasons_against(judged)] == [Lack.OFF]
    assert judged.judgement.tried.lists > 0 and judged.judgement.tried.found is None
    assert any("no alternative solution meets all of it" in line for line in drawing_lines(judged))
