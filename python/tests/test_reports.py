"""The reports: each is read as a value and written back, and what is none is refused."""
from __future__ import annotations

import pytest

from conftest import (
    EXAMPLES, EXCESS_ROWS, FRAME_ROWS, LARGE_ROWS, MEASURE_ROWS, NEW_ROWS, ROWS, Row)
from pertxogai.language import (
    Angle, Choice, Claim, ClusterName, Distance, Flip, Flips, Given, Offer, Offers, Point, Session,
    Sketch)
from pertxogai.program import Answer, Status
from pertxogai.program.reports import (
    Accepted, AtConstraint, AtLine, Cause, CheckReport, CircleEntity, ClaimFails, Code,
    ConstraintFault, Excessive, Failing, Follows, FrameFault, Idle, Lack, LineEntity, LineFault,
    Measured, MeasuredOff, NoAnswer, NoChoice, NoCompletion, NotAReport, NumberFault, Off, Part,
    Phase, PointEntity, RangeFault, Refused, RefusedEdit, Shape, Solved, Spare, Stale, StepAt,
    Taken, Tolerances, Turned, TurnedFault, Unit, Unplaced, Usage, Verdict, Verified, read_answer,
    read_check, read_complete, read_derive, read_dxf, read_excess, read_fault, read_flips,
    read_measure, read_no_completion, read_offers, read_parts, read_plan, read_session, read_solve,
    read_spare, read_verify, read_why, write_derive, write_dxf, write_spare)

TRIANGLE = """verdict well
elements 3
constraints 3
steps 1
leaf c1 : distance A B 4
leaf c2 : distance A C 5
leaf c3 : distance B C 3
step s1 joins c3 c2 c1 at C A B keeps c1 turn +
"""


def written(words: tuple[str, ...], report: object) -> str:
    """A report as the program writes it."""
    if isinstance(report, tuple):
        writer = {"spare": write_spare, "derive": write_derive, "dxf": write_dxf}.get(words[0])
        return writer(report) if writer else "".join(it.text() for it in report)
    return report.text()


MEASURED_ROWS = [row for row in EXCESS_ROWS if "stays over" not in row.answer.text]
"""Of those that stay over no line's lack shows."""


@pytest.mark.parametrize(
    "row", ROWS + LARGE_ROWS + EXCESS_ROWS + FRAME_ROWS + NEW_ROWS, ids=lambda row: row.name
)
def test_a_row_is_read_and_written_back(row: Row) -> None:
    assert written(row.words, read_answer(row.words, row.answer)) == row.answer.text


@pytest.mark.parametrize("row", ROWS + MEASURED_ROWS + MEASURE_ROWS, ids=lambda row: row.name)
def test_a_spoilt_row_is_refused(row: Row) -> None:
    text = row.answer.text
    spoilt = [text[:-1], text + "\n", " " + text, text + "rubbish\n", text.replace(" ", "  ", 1)]
    if row.words[0] not in ("flips", "session"):
        spoilt += [text + text, ""]
    if row.words[0] not in ("dxf", "flips", "session", "offers", "measure"):
        lines = text.splitlines(keepends=True)
        spoilt += [
            "".join(lines[:k] + lines[k + 1 :])
            for k in range(min(len(lines), 8))
            if lines[k].split()[0] not in ("point", "line", "circle")
        ]
    for it in spoilt:
        if it != text and not (row.words[0] == "migrate" and row.answer.status == Status.DONE):
            with pytest.raises(NotAReport):
                read_answer(row.words, Answer(row.answer.status, it))


def test_check() -> None:
    report = read_check(
        "verdict over\nelements 3\nconstraints 2\nparts 2\npart 1 over elements 2 held 2 due 1 :"
        " A B\n"
        "part 2 sound elements 1 held 0 due 0 : C\n"
    )
    assert report == CheckReport(
        Verdict.OVER, 3, 2, (Part(1, True, ("A", "B"), 2, 1), Part(2, False, ("C",), 0, 0))
    )


@pytest.mark.parametrize(
    "old, new",
    [
        ("verdict open", "verdict well"),
        ("verdict open", "verdict over"),
        ("parts 2", "parts 3"),
        ("parts 2", "parts 1"),
        ("part 2", "part 3"),
        ("held 3 due 3", "held 4 due 3"),
        ("held 3 due 3", "held 3 due 2"),
        ("3 : A B C", "3 : A B"),
        ("sound", "over"),
        ("elements 4", "elements 04"),
        ("constraints 3", "constraints -3"),
        ("verdict open", "Verdict open"),
    ],
)
def test_a_report_that_contradicts_itself_is_none(old: str, new: str) -> None:
    text = (
        "verdict open\nelements 4\nconstraints 3\nparts 2\npart 1 sound elements 3 held 3 due 3 :"
        " A B C\n"
        "part 2 sound elements 1 held 0 due 0 : D\n"
    )
    read_check(text)
    with pytest.raises(NotAReport) as refused:
        read_check(text.replace(old, new, 1))
    assert "\n" not in str(refused.value)


def test_plan() -> None:
    plan = read_plan(TRIANGLE)
    assert plan.leaves[1].constraint == Distance("A", "C", 5000)
    step = plan.steps[0]
    assert step.joins == (ClusterName(False, 3), ClusterName(False, 2), ClusterName(False, 1))
    assert (step.at, step.keeps, step.choice) == (
        ("C", "A", "B"),
        ClusterName(False, 1),
        Choice.TURN_PLUS,
    )
    tree = plan.tree()
    assert tree is not None and tree.made_by == step
    assert [it.made_by for it in tree.joined] == [plan.leaves[2], plan.leaves[1], plan.leaves[0]]
    assert plan.frame() == plan.leaves[0]
    lone = read_plan("verdict well\nelements 1\nconstraints 0\nsteps 0\n")
    assert lone.tree() is None and lone.frame() is None


@pytest.mark.parametrize(
    "old, new",
    [
        ("joins c3 c2 c1", "joins c3 c2 c4"),
        ("joins c3 c2 c1", "joins c3 c2 c2"),
        ("step s1", "step s2"),
        ("keeps c1", "keeps c4"),
        ("turn +", "turn"),
        ("turn +", "none +"),
        ("leaf c2", "leaf c1"),
        ("A C 5", "A C 5.0"),
        ("distance A C", "distanc A C"),
        ("steps 1", "steps 0"),
        ("verdict well", "verdict open"),
        ("c3 c2", "c03 c2"),
        ("distance A C 5", "on A"),
    ],
)
def test_a_spoilt_plan_is_none(old: str, new: str) -> None:
    with pytest.raises(NotAReport):
        read_plan(TRIANGLE.replace(old, new, 1))


def test_solve() -> None:
    solved = read_solve(
        "verdict well\nsteps 1\nbits 38\npoint A -1 0\nline L 0 1000000000 -5\ncircle H 3 4 5\n"
        "length tolerance 2 nm at c1\nangle tolerance 1 ppb at line L\n"
    )
    assert isinstance(solved, Solved) and (solved.steps, solved.bits) == (1, 38)
    assert [it.name for it in solved.places] == ["A", "L", "H"]
    assert (solved.length_tolerance_nm, solved.length_at) == (2, AtConstraint(1))
    assert (solved.angle_tolerance_ppb, solved.angle_at) == (1, AtLine("L"))
    assert solved.place("H").text() == "circle H 3 4 5"


@pytest.mark.parametrize(
    "line",
    [
        "point A 0 -0",
        "point A 01 0",
        "point A 0",
        "point A 0 0 0",
        "line A 0 0",
        "point A 0 +1",
        "point A 0.5 1",
    ],
)
def test_a_spoilt_place_is_none(line: str) -> None:
    with pytest.raises(NotAReport):
        read_solve(
            f"verdict well\nsteps 0\nbits 38\n{line}\nlength tolerance 0 nm at none\n"
            "angle tolerance 0 ppb at none\n"
        )


@pytest.mark.parametrize(
    "line, fault",
    [
        (
            "fault s1 build height C gap -1443109011456 -1443109011456 bits 38",
            NumberFault(
                StepAt(1, Phase.BUILD, "height", "C"),
                Cause.GAP,
                -1443109011456,
                -1443109011456,
                38,
            ),
        ),
        (
            "fault s18 first base P1 flat -395716241959 2090124924219 bits 38",
            NumberFault(
                StepAt(18, Phase.FIRST, "base", "P1"), Cause.FLAT, -395716241959, 2090124924219, 38
            ),
        ),
        ("fault frame x B range bits 38", FrameFault("x", "B", 38)),
        ("fault s5 second fx L range bits 16", RangeFault(StepAt(5, Phase.SECOND, "fx", "L"), 16)),
        (
            "fault s2 build size L flat 0 0 bits 27",
            NumberFault(StepAt(2, Phase.BUILD, "size", "L"), Cause.FLAT, 0, 0, 27),
        ),
        ("fault c1 tolerance 2 nm limit 1", ConstraintFault(1, 2, Unit.NM, 1)),
        ("fault c12 tolerance 5435 ppb limit 1000", ConstraintFault(12, 5435, Unit.PPB, 1000)),
        ("fault line Y tolerance 2158 ppb limit 1000", LineFault("Y", 2158, 1000)),
        ("fault s1 turned drawn + placed 0", TurnedFault(ClusterName(True, 1), 1, 0)),
        ("fault c4 turned drawn - placed 1", TurnedFault(ClusterName(False, 4), -1, 1)),
    ],
)
def test_each_kind_of_fault(line: str, fault: object) -> None:
    assert read_fault(line + "\n") == fault
    assert fault.text() == line + "\n"


def test_the_ends_of_a_fault_are_exact() -> None:
    fault = read_fault("fault s1 build height C gap -1443109011456 -1443109011456 bits 38\n")
    assert [float(end) for end in fault.ends()] == [-5.25, -5.25]


@pytest.mark.parametrize(
    "line",
    [
        "fault s1 build heigth C gap 1 1 bits 38",
        "fault s1 build height C gap 2 1 bits 38",
        "fault c1 turned drawn + placed 1",
        "fault s1 turned drawn - placed -1",
        "fault c1 tolerance 1 nm limit 1",
        "fault s0 build x",
        "fault c1 tolerance 2 mm limit 1",
        "fault s1 build height C gap 1 1 bits 37",
        "fault s1 third height C range bits 38",
        "fault frame x B range bits 39",
        "fault frame width B range bits 38",
        "fault frame build x B range bits 38",
        "fault frame x B flat 0 0 bits 38",
        "fault line L tolerance 2 nm limit 1",
    ],
)
def test_what_is_no_fault_line(line: str) -> None:
    with pytest.raises(NotAReport):
        read_fault(line + "\n")


def test_spare_and_derive() -> None:
    assert read_spare("spare 2\nc1 : distance A B 4\nc6 : distance A B 4\n") == (
        Spare(1, Distance("A", "B", 4000)),
        Spare(6, Distance("A", "B", 4000)),
    )
    assert read_spare("spare 0\n") == ()
    assert read_derive("clusters 2\ncluster 1 : X Y\ncluster 2 : X Z P\n") == (
        ("X", "Y"),
        ("X", "Z", "P"),
    )
    assert read_derive("clusters 0\n") == ()
    for text in (
        "spare 1\n",
        "spare 0\nc1 : on A L\n",
        "spare 2\nc6 : on A L\nc1 : on A L\n",
        "spare 1\nc1 : on A 9\n",
    ):
        with pytest.raises(NotAReport):
            read_spare(text)
    with pytest.raises(NotAReport):
        read_derive("clusters 1\ncluster 2 : X Y\n")


OVER = "excess 1\npart 2 over elements 3 held 6 due 3 : A B C\n"
LEFT = OVER + "c4 : block A 0 0 B 4 0 C 4 -3"


def test_excess() -> None:
    (over,) = read_excess(LEFT + " conflict off 0 nm turned drawn - placed 1\n").parts
    assert (over.part.number, over.fault, over.stays_over()) == (2, None, False)
    assert over.left_out[0].off == Off(True, 0, Unit.NM, Turned(-1, 1))
    (over,) = read_excess(LEFT + "\nfault c1 tolerance 2 nm limit 1\n").parts
    assert over.left_out[0].off is None and over.fault == ConstraintFault(1, 2, Unit.NM, 1)
    (over,) = read_excess(OVER + "stays over\n").parts
    assert over.left_out == () and over.stays_over()
    lines = (
        "c3 : distance repeat conflict 3 repeat off -1 nm\n"
        "c4 : angle L M 1/1 conflict off 5 ppb\n"
    )
    (over,) = read_excess(OVER.replace("held 6", "held 5") + lines).parts
    assert [it.off for it in over.left_out] == [
        Off(False, -1, Unit.NM),
        Off(True, 5, Unit.PPB),
    ]
    assert over.left_out[0] == Excessive(
        3, Distance("repeat", "conflict", 3000), Off(False, -1, Unit.NM)
    )
    assert read_excess("excess 0\n").parts == ()


@pytest.mark.parametrize(
    "text",
    [
        OVER,
        LEFT + "\n",
        LEFT + "\nstays over\n",
        LEFT + " repeat off 0 nm turned drawn - placed 1\n",
        LEFT + " conflict off 0 nm turned drawn + placed 1\n",
        LEFT + " conflict off 0 ppb\n",
        LEFT + " conflict off -0 nm\n",
        LEFT + " conflict off 0.5 nm\n",
        LEFT + " contradiction off 0 nm\n",
        LEFT.replace("held 6", "held 5") + " repeat off 0 nm\n",
        LEFT.replace("excess 1", "excess 2") + " repeat off 0 nm\n",
        LEFT.replace("part 2", "part 0") + " repeat off 0 nm\n",
        OVER.replace("held 6", "held 4")
        + "c4 : on A L repeat off 0 nm turned drawn + placed 0\n",
        OVER.replace("held 6", "held 4") + "c4 : on A L repeat off 0 nm\nstays over\n",
        OVER.replace("held 6", "held 5")
        + "c4 : on A L\nc3 : on A M\nfault c1 tolerance 2 nm limit 1\n",
        OVER.replace("over", "sound").replace("held 6", "held 3") + "stays over\n",
        "excess 0\nstays over\n",
    ],
)
def test_what_is_no_report_of_excess(text: str) -> None:
    with pytest.raises(NotAReport):
        read_excess(text)


WHY = "why 1\npart 2 over elements 3 held 6 due 3 : A B C\n"


def test_why() -> None:
    text = (
        WHY
        + "c4 : distance follows from 3 follows from c1 c3\n"
        + "c5 : distance A B 2 follows from c2\n"
    )
    (over,) = read_why(text).parts
    assert (over.part.number, [it.because for it in over.left_out]) == (2, [(1, 3), (2,)])
    assert over.left_out[0] == Follows(4, Distance("follows", "from", 3000), (1, 3))
    assert read_why(text).text() == text
    assert read_why("why 0\n").parts == ()


@pytest.mark.parametrize(
    "text",
    [
        "why 1\n",
        WHY.replace("over", "sound").replace("held 6", "held 3"),
        WHY + "c4 : distance A B 3 follows from\n",
        WHY + "c4 : distance A B 3\n",
        WHY + "c4 : distance A B 3 follows from c2 c2\n",
        WHY + "c4 : distance A B 3 follows from c3 c2\n",
        WHY + "c4 : distance A B 3 follows from c4\n",
        WHY + "c4 : distance A B 3 follows from c5\nc5 : distance A B 4 follows from c1\n",
        WHY + "c5 : distance A B 3 follows from c1\nc4 : distance A B 4 follows from c1\n",
        WHY + "c4 : block A 0 0 B 4 0 C 4 3 D 1 1 follows from c1\n",
        WHY.replace("why 1", "why 2") + "c4 : distance A B 3 follows from c2\n",
        "why 0\nc4 : distance A B 3 follows from c2\n",
    ],
)
def test_what_is_no_report_of_why(text: str) -> None:
    with pytest.raises(NotAReport):
        read_why(text)


SPOT = "sketch 1\npoint A 0 0\npoint B 3 4\ndistance A B 5\nend\n"
STUCK = (
    "no completion stuck\nverdict open\nelements 2\nconstraints 0\nparts 2\n"
    "part 1 sound elements 1 held 0 due 0 : A\npart 2 sound elements 1 held 0 due 0 : C\n"
)


def test_complete() -> None:
    assert read_complete(SPOT) == Sketch.parse(SPOT)
    assert read_answer(["complete"], Answer(Status.DONE, SPOT)) == Sketch.parse(SPOT)
    none = read_no_completion(STUCK)
    assert (none.why, none.check.verdict, none.text()) == (Lack.STUCK, Verdict.OPEN, STUCK)
    assert isinstance(read_answer(["complete"], Answer(Status.NOT_WELL, STUCK)), NoCompletion)


@pytest.mark.parametrize(
    "text",
    [
        STUCK.replace("stuck", "tired"),
        STUCK.replace("stuck", "over"),
        STUCK.split("\n", 1)[1],
        STUCK.split("\n", 1)[0] + "\n",
        STUCK + "end\n",
    ],
)
def test_what_tells_of_no_completion(text: str) -> None:
    with pytest.raises(NotAReport):
        read_no_completion(text)


@pytest.mark.parametrize("text", [STUCK, SPOT[:-1], SPOT.replace("5", "05"), SPOT + "\n", ""])
def test_what_is_no_completion(text: str) -> None:
    with pytest.raises(NotAReport):
        read_complete(text)


BESIDE = "c1 : distance off off 4 off 500 nm\nc2 : angle L M 1/1 off -7 ppb\n"
LEAST = "length tolerance 500 nm at c1\nangle tolerance 7 ppb at c2\n"
TURNED = BESIDE.replace("-7 ppb", "-7 ppb turned drawn + placed 0") + LEAST


def test_measure() -> None:
    at = Tolerances(500, AtConstraint(1), 7, AtConstraint(2))
    measured = read_measure(BESIDE + LEAST)
    assert measured == Measured(
        (
            MeasuredOff(1, Distance("off", "off", 4000), 500, Unit.NM),
            MeasuredOff(2, Angle("L", "M", 1, 1), -7, Unit.PPB),
        ),
        at,
    )
    for fault in (
        "fault c1 tolerance 500 nm limit 499\n",
        "fault line L tolerance 2 ppb limit 1\n",
    ):
        found = read_answer(["measure"], Answer(Status.TOLERANCE, BESIDE + LEAST + fault))
        assert isinstance(found, Measured) and found.text() == BESIDE + LEAST + fault
    turned = read_measure(TURNED + "fault c2 turned drawn + placed 0\n")
    assert isinstance(turned, Measured) and turned.offs[1].turned == Turned(1, 0)
    assert read_measure("measure fails element Top\n") == Unplaced("Top")
    for status, told in (
        (Status.DONE, BESIDE + LEAST + "fault c1 tolerance 500 nm limit 499\n"),
        (Status.DONE, "measure fails element Top\n"),
        (Status.TOLERANCE, BESIDE + LEAST),
        (Status.FAULT, BESIDE + LEAST + "fault c1 tolerance 500 nm limit 499\n"),
        (Status.TOLERANCE, TURNED + "fault c2 turned drawn + placed 0\n"),
        (Status.CLAIM_FAILS, BESIDE + LEAST),
    ):
        with pytest.raises(NotAReport):
            read_answer(["measure"], Answer(status, told))
    none = "length tolerance 0 nm at none\nangle tolerance 0 ppb at none\n"
    assert read_measure(none) == Measured((), Tolerances(0, None, 0, None))
    by_a_line = BESIDE + LEAST.replace("7 ppb at c2", "8 ppb at line L")
    assert isinstance(read_measure(by_a_line), Measured)


@pytest.mark.parametrize(
    "text",
    [
        "",
        BESIDE,
        LEAST,
        TURNED,
        BESIDE + LEAST + "fault c2 turned drawn + placed 0\n",
        TURNED + "fault c1 turned drawn + placed 0\n",
        TURNED + "fault s1 turned drawn + placed 0\n",
        TURNED + "fault c2 turned drawn - placed 0\n",
        BESIDE + LEAST + "fault c1 tolerance 499 nm limit 1\n",
        BESIDE + LEAST + "fault c3 tolerance 500 nm limit 1\n",
        BESIDE + LEAST + "fault s1 build height C range bits 38\n",
        BESIDE + LEAST.replace("500", "501"),
        BESIDE + LEAST.replace("500 nm at c1", "500 nm at none"),
        BESIDE + LEAST.replace("7 ppb at c2", "8 ppb at c2"),
        BESIDE + LEAST.replace("7 ppb at c2", "6 ppb at line L"),
        BESIDE.replace("c2", "c3") + LEAST,
        BESIDE.replace("500 nm", "500 ppb") + LEAST,
        BESIDE.replace("500 nm", "500 nm turned drawn + placed 0") + LEAST,
        TURNED.replace("placed 0", "placed 1") + "fault c2 turned drawn + placed 1\n",
        "measure fails element\n",
        "measure fails element Top\n" + LEAST,
    ],
)
def test_what_is_no_report_of_measure(text: str) -> None:
    with pytest.raises(NotAReport):
        read_measure(text)


def test_verify() -> None:
    assert read_verify("verified steps 1 length 0 nm angle 2 ppb\n") == Verified(1, 0, 2)
    for line, fails in [
        ("s2", ClaimFails(Failing.CLUSTER, ClusterName(True, 2))),
        ("c3", ClaimFails(Failing.CLUSTER, ClusterName(False, 3))),
        ("parts", ClaimFails(Failing.PARTS, None)),
        ("element A", ClaimFails(Failing.ELEMENT, "A")),
        ("line L", ClaimFails(Failing.LINE, "L")),
        ("sign s1", ClaimFails(Failing.SIGN, ClusterName(True, 1))),
        ("sign c1", ClaimFails(Failing.SIGN, ClusterName(False, 1))),
    ]:
        assert read_verify(f"verify fails {line}\n") == fails
        assert fails.text() == f"verify fails {line}\n"
    for line in ("verify fails", "verify fails 3", "verify fails sign A", "verified steps 1"):
        with pytest.raises(NotAReport):
            read_verify(line + "\n")


def test_offers_and_flips() -> None:
    report = read_offers(
        "offer 1 taken s1\noffer 2 stale c3\noffer 64 idle\nverdict well\nelements 1\nconstraints"
        " 0\n"
        "parts 1\npart 1 sound elements 1 held 0 due 0 : A\n"
    )
    assert [(it.worker, it.answer) for it in report.answers] == [
        (1, Taken(ClusterName(True, 1))),
        (2, Stale(ClusterName(False, 3))),
        (64, Idle()),
    ]
    flips = read_flips(
        "flip 1 ok\npoint A 0 0\nlength tolerance 0 nm at none\nangle tolerance 0 ppb at none\n"
        "flip 2 no-choice s9\nflip 3 fault\nfault c1 tolerance 2 nm limit 1\n"
    )
    assert isinstance(flips[0].answer, Shape)
    assert flips[1].answer == NoChoice(ClusterName(True, 9))
    assert flips[2].answer == ConstraintFault(1, 2, Unit.NM, 1)
    assert read_flips("") == ()
    with pytest.raises(NotAReport):
        read_flips("flip 2 no-choice s9\n")


def test_dxf() -> None:
    entities = (
        PointEntity(-1, 2_500_000),
        LineEntity(0, 0, 1, -1_000_000_000_000),
        CircleEntity(0, 0, 5_000_000),
    )
    text = write_dxf(entities)
    assert text.splitlines()[4:12] == ["0", "POINT", "8", "0", "10", "-0.000001", "20", "2.500000"]
    assert read_dxf(text) == entities
    for old, new in [
        ("-0.000001", "-0.00001"),
        ("-0.000001", "-0.000000"),
        ("POINT", "ARC"),
        ("EOF", "EOF\n0"),
        ("\n8\n0", "\n8\n1"),
        ("ENDSEC", "SECTION"),
    ]:
        with pytest.raises(NotAReport):
            read_dxf(text.replace(old, new, 1))


def test_a_session_of_every_reply(program) -> None:
    lines = [
        "undo",
        "point A 0 0",
        "check",
        "point B 4 0",
        "line L 0 0 10 0",
        "distance A B 4",
        "solve",
        "on A L",
        "on B L",
        "set 1 5",
        "drop 9",
        "check",
        "plan",
        "solve",
        "write",
        "erase A",
    ]
    replies = read_session(program.ask(["session"], "\n".join(lines)).text)
    kinds = [type(it).__name__ for it in replies]
    assert kinds == [
        "RefusedEdit",
        "Accepted",
        "CheckReport",
        "Accepted",
        "Accepted",
        "Accepted",
        "CheckReport",
        "Accepted",
        "Accepted",
        "Accepted",
        "RefusedEdit",
        "CheckReport",
        "Plan",
        "Solved",
        "Sketch",
        "RefusedEdit",
    ]
    assert (
        replies[0] == RefusedEdit(Code.S3)
        and replies[1] == Accepted("A")
        and replies[5] == Accepted("c1")
    )
    assert replies[9] == Accepted(None) and replies[-1] == RefusedEdit(Code.S2)
    lone = Session((Point("A", 0, 0),)).text() + "solve\n"
    assert isinstance(read_session(program.ask(["session"], lone).text)[1], Solved)


def test_statuses_without_a_report() -> None:
    for status in (Status.READ_FAILED, Status.WRITE_FAILED, Status.NO_MEMORY, Status.NO_ARGUMENTS):
        with pytest.raises(NoAnswer) as refused:
            read_answer(["check"], Answer(status, "ok A\n"))
        assert (refused.value.status, refused.value.text) == (status, "ok A\n")
        assert "\n" not in str(refused.value)
    assert read_answer(["check"], Answer(Status.USAGE, "usage: sketch check|plan\n")) == Usage(
        "usage: sketch check|plan"
    )
    assert read_answer(["plan"], Answer(Status.REFUSED, "refused line 0 E18 empty\n")) == Refused(
        0, Code.E18
    )
    for status, text in [
        (Status.REFUSED, "refused line 1 E18 header\n"),
        (Status.REFUSED, "refused line 1 E99 x\n"),
        (Status.USAGE, "\n"),
        (Status.DONE, ""),
    ]:
        with pytest.raises(NotAReport):
            read_answer(["check"], Answer(status, text))
    with pytest.raises(NotAReport):
        read_answer(["draw"], Answer(Status.DONE, "x\n"))


@pytest.mark.parametrize("path", EXAMPLES, ids=lambda path: path.stem)
def test_each_example_in_each_command(path, program) -> None:
    text = path.read_text()
    for command in (
        "check", "plan", "solve", "dxf", "spare", "excess", "why", "complete", "parts", "derive",
        "migrate",
    ):
        answer = program.ask([command], text)
        assert written((command,), read_answer([command], answer)) == answer.text


def test_what_solve_prints_is_a_claim_that_holds(program) -> None:
    text = (EXAMPLES[0].parents[0] / "bracket.sketch").read_text()
    plan = read_plan(program.ask(["plan"], text).text)
    solved = read_solve(program.ask(["solve"], text).text)
    claim = Claim(
        Sketch.parse(text),
        plan.steps,
        solved.places,
        solved.length_tolerance_nm,
        solved.angle_tolerance_ppb,
    )
    assert Claim.parse(claim.text()) == claim
    answer = read_verify(program.ask(["verify"], claim.text()).text)
    assert answer == Verified(
        len(plan.steps), solved.length_tolerance_nm, solved.angle_tolerance_ppb
    )


def test_what_solve_prints_is_measured(program) -> None:
    text = (EXAMPLES[0].parents[0] / "bracket.sketch").read_text()
    solved = read_solve(program.ask(["solve"], text).text)
    given = Given(Sketch.parse(text), solved.places)
    measured = read_answer(["measure"], program.ask(["measure"], given.text()))
    assert isinstance(measured, Measured) and measured.fault is None
    assert measured.tolerances == solved.tolerances
    lacking = Given(given.sketch, given.places[1:])
    assert read_measure(program.ask(["measure"], lacking.text()).text) == Unplaced(
        given.places[0].name
    )


def test_what_is_completed_is_well(program) -> None:
    text = (EXAMPLES[0].parents[0] / "hinge.sketch").read_text()
    completed = read_complete(program.ask(["complete"], text).text)
    assert completed.elements == Sketch.parse(text).elements
    assert read_check(program.ask(["check"], completed.text()).text).verdict is Verdict.WELL


def test_flips_and_offers_of_values(program) -> None:
    sketch = Sketch.parse((EXAMPLES[0].parents[0] / "arm.sketch").read_text())
    flips = read_flips(
        program.ask(["flips"], Flips(sketch, (Flip(()), Flip((3,)), Flip((2,)))).text()).text
    )
    assert [type(it.answer).__name__ for it in flips] == ["Shape", "Shape", "NoChoice"]
    offers = Offers(
        sketch, (Offer(1, (ClusterName(False, 3), ClusterName(False, 2), ClusterName(False, 1))),)
    )
    assert read_offers(program.ask(["offers"], offers.text()).text).answers[0].answer == Taken(
        ClusterName(True, 1)
    )


def test_parts_of_values(program) -> None:
    report = read_parts(
        program.ask(["parts"], (EXAMPLES[0].parents[0] / "hinge.sketch").read_text()).text
    )
    assert [len(it.shape.places) for it in report.parts] == [4, 4]
