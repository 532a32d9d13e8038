"""The language: each line, each refusal, and the round trip of texts and values."""
from __future__ import annotations

import random
from decimal import Decimal
from fractions import Fraction

import pytest

from conftest import EXAMPLES, NEW_ROWS, ROWS, TOP, Row
from pertxogai.language import (
    Angle, Ask, Block, BlockPlace, Circle, Claim, ClusterName, Code, Distance, Drop, Erase, Flip,
    Flips, Given, Inside, Line, NotAName, NotHeld, Offer, Offers, On, Outside, PlacedPoint, Point,
    Refusal, Session, SetLength, SetRatio, Sketch, Tangent, micrometres, mm_text, nearest_ratio)
from pertxogai.program import Status

PARSERS = {"flips": Flips, "offers": Offers, "verify": Claim, "measure": Given}
SKETCH_ROWS = [
    row
    for row in ROWS + NEW_ROWS
    if row.words[0] not in ("session", "grow") and row.answer.status != Status.USAGE
]


def whole(*lines: str, version: int = 2) -> str:
    return "\n".join([f"sketch {version}", *lines, "end", ""])


@pytest.mark.parametrize("row", SKETCH_ROWS, ids=lambda row: row.name)
def test_a_row_is_read_as_the_program_reads_it(row: Row) -> None:
    parser = PARSERS.get(row.words[0], Sketch)
    if row.answer.status == Status.REFUSED:
        with pytest.raises(Refusal) as refusal:
            parser.parse(row.text)
        assert refusal.value.refused.text() == row.answer.text
    else:
        value = parser.parse(row.text)
        assert parser.parse(value.text()) == value


@pytest.mark.parametrize("path", EXAMPLES, ids=lambda path: path.stem)
def test_each_example_reads_back(path) -> None:
    sketch = Sketch.parse(path.read_text())
    assert Sketch.parse(sketch.text()) == sketch


def test_the_values_of_a_text() -> None:
    text = whole(
        "point A 0 -1.5",
        "point B 002.50 -0.000 # a comment",
        "line L 0 0 10 0.001",
        "circle H 1 2 3",
        "circle K 5 5 7.25",
        "",
        "distance A B 4",
        "on A L",
        "on B H",
        "tangent H L",
        "outside H K",
        "inside K H",
        "angle L L2 0007/00002",
        "block A 0 0 B 4 0 H 4 3",
    ).replace("circle H", "line L2 0 0 0 1\ncircle H")
    sketch = Sketch.parse(text)
    assert sketch.elements == (
        Point("A", 0, -1500),
        Point("B", 2500, 0),
        Line("L", 0, 0, 10000, 1),
        Line("L2", 0, 0, 0, 1000),
        Circle("H", 1000, 2000, 3000),
        Circle("K", 5000, 5000, 7250),
    )
    assert sketch.constraints == (
        Distance("A", "B", 4000),
        On("A", "L"),
        On("B", "H"),
        Tangent("H", "L"),
        Outside("H", "K"),
        Inside("K", "H"),
        Angle("L", "L2", 7, 2),
        Block((BlockPlace("A", 0, 0), BlockPlace("B", 4000, 0), BlockPlace("H", 4000, 3000))),
    )
    assert sketch.text().splitlines()[1:4] == [
        "point A 0 -1.5",
        "point B 2.5 0",
        "line L 0 0 10 0.001",
    ]


@pytest.mark.parametrize(
    "line, code",
    [
        ("distance A A 0", Code.E9),
        ("distance A A -1", Code.E8),
        ("distance A B -0", Code.E9),
        ("tangent H H", Code.E7),
        ("inside H H", Code.E9),
        ("outside H H", Code.E10),
        ("angle L L 0/1", Code.E9),
        ("on A A", Code.E7),
        ("distance L L 3", Code.E7),
        ("circle 9 1 2", Code.E12),
        ("circle A 1 2", Code.E12),
        ("point A 0 0", Code.E5),
        ("point 9 0 0", Code.E4),
        ("point N 0 0 0", Code.E3),
        ("point N 0 1e3", Code.E8),
        ("point N 0 1000000.001", Code.E8),
        ("point N 0 .5", Code.E8),
        ("point N 0 5.", Code.E8),
        ("point N 0 12345678", Code.E8),
        ("distance A Q 1", Code.E6),
        ("line N 0 0 0 0.000", Code.E11),
        ("circle N 0 0 0", Code.E9),
        ("angle L M 10001/1", Code.E8),
        ("angle L M 1/-1", Code.E8),
        ("foo", Code.E2),
        ("block A 0 0", Code.E3),
        ("block A 0 0 B 0.0 0", Code.E9),
        ("block A 0 0 A 1 0", Code.E10),
        ("block A 0 0 L 1 0", Code.E7),
        ("end x", Code.E3),
        ("sketch 2", Code.E2),
        ("on H H2", Code.E7),
        ("x" * 201, Code.E15),
        ("point \x01", Code.E19),
        ("point N\u00e9 0 0", Code.E19),
        ("on A L # " + "x" * 190, None),
        ("point n_2 0 0", None),
        ("point abcdefghijklmnop 0 0", None),
        ("point abcdefghijklmnopq 0 0", Code.E4),
        ("tangent L H", None),
        ("distance L A 3", None),
    ],
)
def test_the_code_of_a_line(line: str, code: Code | None) -> None:
    text = whole(
        "point A 0 0",
        "point B 1 0",
        "line L 0 0 1 0",
        "line M 0 0 0 1",
        "circle H 0 0 2",
        "circle H2 0 0 2",
        line,
    )
    if code is None:
        Sketch.parse(text)
        return
    with pytest.raises(Refusal) as refusal:
        Sketch.parse(text)
    assert (refusal.value.refused.line, refusal.value.refused.code) == (8, code)


@pytest.mark.parametrize(
    "text, line, code",
    [
        ("", 0, Code.E18),
        (" \n\n", 0, Code.E18),
        ("sketch 3\n", 1, Code.E1),
        ("# x\nsketch 2\n", 1, Code.E1),
        ("sketch 2 # x\n", 1, Code.E1),
        ("sketch 1\npoint A 0 0\n", 3, Code.E16),
        ("sketch 1\npoint A 0 0", 3, Code.E16),
        ("sketch 1\nend\n", 2, Code.E18),
        ("sketch 1\nend x\n", 2, Code.E3),
        ("sketch 1\n# c\n", 2, Code.E2),
        ("sketch 1\npoint A 0 0\npoint B 0 1\nblock A 0 0 B 0 1\nend\n", 4, Code.E2),
        ("sketch 1\npoint A 0 0\nend\npoint B 0 0\n", 4, Code.E17),
        ("\x01", 1, Code.E19),
        ("sketch 1\r\npoint A 0 0\r\r\nend\r\n", 2, Code.E19),
        ("a" * 1_048_577, 0, Code.E20),
    ],
)
def test_the_code_of_a_text(text: str, line: int, code: Code) -> None:
    with pytest.raises(Refusal) as refusal:
        Sketch.parse(text)
    assert (refusal.value.refused.line, refusal.value.refused.code) == (line, code)


def test_limits_of_a_sketch() -> None:
    points = [f"point P{number} {number} 0" for number in range(2000)]
    ties = [
        f"distance P{number % 2000} P{(number + 1 + number // 2000) % 2000} 1"
        for number in range(4000)
    ]
    assert len(Sketch.parse(whole(*points, *ties)).constraints) == 4000
    with pytest.raises(Refusal) as refusal:
        Sketch.parse(whole(*points, "point Q 0 0"))
    assert refusal.value.refused.code is Code.E13
    with pytest.raises(Refusal) as refusal:
        Sketch.parse(whole(*points, *ties, "distance P0 P5 1"))
    assert refusal.value.refused.code is Code.E14


def test_a_sketch_of_values_is_one_of_the_language() -> None:
    point = Point("A", 0, 0)
    for version, elements, constraints, code in [
        (1, (point, point), (), Code.E5),
        (1, (point,), (On("A", "L"),), Code.E6),
        (1, (), (), Code.E18),
        (3, (point,), (), Code.E1),
        (1, (point,), (On("A", "A"),), Code.E7),
        (
            1,
            (point, Point("B", 1, 1)),
            (Block((BlockPlace("A", 0, 0), BlockPlace("B", 1, 0))),),
            Code.E2,
        ),
    ]:
        with pytest.raises(Refusal) as refusal:
            Sketch(version, elements, constraints)
        assert refusal.value.refused.code is code


@pytest.mark.parametrize(
    "given, um",
    [
        (2, 2000),
        ("2.5", 2500),
        (2.5, 2500),
        (0.1, 100),
        (Fraction(1, 8), 125),
        (Decimal("-0.001"), -1),
        ("1000000", 1_000_000_000),
        (25.4, 25400),
    ],
)
def test_millimetres_that_are_held(given, um: int) -> None:
    assert micrometres(given) == um


@pytest.mark.parametrize(
    "given, nearest",
    [
        ("1.5875", "1.588 mm"),
        (1 / 3, "0.333 mm"),
        ("1000000.001", "1000000 mm"),
        (-2_000_000, "-1000000 mm"),
        (Fraction(-1, 3), "-0.333 mm"),
        ("x", None),
        (float("nan"), None),
        ("1e5", None),
        (Decimal("1e-400000"), None),
    ],
)
def test_millimetres_that_are_not_held(given, nearest: str | None) -> None:
    with pytest.raises(NotHeld) as refused:
        micrometres(given)
    assert refused.value.nearest == nearest
    assert "\n" not in str(refused.value)


def test_values_that_the_language_does_not_hold() -> None:
    for make, nearest in [
        (lambda: Distance("A", "B", 0), "0.001 mm"),
        (lambda: Circle("C", 0, 0, -5), "0.001 mm"),
        (lambda: Point("A", 1_000_000_001, 0), "1000000 mm"),
        (lambda: Angle("L", "M", 20001, 10000), "2/1"),
        (lambda: Angle("L", "M", 1, -1), "-1/1"),
        (lambda: Angle("L", "M", 1, 20000), "1/10000"),
        (lambda: Angle("L", "M", 30000, 0), "1/0"),
        (lambda: Angle("L", "M", 0, 1), None),
        (lambda: SetLength(1, 0), "0.001 mm"),
    ]:
        with pytest.raises(NotHeld) as refused:
            make()
        assert refused.value.nearest == nearest
    for wrong in (
        lambda: Distance("A", "B", 4000.0),
        lambda: Angle("L", "M", 1.0, 1),
        lambda: Point("A", Fraction(4000), 0),
    ):
        with pytest.raises(TypeError, match="whole number"):
            wrong()
    for name in ("", "9", "a b", "abcdefghijklmnopq", "\u00e9"):
        with pytest.raises(NotAName):
            Point(name, 0, 0)
    with pytest.raises(ValueError):
        Line("L", 1, 1, 1, 1)


def test_ratios_are_the_nearest() -> None:
    assert nearest_ratio(Fraction(57735026918963, 10**14), 1) == (5042, 8733)  # tan 30 degrees
    assert nearest_ratio(-1, 0) == (-1, 0)
    assert nearest_ratio(1, 10**9) == (1, 10000)
    assert nearest_ratio(10**9, 1) == (1, 0)


def test_canonical_numbers() -> None:
    assert [mm_text(um) for um in (0, 1, -1, 1000, -2500, 1_000_000_000)] == [
        "0",
        "0.001",
        "-0.001",
        "1",
        "-2.5",
        "1000000",
    ]


def test_a_session_reads_back() -> None:
    text = (TOP / "examples" / "edits.session").read_text()
    session = Session.parse(text)
    assert session.text() == text
    assert session.lines[0] is Ask.UNDO and session.lines[6] == SetLength(1, 5000)
    assert Session.parse("set 3 1/2 # c\n\nerase A\ndrop 7\nend\nrubbish").lines == (
        SetRatio(3, 1, 2),
        Erase("A"),
        Drop(7),
    )


@pytest.mark.parametrize(
    "line, code",
    [
        ("drop 0", Code.E8),
        ("drop 01", Code.E8),
        ("drop 10000000", Code.E8),
        ("set 1", Code.E3),
        ("set 1 0", Code.E9),
        ("set 1 -1", Code.E8),
        ("set 1 0/2", Code.E9),
        ("undo x", Code.E3),
        ("erase 1", Code.E4),
        ("sketch 1", Code.E2),
        ("end x", Code.E3),
        ("circle A 1 1", Code.E12),
    ],
)
def test_the_code_of_a_session_line(line: str, code: Code) -> None:
    with pytest.raises(Refusal) as refusal:
        Session.parse("\n" + line)
    assert (refusal.value.refused.line, refusal.value.refused.code) == (2, code)


def test_lines_behind_a_sketch() -> None:
    sketch = Sketch(1, (Point("A", 0, 0), Point("B", 4000, 0)), (Distance("A", "B", 4000),))
    flips = Flips(sketch, (Flip(()), Flip((1, 4))))
    assert (
        flips.text() == sketch.text() + "flip\nflip s1 s4\nend\n"
        and Flips.parse(flips.text()) == flips
    )
    offers = Offers(sketch, (Offer(64, (ClusterName(True, 1), ClusterName(False, 999_999))),))
    assert (
        offers.text() == sketch.text() + "offer 64 s1 c999999\nend\n"
        and Offers.parse(offers.text()) == offers
    )
    for make in (
        lambda: Flip((1, 1)),
        lambda: Flip((0,)),
        lambda: Flip(tuple(range(1, 18))),
        lambda: Offer(0, offers.offers[0].clusters),
        lambda: Offer(1, (ClusterName(True, 1),)),
        lambda: Flips(sketch, (Flip(()),) * 65),
        lambda: Drop(0),
        lambda: Block(()),
    ):
        with pytest.raises(ValueError):
            make()


@pytest.mark.parametrize(
    "lines, line, code",
    [
        ("flip s0\nend", 6, Code.E4),
        ("flip s1 s1\nend", 6, Code.E10),
        ("flip c1\nend", 6, Code.E4),
        ("flip s1", 7, Code.E16),
        ("flip # x\nend", 6, Code.E4),
        ("end\nend", 7, Code.E17),
        ("end x", 6, Code.E3),
        ("flop", 6, Code.E2),
        ("flip\n" * 64 + "flip\nend", 70, Code.E21),
    ],
)
def test_the_code_of_a_flip_line(lines: str, line: int, code: Code) -> None:
    with pytest.raises(Refusal) as refusal:
        Flips.parse("sketch 1\npoint A 0 0\npoint B 4 0\ndistance A B 4\nend\n" + lines)
    assert (refusal.value.refused.line, refusal.value.refused.code) == (line, code)


def test_places_behind_a_sketch() -> None:
    sketch = Sketch(1, (Point("A", 0, 0), Point("B", 4000, 0)), (Distance("A", "B", 4000),))
    given = Given(sketch, (PlacedPoint("B", 4_000_000, -1), PlacedPoint("A", 0, 0)))
    assert given.text() == sketch.text() + "point B 4000000 -1\npoint A 0 0\nend\n"
    assert Given.parse(given.text()) == given


@pytest.mark.parametrize(
    "lines, line, code",
    [
        ("point A 0 0\npoint B 0 1", 8, Code.E16),
        ("step A 0 0\nend", 6, Code.E2),
        ("tolerance 0 0\nend", 6, Code.E2),
        ("end x", 6, Code.E3),
        ("point A 0\nend", 6, Code.E3),
        ("point 1 0 0\nend", 6, Code.E4),
        ("point C 0 0\nend", 6, Code.E6),
        ("circle A 0 0 1\nend", 6, Code.E7),
        ("point A 0 0.5\nend", 6, Code.E8),
        ("point A 0 0\npoint A 0 0\nend", 7, Code.E5),
        ("end\nend", 7, Code.E17),
    ],
)
def test_the_code_of_a_line_of_places(lines: str, line: int, code: Code) -> None:
    with pytest.raises(Refusal) as refusal:
        Given.parse("sketch 1\npoint A 0 0\npoint B 4 0\ndistance A B 4\nend\n" + lines)
    assert (refusal.value.refused.line, refusal.value.refused.code) == (line, code)


def random_sketch(chance: random.Random) -> Sketch:
    """A sketch of any elements and of constraints that fit them, near and at the limits of the
    numbers."""

    def um() -> int:
        return chance.choice(
            [0, 1, -1, 999, 1_000_000_000, -1_000_000_000, chance.randrange(-(10**9), 10**9)]
        )

    def length() -> int:
        return chance.choice([1, 1_000_000_000, chance.randrange(1, 10**6)])

    version = chance.choice([1, 2])
    points = [Point(f"p{k}_", um(), um()) for k in range(chance.randrange(2, 6))]
    circles = [
        Circle(f"C{k}", um(), um(), min(length() + k, 10**9))
        for k in range(chance.randrange(0, 4))
    ]
    lines = [
        Line(f"Line{k}", x := um(), um(), x - 1 if x > 0 else x + 1, um())
        for k in range(chance.randrange(0, 4))
    ]
    elements = [*points, *circles, *lines]
    chance.shuffle(elements)
    made: list = []
    for _ in range(chance.randrange(0, 9)):
        one, two = chance.sample(points + circles, 2)
        made.append(Distance(one.name, two.name, length()))
        if lines:
            line = chance.choice(lines).name
            made += [On(one.name, line), Distance(line, two.name, length())]
        if lines and circles:
            made.append(Tangent(*chance.sample([line, chance.choice(circles).name], 2)))
        if len(lines) > 1:
            names = [it.name for it in chance.sample(lines, 2)]
            made.append(
                Angle(*names, chance.choice([-10000, -1, 1, 7]), chance.choice([0, 1, 10000]))
            )
        if len(circles) > 1:
            names = [it.name for it in chance.sample(circles, 2)]
            radii = {it.name: it.radius_um for it in circles}
            made.append(Outside(*names) if radii[names[0]] == radii[names[1]] else Inside(*names))
        if version == 2:
            made.append(
                Block(tuple(BlockPlace(it.name, k, um()) for k, it in enumerate((one, two))))
            )
    return Sketch(version, tuple(elements), tuple(made))


def test_random_sketches_read_back() -> None:
    chance = random.Random(17)
    for _ in range(400):
        sketch = random_sketch(chance)
        assert Sketch.parse(sketch.text()) == sketch


def test_random_sketches_are_read_by_the_program(program) -> None:
    chance = random.Random(18)
    for _ in range(40):
        sketch = random_sketch(chance)
        answer = program.ask(["migrate"], sketch.text())
        assert answer.status == Status.DONE
        read = Sketch.parse(answer.text)
        assert (read.elements, read.constraints) == (sketch.elements, sketch.constraints)


def test_spoilt_texts_are_refused_as_the_program_refuses_them(program) -> None:
    chance = random.Random(19)
    for _ in range(80):
        text = random_sketch(chance).text()
        at = chance.randrange(len(text))
        text = (
            text[:at]
            + chance.choice(["", " ", "\n", "#", "x", "-", "0", ".", "/", "\t", "\r", "\x7f"])
            + text[at + 1 :]
        )
        answer = program.ask(["check"], text)
        try:
            Sketch.parse(text)
            assert answer.status == Status.DONE, text
        except Refusal as refusal:
            assert answer.text == refusal.refused.text(), text
