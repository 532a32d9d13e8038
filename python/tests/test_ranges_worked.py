"""Ranges of small drawings whose ends are worked out by hand: linkages, holes by slanted and round
edges, roundings, expressions that turn back, obstacles that are passed or hit."""
from __future__ import annotations

from fractions import Fraction
from math import asin, degrees, sqrt

import pytest

from pertxogai.drawing import Parameter, read_drawing
from pertxogai.program.library import quickest
from pertxogai.ranging import FaultKind, Range, Ranging

FOUR_BAR = """point B 60 0
on B XAxis
x B 60
segment Crank Origin 40 30
length Crank 50
Turn: angle XAxis Crank +37deg
point C 68 39
Coupler: distance Crank.end C 30
Rocker: distance B C 40
"""
SLIDER = """segment Crank Origin 15 13
length Crank 20
angle XAxis Crank +3/4
point P 42 0
on P XAxis
Rod: distance Crank.end P 30
"""
RHOMBUS = """segment AB Origin 28 28
segment BC AB.end 56 0
segment CD BC.end 28 -28
segment DA CD.end Origin
on BC.end XAxis
Side: length AB 40
equal AB BC CD DA
Long: x BC.end 56
"""
GAP = """point P 40 0
point Q 0 30
point C 30 35
on P XAxis
Place: x P +40
on Q YAxis
y Q 30
distance P C 45.01
distance Q C 15
"""
WEDGE = """segment A Origin 80 0
segment B A.end 0 60
segment C B.end Origin
horizontal A
vertical C
Wide: length A 80
High: length C 60
circle Hole 20 20 10
Place: x Hole 20
y Hole 20
Size: radius Hole 10
"""
ROUNDED = """segment Bottom Origin 60 0
segment Right Bottom.end 60 30
arc Round 50 30 Right.end 50 40
segment Top Round.end 0 40
segment Left Top.end Origin
horizontal Bottom Top
vertical Right Left
tangent Right Round
tangent Round Top
Wide: length Bottom 60
High: length Left 40
Size: radius Round 10
"""
HALF = """segment Base -30 0 30 0
arc Dome 0 0 Base.end Base.start
coincident Dome Origin
horizontal Base
on Base.start XAxis
length Base 60
circle Hole 1 10 5
Aside: x Hole +0
Up: y Hole 10
radius Hole 5
"""
ROLLS = """circle A 0 0 10
circle B 25 0 14
coincident A Origin
on B XAxis
tangent A B
One: radius A 10
Other: radius B 15
segment Wall 60 -20 60 20
vertical Wall
x Wall.start 60
Begin: y Wall.start -20
length Wall 40
"""
TWO = """value V 10
circle A 0 0 10
circle B 50 0 10
coincident A Origin
on B XAxis
x B 50
radius A V
radius B V
"""
PAST = """value V 20
circle Hole 20 10 2
circle Pin 60 30 1
x Hole V
y Hole V/2
radius Hole 2
x Pin 60
y Pin 30
radius Pin 1
"""
CLOSE_BY = """circle Hole 20 30 1
circle Pin 72 32 0.1
Place: x Hole +20
y Hole 30
radius Hole 1
x Pin 72
Aside: y Pin 31.2
radius Pin 0.1
"""
SQUARE = """value V 40
rectangle Plate 0 0 38 38
coincident PlateBottom.start Origin
length PlateBottom V
length PlateRight V
circle Hole 19 19 15
x Hole V/2
y Hole V/2
diameter Hole V/2+10
"""
INCHES = """rectangle Plate 0 0 100 76
coincident PlateBottom.start Origin
Wide: length PlateBottom 4in
High: length PlateRight 3in
circle Hole 25 25 6
Place: x Hole 1in
y Hole 1in
Size: radius Hole 0.25in
"""
PITCH = """value Holes 6
segment S Origin 40 0
segment T Origin 24 32
horizontal S
length S 40
equal S T
angle S T 360deg/Holes
circle One S.end 5
circle Two T.end 5
radius One 5
equal One Two
"""
BACK = """value V 10
circle Hole 50 30 1
x Hole max(V,60-V)
y Hole 30
radius Hole 1
circle Pin 28.95 30 0.1
x Pin 28.95
y Pin 30
radius Pin 0.1
"""
DIP = """value V 10
segment Wall Origin 100 0
horizontal Wall
length Wall 100
segment Bar 20 1 60 1
x Bar.start 20
y Bar.start 0.3
x Bar.end 60
y Bar.end +(V-200)*(V-200)/10-0.4
"""
LEVER = """segment L 0 10 50 20
on L.start YAxis
Begin: y L.start 10
x L.end 50
Up: y L.end 20
point C -50 0
on C L
on C XAxis
"""
BESIDE_TWO = """segment S Origin 60 0
horizontal S
length S 60
segment T 0 30 60 60
on T.start YAxis
y T.start 30
x T.end 60
Up: y T.end +60
circle C -17.6 10 1
distance C S 10
distance C T 10
radius C 1
"""
ECCENTRIC = """circle Disc 0 0 20
circle Bore 3 0 6
coincident Disc Origin
on Bore XAxis
radius Disc 20
Size: radius Bore 6
Off: x Bore 3
"""
SHAFT = """segment Flat 7 -7 7 7
arc Round 0 0 Flat.end Flat.start
Size: radius Round 10
Off: distance Round Flat 7
"""
POST = """segment Base 0 0 80 0
segment Post 50 0 50 41
coincident Base.start Origin
horizontal Base
Long: length Base 80
on Post.start Base
vertical Post
Place: x Post.start 50
length Post 40
"""
BARS = """rectangle Window 0 0 110 60
segment Bar1 30 0 30 60
segment Bar2 50 0 50 60
coincident WindowBottom.start Origin
length WindowBottom 100
length WindowLeft 60
vertical Bar1 Bar2
on Bar1.start WindowBottom
on Bar2.start WindowBottom
on Bar1.end WindowTop
on Bar2.end WindowTop
First: distance Bar1 WindowLeft 30
Second: distance Bar2 Bar1 20
"""
SHORT_BASE = """value W 151
segment Base 0 0 72 1
segment Side Base.start 29 41
segment Far Side.end Base.end
Short: length Base 70
length Side W/3
distance Side.end Base 40
"""
GIVEN_BASE = """segment Base 0 0 72 13
segment Side Base.start 22 45
outer segment Rim 0 0 72.00012345 0
segment Far Side.end Base.end
Short: length Base 70
length Side 50.3
distance Side.end Base 40
coincident Base.start Rim.start
angle Base +10deg
"""
PINNED_BASE = """value W 22
segment Base 0 0 72 13
segment Side Base.start 22.91 44.78
segment Far Side.end Base.end
segment Top Side.end 72.11 53.67
segment Pin Top.end 70.82 60.85
Short: length Base 70
length Side 50.3
distance Side.end Base 40
parallel Top Base
length Top 50
perpendicular Pin Base
length Pin W/3
"""
FLAT_RHOMBUS = """segment South 0 0 31 0
segment East South.end 44 27
segment North East.end 14 26
segment West North.end South.start
equal South East North West
Side: length South 30
angle South West 151.6992deg
"""
STEM = "value V 45\nsegment S Origin 40 0\nhorizontal S\nlength S "
ARM = """segment S Origin 40 0
segment T Origin -20 20
horizontal S
length S 40
length T 30
Turn: angle S T 135deg
"""


def parameter_of(text: str, name: str) -> tuple[Ranging, Parameter]:
    ranging = Ranging.of(read_drawing(text), quickest())
    return ranging, next(each for each in ranging.parameters()
                         if each.called(ranging.drawing) == name)


def range_of(text: str, name: str) -> Range:
    ranging, of = parameter_of(text, name)
    return ranging.range_of(of)


@pytest.mark.parametrize(("text", "name", "low", "high"), [
    # The end of the crank is 20 * 3/5 = 12 above the axis.
    (SLIDER, "Rod", "12.001", "1000000"),
    (RHOMBUS, "Long", "0.001", "79.999"),
    (RHOMBUS, "Side", "28.001", "1000000"),
    # P is at most 60.01 and at least 30.01 away from Q, which is 30 above: from
    # sqrt(30.01*30.01 - 900) = 0.7747 to sqrt(60.01*60.01 - 900) = 51.97307.
    (GAP, "Place", "0.775", "51.973"),
    # 3x + 4y = 240 is the slanted edge, so the centre is 20 away from all three edges; a cut of a
    # micrometre is a touch.
    (WEDGE, "Size", "0.001", "20.001"),
    # (240 - 3x - 80)/5 >= 9.999, so x <= 36.66833.
    (WEDGE, "Place", "9.999", "36.668"),
    # The edge is 9.999 from the centre where (40*W - 1200)/sqrt(W*W + 3600) is, at 49.43328, and
    # (60*H - 1600)/sqrt(H*H + 6400), at 41.70122.
    (WEDGE, "Wide", "49.434", "1000000"),
    (WEDGE, "High", "41.702", "1000000"),
    # At 40 the straight piece of the right side is gone.
    (ROUNDED, "Size", "0.001", "39.999"),
    (ROUNDED, "High", "10.001", "1000000"),
    # It stays 5 within the arc of 30: sqrt(25.001*25.001 - 100) = 22.91397.
    (HALF, "Aside", "-22.913", "22.913"),
    (HALF, "Up", "4.999", "25.001"),
    # 10 + 2*25 = 60 is the wall.
    (ROLLS, "Other", "0.001", "25"),
    (ROLLS, "One", "0.001", "30.001"),
    # 40 more is the other end of the wall, and nothing lies beyond 1000000.
    (ROLLS, "Begin", "-1000000", "999960"),
    (TWO, "V", "0.001", "25"),
    # They touch 2.999 before the pin, on a way that is V*sqrt(1.25) long: 60 - 2.6824.
    (PAST, "V", "0", "57.317"),
    # It passes the pin 0.1 above it.
    (CLOSE_BY, "Place", "-1000000", "1000000"),
    # V/4 + 5 - V/2 <= 0.001.
    (SQUARE, "V", "19.996", "1000000"),
    # 1.25 inches are 31.75 mm.
    (INCHES, "Wide", "31.749", "1000000"),
    (INCHES, "Place", "6.349", "95.251"),
    (INCHES, "Size", "0.001", "25.401"),
    # At V = 30 the hole turns back at x = 30. Its rim meets the pin's where 60 - V is 28.95 + 1.099.
    (BACK, "V", "-999940", "29.951"),
    # At V = 198 the end of the bar is on the wall; from there to 202 it is beneath.
    (DIP, "V", None, "198"),
    # C lies at -500/(Up - 10): at 10 the lever is level, and beneath C is on the other side.
    (LEVER, "Up", "10.001", "1000000"),
    # It lies at -50 Begin/(20 - Begin): at 0 where the lever begins.
    (LEVER, "Begin", "0", "19.999"),
    # At 30 the two edges are parallel, and no place is 10 from both.
    (BESIDE_TWO, "Up", "30.001", "1000000"),
    # The bore stays within the disc, whose centre may lie in it or not.
    (ECCENTRIC, "Size", "0.001", "17.001"),
    (ECCENTRIC, "Off", "0", "14.001"),
    # The post stays on its base, and the bars on the sills of their window.
    (POST, "Place", "0", "80"),
    (POST, "Long", "50", "1000000"),
    (BARS, "First", "0.001", "80"),
    (BARS, "Second", "0.001", "70"),
    (SHAFT, "Size", "7.001", "1000000"),
    (SHAFT, "Off", "0.001", "9.999"),
    # 1000/0.001 is the greatest length, 1000/1000000 the least.
    (STEM + "1000/(V-20)\n", "V", "20.001", "1000020"),
    # sqrt(30*30 - 900) is no length, and sqrt(1000000*1000000 - 900) is less than the greatest.
    (STEM + "sqrt(V*V-900)\n", "V", "30.001", "1000000"),
])
def test_ends_are_those_by_hand(text: str, name: str, low: str | None, high: str) -> None:
    found = range_of(text, name)
    assert low is None or found.low.at == Fraction(low)
    assert found.high.at == Fraction(high)
    assert found.is_clear


@pytest.mark.parametrize(("text", "name", "low", "high"), [
    # From 80*sin(180/n) = 9.999 to where the second arm is a right angle from atan(32/24).
    (PITCH, "Holes", "2.516", "25.069"),
    # T is drawn at 135 degrees, so it runs the other way from 45 down.
    (ARM, "Turn", "45", "179.9999"),
    # The crank's end is 78.4630 degrees up where it is 70 = 30 + 40 away from B: there
    # 60*60 + 50*50 - 2*60*50*cos = 70*70, so the cosine is 0.2. At 0 degrees it is 40 - 30 away.
    (FOUR_BAR, "Turn", "0.0001", "78.463"),
])
def test_ends_of_angles_are_those_by_hand(text: str, name: str, low: str, high: str) -> None:
    found = range_of(text, name)
    assert abs(found.low.at - Fraction(low)) <= Fraction("0.0001")
    assert abs(found.high.at - Fraction(high)) <= Fraction("0.0001")
    assert found.is_clear


def test_what_is_nearly_off_at_present_ends_no_range() -> None:
    """The angle is off by 763 parts of 1,000 million, of 1,000 that are allowed, at any size."""
    found = range_of(FLAT_RHOMBUS, "Side")
    assert (found.low.at, found.high.at) == (Fraction("0.001"), 1_000_000)


@pytest.mark.parametrize(("text", "least"), [
    # No sketch holds a third of 151 mm. The height's foot is 30.6 mm along Base, whose ends are
    # whole nanometres: where Base is 30 micrometres long, the height may be off by one.
    (SHORT_BASE, "0.031"),
    # The end of Rim, the third shape, is no whole micrometre; the height is the third constraint.
    # Its foot is 30.5 mm along Base, whose end may lie 0.58 nm beside its line: where Base is 26.5
    # micrometres long, the height may be off by two thirds of one.
    (GIVEN_BASE, "0.0265")])
def test_a_value_that_is_rounded_hides_no_other_constraint(text: str, least: str) -> None:
    ranging, of = parameter_of(text, "Short")
    low = ranging.range_of(of).low
    assert low.fault.kind is FaultKind.ROUNDING and low.at <= Fraction(least) * 33 / 32
    for number in range(int(low.at * 1000), 46):
        assert ranging.fault(of, Fraction(number, 1000)) is None


def test_a_value_that_is_rounded_hides_no_other_of_its_line() -> None:
    """Pin's end lies 40 and a third of 22 from Base, which no sketch holds; the 40 are the height's.
    Where Base is 17 micrometres long, its end lies at 16,729.49 and 3,020.60 nm, and the nearest
    whole ones are 0.48 beside its line: the height, of which the foot is 30.5 mm along, is off by
    860, which is more than two thirds of a micrometre."""
    low = range_of(PINNED_BASE, "Short").low
    assert low.fault.kind is FaultKind.ROUNDING
    assert Fraction("0.017") < low.at <= Fraction("0.0265") * 33 / 32


@pytest.mark.parametrize(("text", "name", "why"), [
    (ROUNDED, "Size", "Right has no length there"),
    # At 10 the flat is 10 from the centre, as far as the circle.
    (SHAFT, "Off", "Flat has no length there")])
def test_an_edge_that_comes_to_nothing_is_named(text: str, name: str, why: str) -> None:
    assert range_of(text, name).high.fault.text == why


def test_a_point_that_leaves_its_edge_is_named() -> None:
    found = range_of(POST, "Place")
    assert found.high.fault.text == (
        "Post.start lies beyond the end of Base, but is drawn between its ends")


def test_what_only_just_reaches_is_told_so() -> None:
    # The crank's end is 4/5 of its length high: 74 at 92.5, as long as the rod.
    found = range_of("segment Crank 0 0 19 24\nsegment Rod Crank.end 95 1\n"
                     "coincident Crank.start Origin\nLong: length Crank 30\nlength Rod 74\n"
                     "angle Crank 4/3\non Rod.end XAxis\n", "Long")
    assert found.high.at == Fraction("92.499")
    assert found.high.fault.text.startswith(
        "Rod.end can't be placed: the distance only just reaches the line (step 3, reach ")


def test_an_edge_that_turns_about_between_two_values_of_a_drawing_that_is_free() -> None:
    """Arm, drawn at 45 degrees, is at most 90.2 off that, at 37. Beside it all turns with it, by T:
    A to D have 2 * (100^2 + 80^2) of the sums by which T is found, Arm 70 * sqrt(2). Arm runs the
    other way where it is a right angle off T: there 32800 sin T = 70 sqrt(2), and T = 0.172929
    degrees, so (W - 37)^2 / 2 = 0.2 - T."""
    found = range_of("value W 20\nsegment A 0 0 100 0\nsegment B A.end 100 80\n"
                     "segment C B.end 0 80\nsegment D C.end A.start\nsegment Arm 40 30 47 37\n"
                     "perpendicular A B\nperpendicular B C\nperpendicular C D\nlength A 100\n"
                     "length B 80\ndistance Arm.start A 30\ndistance Arm.start D 40\n"
                     "length Arm 10\nangle A Arm +(135.2deg - (W-37)*(W-37)/2*1deg)\n", "W")
    turn = degrees(asin(70 * sqrt(2) / 32800))
    assert float(found.high.at) == pytest.approx(37 - sqrt(2 * (.2 - turn)), abs=.001)
    assert found.high.fault.text == "Arm runs the other way than it is drawn"
