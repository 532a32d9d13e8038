"""The text of a drawing: what each line says, how it is written, and how it is refused."""

from fractions import Fraction

import pytest

from pertxogai.drawing import (
    ORIGIN, X_AXIS, Y_AXIS, AngleBetween, Arc, Circle, Coincident, Collinear, Concentric, Degrees,
    Diameter, Distance, Drawing, DrawingRefusal, Equal, Fixed, Horizontal, Length, Midpoint, Note,
    Pair, Parallel, ParallelDistance, Perpendicular, Place, Point, PointLineDistance, PointOn,
    PointRef, Radius, Ratio, Segment, Sense, ShapeRef, Symmetric, Tangent, Vertical, Which,
    XDistance, YDistance, line_of, read_drawing, write_drawing)

SHAPES = """\
point A 0 0
point B 40 0
segment Bottom A B
segment Right B 40 30
circle Hole 10 10 2.5
arc Fillet 35 25 40 25 35 30
"""

A, B = PointRef("A"), PointRef("B")
BOTTOM, RIGHT, HOLE, FILLET = (ShapeRef(name) for name in ("Bottom", "Right", "Hole", "Fillet"))
START, END = PointRef("Bottom", Which.START), PointRef("Right", Which.END)
HOLE_CENTRE, FILLET_CENTRE = (PointRef(name, Which.CENTRE) for name in ("Hole", "Fillet"))
CORNER = Pair(PointRef("Bottom", Which.END), PointRef("Right", Which.START))


def um(mm):
    return Fraction(mm) * 1000


def place(x, y):
    return Place(um(x), um(y))


ASKED = [
    ("coincident A Right.end", [Coincident(A, END)]),
    ("coincident A B Hole", [Coincident(A, B), Coincident(A, HOLE_CENTRE)]),
    ("coincident Origin A", [Coincident(ORIGIN, A)]),
    ("on Right.end Bottom", [PointOn(END, BOTTOM)]),
    ("on Hole XAxis", [PointOn(HOLE_CENTRE, X_AXIS)]),
    ("on A Fillet", [PointOn(A, FILLET)]),
    ("horizontal Bottom", [Horizontal(BOTTOM)]),
    ("horizontal Bottom Right", [Horizontal(BOTTOM), Horizontal(RIGHT)]),
    ("horizontal A Hole", [Horizontal(Pair(A, HOLE_CENTRE))]),
    ("vertical Right", [Vertical(RIGHT)]),
    ("vertical Hole Fillet B",
     [Vertical(Pair(HOLE_CENTRE, FILLET_CENTRE)), Vertical(Pair(HOLE_CENTRE, B))]),
    ("parallel Bottom Right", [Parallel(BOTTOM, RIGHT)]),
    ("parallel XAxis Bottom Right", [Parallel(X_AXIS, BOTTOM), Parallel(X_AXIS, RIGHT)]),
    ("perpendicular Bottom Right", [Perpendicular(BOTTOM, RIGHT)]),
    ("perpendicular Bottom.end Right.start", [Perpendicular(BOTTOM, RIGHT, CORNER)]),
    ("collinear Bottom XAxis", [Collinear(BOTTOM, X_AXIS)]),
    ("angle Bottom Right 60deg", [AngleBetween(BOTTOM, RIGHT, Degrees(Fraction(60)))]),
    ("angle Right 22.5°", [AngleBetween(X_AXIS, RIGHT, Degrees(Fraction(45, 2)))]),
    ("angle Bottom Right -60deg",
     [AngleBetween(BOTTOM, RIGHT, Degrees(Fraction(-60)), Sense.SIGNED)]),
    ("angle Bottom Right +240deg",
     [AngleBetween(BOTTOM, RIGHT, Degrees(Fraction(240)), Sense.SIGNED)]),
    ("angle Bottom Right 1/2", [AngleBetween(BOTTOM, RIGHT, Ratio(1, 2))]),
    ("angle Right -1/0", [AngleBetween(X_AXIS, RIGHT, Ratio(-1, 0), Sense.SIGNED)]),
    ("length Bottom 120", [Length(BOTTOM, um(120))]),
    ("length Bottom Right 4.5in", [Length(BOTTOM, um("114.3")), Length(RIGHT, um("114.3"))]),
    ("length Bottom 12.0004mm", [Length(BOTTOM, um("12.0004"))]),
    ("distance A Right.end 50", [Distance(A, END, um(50))]),
    ("distance Hole Fillet 30", [Distance(HOLE_CENTRE, FILLET_CENTRE, um(30))]),
    ("distance Hole Bottom 10", [PointLineDistance(HOLE_CENTRE, BOTTOM, um(10))]),
    ("distance YAxis B 40", [PointLineDistance(B, Y_AXIS, um(40))]),
    ("distance Bottom XAxis 5", [ParallelDistance(BOTTOM, X_AXIS, um(5))]),
    ("x Hole 10", [XDistance(ORIGIN, HOLE_CENTRE, um(10))]),
    ("x A Hole -10", [XDistance(A, HOLE_CENTRE, um(-10), Sense.SIGNED)]),
    ("y B Hole +10", [YDistance(B, HOLE_CENTRE, um(10), Sense.SIGNED)]),
    ("y B 0", [YDistance(ORIGIN, B, um(0))]),
    ("radius Hole 2.5", [Radius(HOLE, um("2.5"))]),
    ("radius Hole Fillet 5", [Radius(HOLE, um(5)), Radius(FILLET, um(5))]),
    ("diameter Hole 0.25in", [Diameter(HOLE, um("6.35"))]),
    ("tangent Bottom Hole", [Tangent(BOTTOM, HOLE)]),
    ("tangent Right.end Fillet.start",
     [Tangent(RIGHT, FILLET, Pair(END, PointRef("Fillet", Which.START)))]),
    ("equal Bottom Right", [Equal(BOTTOM, RIGHT)]),
    ("equal Hole Fillet", [Equal(HOLE, FILLET)]),
    ("concentric Hole Fillet", [Concentric(HOLE, FILLET)]),
    ("symmetric A B about Right", [Symmetric(A, B, RIGHT)]),
    ("symmetric A B Hole", [Symmetric(A, B, HOLE_CENTRE)]),
    ("symmetric Bottom about YAxis",
     [Symmetric(START, PointRef("Bottom", Which.END), Y_AXIS)]),
    ("symmetric Hole Fillet about Origin", [Symmetric(HOLE_CENTRE, FILLET_CENTRE, ORIGIN)]),
    ("midpoint Hole Bottom", [Midpoint(HOLE_CENTRE, BOTTOM)]),
    ("fixed A", [Fixed(A)]),
    ("fixed Hole Bottom.start", [Fixed(HOLE), Fixed(START)]),
    ("Left width: length Bottom 120", [Length(BOTTOM, um(120), "Left width")]),
    ("  Größe 2 :\tradius  Hole 5 ", [Radius(HOLE, um(5), "Größe 2")]),
]


@pytest.mark.parametrize("line,constraints", ASKED)
def test_constraint_line(line, constraints):
    drawing = read_drawing(SHAPES + line)
    assert list(drawing.constraints) == constraints
    assert read_drawing(write_drawing(drawing)) == drawing


def test_shape_lines():
    drawing = read_drawing(SHAPES)
    assert drawing.geometry == (
        Point("A", place(0, 0)), Point("B", place(40, 0)), Segment("Bottom", A, B),
        Segment("Right", B, place(40, 30)), Circle("Hole", place(10, 10), um("2.5")),
        Arc("Fillet", place(35, 25), place(40, 25), place(35, 30)))
    assert write_drawing(drawing) == "drawing 1\n" + SHAPES


@pytest.mark.parametrize("flags,construction,outer", [
    ("", False, False), ("construction ", True, False), ("outer ", False, True),
    ("construction outer ", True, True)])
def test_flags(flags, construction, outer):
    text = f"{flags}circle Pin 1 2 3"
    shape = Circle("Pin", place(1, 2), um(3), construction, outer)
    assert read_drawing(text).geometry == (shape,)
    assert line_of(shape) == text


def test_polyline_is_segments():
    drawing = read_drawing("point A 0 0\npolyline Edge A 10 0 10 5 closed\npolyline Tail A 0 -9")
    assert drawing == read_drawing(
        "point A 0 0\nsegment Edge1 A 10 0\nsegment Edge2 Edge1.end 10 5\n"
        "segment Edge3 Edge2.end A\nsegment Tail1 A 0 -9")
    closed = read_drawing("polyline Edge 0 0 10 0 10 5 closed")
    assert closed.geometry[2] == Segment("Edge3", PointRef("Edge2", Which.END),
                                         PointRef("Edge1", Which.START))


@pytest.mark.parametrize("corners", ["0 0 40 30", "40 30 0 0", "0 30 40 0", "40 0 0 30"])
def test_rectangle_is_segments(corners):
    assert read_drawing(f"rectangle Plate {corners}") == read_drawing(
        "segment PlateBottom 0 0 40 0\nsegment PlateRight PlateBottom.end 40 30\n"
        "segment PlateTop PlateRight.end 0 30\nsegment PlateLeft PlateTop.end PlateBottom.start\n"
        "horizontal PlateBottom\nvertical PlateRight\nhorizontal PlateTop\nvertical PlateLeft")


def test_an_outer_rectangle_is_four_outer_segments_of_which_nothing_is_asked():
    assert read_drawing("outer rectangle Wall 0 0 100 50") == read_drawing(
        "outer segment WallBottom 0 0 100 0\nouter segment WallRight WallBottom.end 100 50\n"
        "outer segment WallTop WallRight.end 0 50\nouter segment WallLeft WallTop.end WallBottom.start")


def test_rectangle_from_a_corner_that_stands():
    drawing = read_drawing("point A 40 30\nrectangle Plate 0 0 A")
    assert drawing.shape("PlateRight").end == A
    assert drawing.shape("PlateTop").start == A


def test_notes_stay_where_they_stood():
    text = ("# expect well\npoint A 0 0 # the pin\n\nx A 0\n# a gap\n# of two lines\n"
            "point B 4 0\ny A 0#flat\n#\n")
    drawing = read_drawing(text)
    assert drawing.notes == (
        Note("expect well", 0), Note("the pin", 0, True), Note("a gap", 1),
        Note("of two lines", 1), Note("flat", 3, True), Note("", 4))
    written = write_drawing(drawing)
    assert written == ("drawing 1\n# expect well\npoint A 0 0 # the pin\n# a gap\n# of two lines\n"
                       "point B 4 0\nx A 0\ny A 0 # flat\n#\n")
    assert read_drawing(written) == drawing


@pytest.mark.parametrize("text", [
    "drawing 1\npoint A 0 0\n", "\n\n# first\ndrawing 1\npoint A 0 0", "point A 0 0\r\n"])
def test_header_may_stand_in_front(text):
    assert read_drawing(text).geometry == (Point("A", place(0, 0)),)


def test_lengths_are_kept_as_they_were_written():
    drawing = read_drawing("circle Hole -0.1 007.50 25.39999999999999999\nradius Hole 0.1in")
    assert drawing.geometry == (Circle("Hole", place("-0.1", "7.5"),
                                       um("25.39999999999999999")),)
    assert write_drawing(drawing).splitlines()[1:] == [
        "circle Hole -0.1 7.5 25.39999999999999999", "radius Hole 2.54"]


def test_what_has_no_decimal_is_written_nearest():
    assert line_of(Length(BOTTOM, Fraction(1000, 3))) == "length Bottom 0.33333333333333333333"
    assert line_of(Length(BOTTOM, Fraction(2000, 3))) == "length Bottom 0.66666666666666666667"


# text behind the shapes, the word at fault, and a part of what to write instead
REFUSED = [
    ("line Bottom 0 0 1 0", "line", "write `segment NAME START END`"),
    ("lenght Bottom 4", "lenght", "do you mean length?"),
    ("sketch 1", "sketch", "whose name ends in .sketch"),
    ("outside Hole Hole", "outside", "write `tangent CIRCLE CIRCLE`"),
    ("block Bottom", "block", "leave it out"),
    ("fly Bottom", "fly", "write one of point, segment, circle"),
    ("drawing 1", "drawing", "only the first line"),
    ("end", "end", "leave it out"),
    ("tan Bottom Hole", "tan", "begins no line"),
    ("point C 0", "0", "a number for y is missing behind it"),
    ("point C", "C", "a number for x is missing behind it"),
    ("point", "point", "a name is missing behind it"),
    ("point A 1 1", "A", "take another name"),
    ("point 2A 1 1", "2A", "a letter and then letters, digits or _"),
    ("point Left-Top 1 1", "Left-Top", "a letter and then letters, digits or _"),
    ("point Left Top 1 1", "Top", "or Left_Top if it belongs to the name"),
    ("segment Left Top 1 1 2 2", "Top", "or Left_Top if it belongs to the name"),
    ("circle Bore Botom 2", "Botom", "or do you mean Bottom?"),
    ("point Origin 1 1", "Origin", "the datum's own name"),
    ("point closed 1 1", "closed", "take another name"),
    ("point " + "N" * 41 + " 1 1", "N" * 41, "40 letters at most"),
    ("point C 1,5 2", "1,5", "write 1.5, with a point for the comma"),
    ("point C 1cm 2", "1cm", "write millimetres, such as 12.5, or inches, such as 0.5in"),
    ("point C 1e3 2", "1e3", "is no number"),
    ("point C .5 2", ".5", "is no number"),
    ("point C 1000001 2", "1000001", "beyond 1000000 mm"),
    ("point C 10000000 2", "10000000", "beyond 1000000 mm"),
    ("point C -123456789.5mm 2", "-123456789.5mm", "beyond 1000000 mm"),
    ("point C 00000001 2", "00000001", "is no number"),
    ("point C 1 2 3", "3", "leave it out"),
    ("segment Top C B", "C", "write its line further up"),
    ("segment Top Botom.end B", "Botom.end", "do you mean Bottom?"),
    ("segment Top Bottom B", "Bottom", "write Bottom.start or Bottom.end"),
    ("segment Top Bottom.middle B", "Bottom.middle", "write Bottom.start or Bottom.end"),
    ("segment Top Hole.start B", "Hole.start", "write Hole.centre"),
    ("segment Top A.end B", "A.end", "write A"),
    ("segment Top XAxis B", "XAxis", "the datum's point is Origin"),
    ("segment Top 1 1 1 1", "Top", "draw its ends apart"),
    ("segment Top A A", "Top", "draw its ends apart"),
    ("circle Bore 1 1", "1", "its drawn radius is missing behind it"),
    ("circle Bore 1 1 0", "0", "is above 0"),
    ("circle Bore 1 1 -5", "-5", "without the minus"),
    ("circle Bore 1 1 0.0004", "0.0004", "write 0.001 or more"),
    ("arc Bow A A B", "Bow", "draw them apart"),
    ("arc Bow A 4 4 4 4", "Bow", "ends apart"),
    ("polyline Way A", "Way", "two at least"),
    ("polyline Way A B closed", "Way", "three and `closed`"),
    ("rectangle Plate A B", "Plate", "draw them as opposite corners"),
    ("construction length Bottom 4", "length", "only shapes are construction"),
    ("construction", "construction", "a shape's word is missing"),
    ("Width: point C 1 1", "Width", "write point NAME .."),
    ("Width:", "Width:", "write a constraint behind the colon"),
    (": length Bottom 4", "", "no name of a constraint"),
    ("a:b: length Bottom 4", "a:b", "has a : or #"),
    ("constraint 3: length Bottom 4", "constraint 3", "take another name"),
    ("W: length Bottom 4\nW: length Right 4", "W", "take another name"),
    ("W: equal Hole Fillet\nSame: horizontal Bottom Right", "Same", "a line for each"),
    ("length Bottom", "Bottom", "a number of millimetres is missing behind it"),
    ("length Hole 4", "Hole", "write the name of a segment"),
    ("length XAxis 4", "XAxis", "the datum's own axis"),
    ("length Bottom.end 4", "Bottom.end", "is a point"),
    ("length Bottom 0", "0", "above 0"),
    ("length Bottom 0.0004", "0.0004", "write 0.001 or more"),
    ("length Bottom -3", "-3", "without the minus"),
    ("length Bottom 4 5", "5", "stands behind a whole expression: write + - * or / between them"),
    ("distance A A 4", "A", "stands twice"),
    ("distance A B 0", "0", "write `coincident` or `on` instead"),
    ("distance Bottom Bottom 4", "Bottom", "stands twice"),
    ("distance A Fillet.middle 4", "Fillet.middle",
     "write Fillet.centre or Fillet.start or Fillet.end"),
    ("distance Bottom Bottom.end 4", "Bottom.end", "a point of Bottom itself"),
    ("angle Bottom Right 60", "60", "write 60deg, or a ratio such as 1/2"),
    ("angle Bottom Right 60mm", "60mm", "write degrees, such as 60deg"),
    ("angle Bottom Right 0deg", "0deg", "write `parallel` instead"),
    ("angle Bottom Right 0/3", "0/3", "write `parallel` instead"),
    ("angle Bottom Right +180deg", "+180deg", "write `parallel` instead"),
    ("angle Bottom Right 200deg", "200deg", "below 180 degrees"),
    ("angle Bottom Right 1/20000", "1/20000", "a nearer ratio"),
    ("angle Bottom Right sixty", "sixty", "write degrees, such as 60deg"),
    ("angle Hole 60deg", "Hole", "write the name of a segment"),
    ("angle XAxis YAxis 60deg", "YAxis", "write a segment for one of them"),
    ("horizontal A", "A", "write a second one, or a segment"),
    ("horizontal A Bottom", "Bottom", "write Bottom.start or Bottom.end"),
    ("horizontal XAxis", "XAxis", "the datum's own axis"),
    ("on A A", "A", "is a point"),
    ("on A Origin", "Origin", "is a point"),
    ("on Bottom.end Bottom", "Bottom.end", "a point of Bottom itself"),
    ("on Hole Hole", "Hole.centre", "a point of Hole itself"),
    ("tangent Bottom Right", "Right", "`collinear`"),
    ("tangent Bottom Fillet.start", "Bottom", "write an end of each, or two whole shapes"),
    ("tangent Bottom.end Fillet.centre", "Fillet.centre", "write Fillet.start or Fillet.end"),
    ("equal Bottom Hole", "Bottom", "is no circle or arc"),
    ("equal Bottom", "Bottom", "a second shape is missing"),
    ("concentric Hole Bottom", "Bottom", "is no circle or arc"),
    ("symmetric A B about A", "A", "a third point, or a segment"),
    ("symmetric Bottom about Bottom", "Bottom", "would be without a length"),
    ("symmetric Hole about YAxis", "about", "isn't drawn"),
    ("midpoint A XAxis", "XAxis", "the datum's own axis"),
    ("fixed Origin", "Origin", "fixed from the start"),
    ("fixed", "fixed", "is missing behind it"),
    ("radius Bottom 4", "Bottom", "no circle or arc"),
    ("point C\x07 1 1", "U+0007", "is this a drawing?"),
    ("# " + "x" * 1000, "# xxxxxxxxxxxxxxxxxx..", "write shorter ones"),
]


@pytest.mark.parametrize("text,word,what", REFUSED)
def test_refused_line(text, word, what):
    with pytest.raises(DrawingRefusal) as refused:
        read_drawing(SHAPES + text)
    assert refused.value.word == word
    assert what in refused.value.what
    line = len((SHAPES + text).splitlines())
    assert refused.value.line == line
    assert str(refused.value).startswith(f"line {line}: '{word}' ")
    assert "\n" not in str(refused.value)


@pytest.mark.parametrize("text", ["", "\n\n", "# a note alone", "drawing 1\n"])
def test_text_that_draws_nothing(text):
    with pytest.raises(DrawingRefusal) as refused:
        read_drawing(text)
    assert str(refused.value) == (
        "the text draws nothing: write a line such as `segment Bottom 0 0 40 0`")


def test_limits():
    points = "\n".join(f"point P{number} 0 0" for number in range(2001))
    assert len(read_drawing(points.rsplit("\n", 1)[0]).geometry) == 2000
    with pytest.raises(DrawingRefusal, match="line 2001: 'P2000' is one more than 2000 shapes"):
        read_drawing(points)
    asked = "point A 0 0\n" + "x A 0\n" * 4001
    with pytest.raises(DrawingRefusal, match="line 4002: 'x' is one more than 4000 constraints"):
        read_drawing(asked)
    with pytest.raises(DrawingRefusal, match="more than 1048576 bytes"):
        read_drawing("#" * 1_048_577)


def test_a_drawing_of_2000_shapes_is_read_quickly():
    text = "\n".join(f"point P{number} {number} 0" for number in range(2000))
    drawing = read_drawing(text + "\n" + "\n".join(
        f"distance P{number} P{number + 1} 1" for number in range(1999)))
    assert read_drawing(write_drawing(drawing)) == drawing


def test_a_plate_by_hand():
    drawing = Drawing((Segment("Bottom", place(0, 0), place(120, 0)),),
                      (Length(BOTTOM, um(120)), Horizontal(BOTTOM, "Level")))
    assert write_drawing(drawing) == (
        "drawing 1\nsegment Bottom 0 0 120 0\nlength Bottom 120\nLevel: horizontal Bottom\n")
    assert drawing.called(1) == "constraint 1 (length Bottom 120)"
    assert drawing.called(2) == "Level"
