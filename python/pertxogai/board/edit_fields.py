"""The edits, read from the object of JSON that a call is given."""
from __future__ import annotations

from pertxogai.board.anchors import point_of, spot_of
from pertxogai.board.corners import Corner, CornerKind
from pertxogai.board.edits import (
    Ask, Call, Construction, Draw, Edit, Erase, Lines, Move, Rename, Shift, Value)
from pertxogai.board.fields import FieldRefused, Fields
from pertxogai.board.labelling import Label, Measure
from pertxogai.board.new_names import Figure
from pertxogai.board.offsetting import Offset
from pertxogai.board.pasting import Paste
from pertxogai.board.patterns import Mirror, Ring, Row
from pertxogai.board.trimming import Extend, Trim
from pertxogai.board.values import DropValue, SetValue
from pertxogai.drawing import Drawing, Place


def read_edit(drawing: Drawing, given: Fields) -> Edit:
    """The edit that an object tells by its `do`. Raises FieldRefused, and WordFault where it
    names what doesn't stand."""
    word = given.text("do")
    for read in (_of_points, _of_shapes, _of_constraints, _of_names, _copies):
        edit = read(word, drawing, given)
        if edit is not None:
            return edit
    raise FieldRefused(f"{word!r} is no edit of the board")


def _of_points(word: str, drawing: Drawing, given: Fields) -> Edit | None:
    """An edit that draws, or moves what is drawn; None for another."""
    match word:
        case "draw":
            return _draw(drawing, given)
        case "move":
            return _move(drawing, given)
        case "shift":
            points = tuple(point_of(drawing.scene, each) for each in given.texts("points"))
            return Shift(given.texts("shapes"), points, given.um("dx"), given.um("dy"))
        case _:
            return None


def _of_shapes(word: str, drawing: Drawing, given: Fields) -> Edit | None:
    """An edit that changes shapes, or takes some away; None for another."""
    match word:
        case "erase":
            return Erase(given.texts("shapes"), given.wholes("constraints"),
                         given.wholes("references"))
        case "construction":
            return Construction(given.texts("shapes"), given.flag("construction"))
        case "corner":
            return _corner(given)
        case "trim":
            return Trim(given.text("shape"), Place(given.um("x"), given.um("y")))
        case "extend":
            return Extend(given.text("shape"), Place(given.um("x"), given.um("y")))
        case _:
            return None


def _of_constraints(word: str, drawing: Drawing, given: Fields) -> Edit | None:
    """An edit that asks for constraints, or changes one; None for another."""
    match word:
        case "ask":
            return Ask(given.texts("words"),
                       given.text("value") if given.has("value") else None,
                       given.whole("reference") if given.has("reference") else None)
        case "reference":
            return Measure(given.texts("words"),
                           given.whole("number") if given.has("number") else None)
        case "label":
            return Label(given.whole("number"), given.um("x"), given.um("y"))
        case "lines":
            return Lines(given.texts("lines"))
        case "value":
            return Value(given.whole("number"), given.text("value"))
        case _:
            return None


def _of_names(word: str, drawing: Drawing, given: Fields) -> Edit | None:
    """An edit of names, or of named values; None for another."""
    match word:
        case "set-value":
            return SetValue(given.text("name"), given.text("expression"))
        case "drop-value":
            return DropValue(given.text("name"))
        case "call":
            return Call(given.whole("number"), given.text("name"))
        case "rename":
            return Rename(given.text("old"), given.text("new"))
        case _:
            return None


def _copies(word: str, drawing: Drawing, given: Fields) -> Edit | None:
    """An edit that draws some shapes again; None for another."""
    match word:
        case "mirror":
            return Mirror(given.texts("shapes"), given.text("about"))
        case "row":
            return Row(given.texts("shapes"), given.um("dx"), given.um("dy"),
                       given.whole("count"))
        case "ring":
            return Ring(given.texts("shapes"), spot_of(drawing.scene, given.single("about")),
                        given.whole("count"))
        case "offset":
            return Offset(given.texts("shapes"), given.text("size"),
                          Place(given.um("x"), given.um("y")))
        case "paste":
            return Paste(given.text("source"), given.texts("shapes"), given.um("dx"),
                         given.um("dy"))
        case _:
            return None


def _draw(drawing: Drawing, given: Fields) -> Draw:
    try:
        figure = Figure(given.text("figure"))
    except ValueError:
        raise FieldRefused(f"{given.text('figure')!r} is no figure that is drawn") from None
    spots = tuple(spot_of(drawing.scene, each) for each in given.objects("spots"))
    radius = given.um("radius") if given.has("radius") else None
    sides = given.whole("sides") if given.has("sides") else 0
    return Draw(figure, spots, radius, given.flag("construction"), given.lines("asks"), sides)


def _corner(given: Fields) -> Corner:
    try:
        kind = CornerKind(given.text("kind"))
    except ValueError:
        raise FieldRefused(f"{given.text('kind')!r} is nothing that is made of a corner") from None
    return Corner(kind, given.text("first"), given.text("second"), given.text("size"))


def _move(drawing: Drawing, given: Fields) -> Move:
    moves = tuple((point_of(drawing.scene, each.text("of")), Place(each.um("x"), each.um("y")))
                  for each in given.objects("points"))
    radii = tuple((each.text("of"), each.um("radius")) for each in given.objects("radii"))
    return Move(moves, radii, given.lines("asks"))
