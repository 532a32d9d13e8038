"""What the page and its server tell each other: the types of their objects of JSON.

The server makes its answers as these types; the page reads them as static/protocol.d.ts says,
which `tools/pages` makes of them. Places and lengths are millimetres, as floats to look at; an
amount that was measured is a whole number of the unit that stands beside it."""
from __future__ import annotations

from collections.abc import Mapping
from typing import Literal, NotRequired, TypedDict

from pertxogai.judging.good import ReasonJson
from pertxogai.output.json_of_drawing import SpareJson

Point = tuple[float, float]
"""A place or a direction: x and y."""


# What a call is given.

class PointSpot(TypedDict):
    """A place that is a point which stands: it is shared."""

    point: str


class FreeSpot(TypedDict):
    """A place of its own."""

    x: float
    y: float


Spot = PointSpot | FreeSpot
Kind = Literal["point", "segment", "circle", "arc"]
FigureName = Literal["point", "segment", "circle", "arc", "rectangle", "slot", "polygon",
                     "centre-rectangle", "tangent-arc"]


class DrawEdit(TypedDict):
    """Draws a figure through spots. asks: what is asked for with it, each by the words of a line in
    which `*` stands for the name of the figure."""

    do: Literal["draw"]
    figure: FigureName
    spots: list[Spot]
    radius: NotRequired[float]
    sides: NotRequired[int]
    construction: NotRequired[bool]
    asks: NotRequired[list[list[str]]]


class PointMove(TypedDict):
    """A point goes to a place."""

    of: str
    x: float
    y: float


class RadiusMove(TypedDict):
    """A circle gets a radius."""

    of: str
    radius: float


class MoveEdit(TypedDict):
    """Draws points elsewhere, and circles larger or smaller. asks: what is asked for with it, each
    by the words of a line."""

    do: Literal["move"]
    points: NotRequired[list[PointMove]]
    radii: NotRequired[list[RadiusMove]]
    asks: NotRequired[list[list[str]]]


class ShiftEdit(TypedDict):
    """Draws shapes and points a way further."""

    do: Literal["shift"]
    shapes: NotRequired[list[str]]
    points: NotRequired[list[str]]
    dx: float
    dy: float


class EraseEdit(TypedDict):
    """Takes shapes away, constraints by their numbers, and dimensions that are only measured by
    their places among those."""

    do: Literal["erase"]
    shapes: NotRequired[list[str]]
    constraints: NotRequired[list[int]]
    references: NotRequired[list[int]]


class AskEdit(TypedDict):
    """Asks for a constraint. reference: the dimension that was only measured before, by its place
    among those."""

    do: Literal["ask"]
    words: list[str]
    value: NotRequired[str]
    reference: NotRequired[int]


class ReferenceEdit(TypedDict):
    """Measures a dimension, by its words without a value, and asks nothing. number: the constraint
    that asked for it before; its words count then."""

    do: Literal["reference"]
    words: list[str]
    number: NotRequired[int]


class LabelEdit(TypedDict):
    """Puts the label of a dimension, by the number of its mark, so far from where it is
    measured."""

    do: Literal["label"]
    number: int
    x: float
    y: float


class LinesEdit(TypedDict):
    """Asks for what each of some lines says."""

    do: Literal["lines"]
    lines: list[str]


class ValueEdit(TypedDict):
    """Gives a constraint another value."""

    do: Literal["value"]
    number: int
    value: str


class SetValueEdit(TypedDict):
    """Gives a named value an expression; names one where none has that name."""

    do: Literal["set-value"]
    name: str
    expression: str


class DropValueEdit(TypedDict):
    """Takes a named value away."""

    do: Literal["drop-value"]
    name: str


class CallEdit(TypedDict):
    """Names a constraint."""

    do: Literal["call"]
    number: int
    name: str


class RenameEdit(TypedDict):
    """Gives a shape another name."""

    do: Literal["rename"]
    old: str
    new: str


class ConstructionEdit(TypedDict):
    """Makes construction lines of shapes, or edges again."""

    do: Literal["construction"]
    shapes: list[str]
    construction: bool


CornerName = Literal["fillet", "chamfer"]


class CornerEdit(TypedDict):
    """Rounds or cuts the corner of two segments by a size, as it is typed."""

    do: Literal["corner"]
    kind: CornerName
    first: str
    second: str
    size: str


class TrimEdit(TypedDict):
    """Takes the piece of an edge away on which a place lies, between what crosses it there."""

    do: Literal["trim"]
    shape: str
    x: float
    y: float


class ExtendEdit(TypedDict):
    """Has a segment go on beyond the end that a place is nearer to, to what it meets next."""

    do: Literal["extend"]
    shape: str
    x: float
    y: float


class MirrorEdit(TypedDict):
    """Draws shapes once more, mirrored in a segment or an axis."""

    do: Literal["mirror"]
    shapes: list[str]
    about: str


class RowEdit(TypedDict):
    """Draws shapes again and again, each a pitch further: so many in all."""

    do: Literal["row"]
    shapes: list[str]
    dx: float
    dy: float
    count: int


class RingEdit(TypedDict):
    """Draws shapes again and again round a centre: so many in all, over a full turn."""

    do: Literal["ring"]
    shapes: list[str]
    about: Spot
    count: int


class OffsetEdit(TypedDict):
    """Draws the outline beside some edges, so far from them as is typed, on the side of a place."""

    do: Literal["offset"]
    shapes: list[str]
    size: str
    x: float
    y: float


class PasteEdit(TypedDict):
    """Draws shapes of a text, the same or another, so much further, with what is said of them."""

    do: Literal["paste"]
    source: str
    shapes: list[str]
    dx: float
    dy: float


Edit = (DrawEdit | MoveEdit | ShiftEdit | EraseEdit | AskEdit | ReferenceEdit | LabelEdit
        | LinesEdit | ValueEdit | CallEdit
        | RenameEdit | ConstructionEdit | CornerEdit | TrimEdit | ExtendEdit | MirrorEdit | RowEdit
        | RingEdit | OffsetEdit | PasteEdit | SetValueEdit | DropValueEdit)


class About(TypedDict):
    """A call about a text. left_out: what the drawing can't say of its file."""

    text: str
    left_out: NotRequired[list[str]]


class AboutEdit(About):
    """A call that edits a text. knows: the name of what the page was told of that text."""

    edit: Edit
    knows: NotRequired[str]


class AboutDrag(About):
    """A frame of a drag: its name, and where the hand is. taken: how many frames of it the page has
    taken. names: the points and shapes that the hand holds; begin: where it took hold. turns:
    whether the other shape is asked for, at a dead point. places, passed: where what moves lay in
    the frame before, and what arcs had passed, once the server has lost the drag."""

    drag: str
    names: list[str]
    begin: FreeSpot
    x: float
    y: float
    taken: int
    turns: NotRequired[bool]
    places: NotRequired[Places]
    passed: NotRequired[dict[str, int]]


class AboutNames(About):
    """A call about some points and shapes."""

    names: list[str]


class AboutRange(About):
    """A call about a constraint by its number, or a value by its name."""

    number: NotRequired[int]
    name: NotRequired[str]


class AboutSteps(About):
    """A call about a shape in which the choices of some steps are turned over."""

    steps: list[int]


class AboutFile(About):
    """A call for a file of the drawing, under its name."""

    name: str


class AboutDxf(AboutFile):
    """A call for DXF of a version, as R2010."""

    release: str


class FileBytes(TypedDict):
    """A file that is opened. data: its bytes in base 64."""

    name: str
    data: str


# What a call gives.

class Trouble(TypedDict):
    """Why a call has no answer, in a line that says what to do."""

    kind: str
    message: str


class Refused(TypedDict):
    """Why a text isn't read, and its line, from 1; 0 for the whole text."""

    line: int
    message: str


class Answer(TypedDict, total=False):
    """What every answer may have. ms: the time that the server took."""

    trouble: Trouble
    refused: Refused
    ms: int


class Shape(TypedDict):
    """A shape where it is drawn. shares: which of its points lie in the place of another."""

    name: str
    kind: Kind
    construction: bool
    outer: bool
    points: dict[str, Point]
    shares: list[str]
    radius: NotRequired[float]


class Constraint(TypedDict):
    """A constraint by its place, from 1. words: its line without its name."""

    number: int
    name: str | None
    called: str
    words: str
    value: str | None


class MarkAlone(TypedDict):
    """What is drawn of a constraint: a bar between two places with a text, a text with a leader to
    a place on a rim, a text at an arc about a corner, or a text or a sign at a place. way: the
    direction of the edge that a sign stands beside. centre: that of the rim. whole: whether the
    leader may end anywhere on it. turn: where an arc begins, and how far it goes round, in
    radians."""

    text: NotRequired[str]
    sign: NotRequired[str]
    bar: NotRequired[tuple[Point, Point]]
    at: NotRequired[Point]
    way: NotRequired[Point]
    centre: NotRequired[Point]
    whole: NotRequired[bool]
    turn: NotRequired[Point]


class Mark(MarkAlone):
    """A mark of the constraint that has a number; of a dimension that is only measured the number
    is negative, its place among those, and its words without a value stand beside. label: how far
    the text stands from where the dimension is measured, where the drawing says so."""

    number: int
    words: NotRequired[list[str]]
    value: NotRequired[str]
    label: NotRequired[Point]


class NamedValue(TypedDict):
    """A named value: how it is written, and what that comes to, with its unit."""

    name: str
    expression: str
    comes: str


class Drawing(TypedDict):
    """The drawing, and its named values."""

    shapes: list[Shape]
    constraints: list[Constraint]
    marks: list[Mark]
    values: list[NamedValue]


class ChangedDrawing(TypedDict):
    """What is drawn, to a page that knows the drawing before: null for a list, or a thing of a
    list, that is as it was."""

    shapes: list[Shape | None] | None
    constraints: list[Constraint | None] | None
    marks: list[Mark | None] | None
    values: list[NamedValue | None] | None


class Places(TypedDict):
    """Where points lie, and how large rims are; of one part, or of all."""

    part: int | None
    points: dict[str, Point]
    radii: dict[str, float]


class Line(TypedDict):
    """A line of the verdict: how it is set, the list that it stands in, what it selects, the
    constraint that it selects, or that its button takes away, what of the file its button forgets,
    and the part whose colour it has."""

    text: str
    kind: NotRequired[str]
    list: NotRequired[str]
    selects: NotRequired[tuple[str, ...]]
    constraint: NotRequired[int]
    takes: NotRequired[int]
    forgets: NotRequired[str]
    part: NotRequired[int]


class Excess(TypedDict):
    """A dimension that is left out of what is over, and what is told of it. conflicts: null where
    it isn't measured."""

    number: int
    conflicts: bool | None
    told: str


class Piece(TypedDict):
    """A part that is rigid by itself."""

    number: int
    elements: list[str]


class Joint(TypedDict):
    """Two pieces that may be tied, how they hang together, and what to do."""

    first: int
    second: int
    tie: str
    do: str
    shared: list[str]


class Missing(TypedDict):
    """What is missing of what is open at least, by rank, and between which pieces."""

    lacks_by_rank: int
    excess_by_rank: list[list[str]]
    pieces: list[Piece]
    joints: list[Joint]


class Amount(TypedDict):
    """Between what a fault misses by."""

    low: float
    high: float
    unit: str


class Failure(TypedDict):
    """A fault: the program's words, the dimensions beneath it, and where."""

    text: str
    dimensions: list[str]
    at: list[str]
    amount: Amount | None


class JudgementWords(TypedDict):
    """What is judged. repeats: the constraints that only say again what others say. still: why
    nothing of what is placed follows a hand; empty of all else."""

    verdict: Literal["well", "open", "over"]
    good: bool
    why_not: list[ReasonJson]
    lines: list[Line]
    spare: list[SpareJson]
    excess: list[Excess]
    repeats: list[str]
    still: str
    missing: Missing | None
    failure: Failure | None


class Freedoms(TypedDict):
    """How many degrees of freedom there are, among them those of the whole; whether the count may
    be off."""

    count: int
    of_the_whole: int
    doubtful: bool


class FreeMove(TypedDict):
    """A point that still moves along a direction of length 1; one that moves everywhere has two."""

    point: str
    dx: float
    dy: float


class Found(TypedDict):
    """A shape of what is open that meets all that is asked, found by numbers: nothing of it is
    certified. moves: how points still move, of those in one place the first. free: the points and
    shapes that may move, or change their radius. free_radii: the rims whose radius may change."""

    places_by: Literal["numbers"]
    places: Places
    freedoms: Freedoms
    moves: list[FreeMove]
    free: list[str]
    free_radii: list[str]


class Judgement(JudgementWords):
    """What is judged, and where it is shown. found: null of what is well or over, and where no
    shape is found. colours: the parts of points and shapes."""

    placed: Places | None
    found: Found | None
    laid: list[Places]
    colours: dict[str, int]
    language: str


class ChangedJudgement(JudgementWords, total=False):
    """What is judged, to a page that knows the judgement before: without what is long, and is as
    it was."""

    placed: Places | None
    found: Found | None
    laid: list[Places]
    colours: dict[str, int]
    language: str


class Judged(Answer, total=False):
    """A text, the judgement on it, and its drawing. told: the name of what is told so. judgement:
    null where nothing is drawn."""

    text: str
    told: str
    judgement: Judgement | None
    drawing: Drawing


class Edited(Answer, total=False):
    """The text that an edit makes, and what of it isn't as it was. told: the name of what is told
    so."""

    text: str
    told: str
    judgement: ChangedJudgement | None
    drawing: ChangedDrawing


class ConstraintOffer(TypedDict):
    """A constraint that fits: its words, its sign, and the value that is drawn, null where it
    takes none."""

    do: Literal["ask"]
    words: list[str]
    sign: str
    value: str | None


class CornerOffer(TypedDict):
    """What may be made of a corner: its word and the two segments, and a size that fits."""

    do: Literal["corner"]
    words: list[str]
    sign: str
    value: str


Offer = ConstraintOffer | CornerOffer


class Offered(Answer, total=False):
    """Which constraints fit, and what may be made of a corner."""

    offers: list[Offer]


class Weighed(Answer, total=False):
    """What may go, what is left out of what is over, and the lines of the verdict with both."""

    spare: list[SpareJson]
    excess: list[Excess]
    lines: list[Line]


class RangeShown(TypedDict):
    """How far a dimension, by its number, or a value, by its name, can go, and why no further.
    called: the name of either, or the words of a dimension without its value; present, low, high:
    the number that it has now, and the ends, in `unit`: `mm`, `deg`, or nothing; sign: whether a
    number for it is typed with its sign; typed: the unit that is typed behind it; told: at how many
    numbers the range was sampled, and what is known of those between, by numbers."""

    called: str
    number: int | None
    name: str | None
    sign: bool
    present: float
    unit: str
    typed: str
    told: str
    low: float
    low_why: str
    high: float
    high_why: str


class Ranged(Answer, total=False):
    """A range, or why there is none. values: those that what was asked for follows from, each with
    a range of its own."""

    range: RangeShown
    why: str
    values: list[str]


class Proposed(TypedDict):
    """A line that could be added, by its place, from 1: its words without the value, and the value,
    null where it has none; what it fixes; whether it only ties the whole to the datum; its
    marks."""

    number: int
    line: str
    words: list[str]
    value: str | None
    fixes: list[str]
    ties: bool
    marks: list[Mark]


class Completed(Answer, total=False):
    """What completes a drawing, or why nothing is proposed."""

    proposals: list[Proposed]
    why: str


CheckAnswer = Literal["fits", "unsure", "beyond", "unlimited"]


class Contribution(TypedDict):
    """What a dimension, by the number of its constraint, gives to a check: how much to either side,
    and how many percent of what all give."""

    number: int
    words: str
    gives: str
    percent: float


class Checked(TypedDict):
    """What comes of a check, by its place, from 1: whether it fits, with a sign that tells that
    without colours; its worst case; what is told of it, in lines; which dimension gives how much,
    the greatest first; its marks."""

    number: int
    name: str
    words: str
    answer: CheckAnswer
    sign: str
    worst: str
    lines: list[str]
    gives: list[Contribution]
    marks: list[Mark]


class Fitted(Answer, total=False):
    """What comes of the checks of a drawing. why: why nothing is known, or which cases have no
    places."""

    checks: list[Checked]
    why: list[str]


class ElementJson(TypedDict):
    """An element of the construction: a point at a place, or a line through one, a way."""

    called: str
    at: NotRequired[Point]
    through: NotRequired[Point]
    way: NotRequired[Point]


class Cluster(TypedDict):
    """A cluster that a step joins. motion: cosine, sine and shift from where its elements are
    placed to where it lies before the step."""

    name: str
    called: str
    kept: bool
    elements: list[str]
    shapes: list[str]
    motion: list[float]


class Locus(TypedDict):
    """Where an element may lie by one cluster: on a circle about a place, or on a line."""

    circle: NotRequired[Point]
    radius: NotRequired[float]
    line: NotRequired[Point]
    way: NotRequired[Point]


class Step(TypedDict):
    """A step of the construction: what it joins, where, and what it makes."""

    number: int
    joins: list[Cluster]
    at: list[str]
    choice: str
    made: str
    loci: list[Locus]


class Construction(TypedDict):
    """The plan of what is well."""

    elements: dict[str, ElementJson]
    steps: list[Step]


class Planned(Answer, total=False):
    """The construction."""

    construction: Construction


class OtherShape(Answer, total=False):
    """Where all lies in the other shape."""

    placed: Places


class Verified(Answer, total=False):
    """What the program says of a claim, and the claim."""

    said: str
    claim: str


class Dxf(Answer, total=False):
    """A file of DXF."""

    dxf: str


class Svg(Answer, total=False):
    """A picture."""

    svg: str


class FileSketch(TypedDict):
    """A sketch of a file. left_out: what of it a drawing can't say; aside: what it says beside."""

    name: str
    text: str
    left_out: list[str]
    aside: list[str]


Reach = Literal["there", "beside", "comes", "stays"]
"""How far what is dragged came: to the hand; as near as it may; it is on its way, and goes on in
the next frame; or it stays, as at a dead point."""


class Dragged(Answer, total=False):
    """A frame of a drag: the points and radii that aren't where they were in the frame before, by
    numbers, and the marks of what is asked of what moves. off: by how many nanometres the worst
    constraint is off there, measured. passed: how often each arc went past its own end since the
    hand took hold, to the left positive. fixed: why nothing follows. lost: whether the process of
    the server that was asked doesn't know the frame before, and wants the places."""

    points: dict[str, Point]
    radii: dict[str, float]
    marks: list[Mark]
    reach: Reach
    off: int
    passed: dict[str, int]
    fixed: str
    lost: bool


class Opened(Answer, total=False):
    """The sketches of a file."""

    sketches: list[FileSketch]


class GalleryDrawing(TypedDict):
    """A drawing to begin from."""

    name: str
    text: str


class Gallery(Answer, total=False):
    """The drawings to begin from."""

    drawings: list[GalleryDrawing]


CALLS: Mapping[str, tuple[type, type]] = {
    "judge": (About, Judged),
    "edit": (AboutEdit, Edited),
    "drag": (AboutDrag, Dragged),
    "offers": (AboutNames, Offered),
    "weigh": (About, Weighed),
    "complete": (About, Completed),
    "fit": (About, Fitted),
    "range": (AboutRange, Ranged),
    "plan": (About, Planned),
    "flips": (AboutSteps, OtherShape),
    "redraw": (AboutSteps, Edited),
    "verify": (About, Verified),
    "dxf": (AboutDxf, Dxf),
    "svg": (AboutFile, Svg),
    "program-dxf": (About, Dxf),
    "open": (FileBytes, Opened),
}
"""What each call is given, and what it gives."""
