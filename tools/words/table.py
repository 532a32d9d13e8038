"""The one table of words: commands, keys, lines, codes and statuses, in the order in which a reader needs them.

Its texts are those of docs/LANGUAGE.md and README.md, `so` marking what is typed; a test compares them.
"""
from dataclasses import dataclass

PLACING = ("order", "bits", "within", "place", "frame")


@dataclass(frozen=True)
class Command:
    """A command of `sketch`: what it reads and answers, and which keys it takes."""

    word: str
    reads: str
    answers: str
    keys: tuple[str, ...] = ()


@dataclass(frozen=True)
class Key:
    """A key behind a command: the values that stand in the usage line, what these are, and which it is by itself."""

    word: str
    usage: str
    values: str
    default: str
    means: str

    @property
    def choices(self) -> tuple[str, ...]:
        """The values that are words or single numbers, and no range."""
        return tuple(value for value in self.usage.split("|") if ".." not in value)


@dataclass(frozen=True)
class Line:
    """A kind of line: its words, what it means, and the reply of a session where it has one."""

    form: str
    means: str
    reply: str = ""

    @property
    def word(self) -> str:
        """Its first word."""
        return self.form.split()[0]


@dataclass(frozen=True)
class Code:
    """A code of a refusal, the word behind it, and where it comes."""

    code: str
    word: str
    where: str


@dataclass(frozen=True)
class Status:
    """An exit status: what it means, and what is written then."""

    number: int
    means: str
    written: str


COMMANDS = (
    Command("check", "a sketch", "the verdict and the rigid clusters", ("order",)),
    Command("plan", "a sketch", "its construction steps", ("order",)),
    Command("solve", "a sketch", "the solved positions and their tolerances", PLACING),
    Command("dxf", "a sketch", "the solved positions as a drawing in DXF", PLACING),
    Command("spare", "a sketch", "the removable constraints: you may remove any one of them"),
    Command("excess", "a sketch",
            "the redundant and conflicting constraints of each over-constrained cluster, with their residuals; it picks"
            " later lines first", PLACING),
    Command("why", "a sketch", "for each constraint that `excess` picks, the others that it follows from"),
    Command("complete", "a sketch",
            "the sketch with the missing constraints added, or why it has no completion"),
    Command("parts", "a sketch", "the verdict and the rigid clusters, each with solved positions of its own", PLACING),
    Command("flips", "a sketch and lists of steps",
            "for each list an alternative solution: the solved positions with the choices of its steps reversed", PLACING),
    Command("verify", "a sketch and a claim",
            "whether the claimed steps, positions and tolerances are right, or what fails first"),
    Command("measure", "a sketch and positions", "the residual of each constraint at these positions", ("within",)),
    Command("session", "edits and questions, one a line", "a reply to each", PLACING),
    Command("live", "the same, line by line", "a reply to each, before it reads on", PLACING),
    Command("offers", "a sketch and offered merges", "an answer to each, then the report of `check`", ("order",)),
    Command("derive", "a sketch", "the clusters that hold together if angles are added up", ("order",)),
    Command("migrate", "a sketch", "the same sketch in version 2 of the text"),
    Command("grow", "nothing", "a summary of `solve` on a generated sketch of `n=` elements", (*PLACING, "n")),
)

KEYS = (
    Key("order", "first|last|0..65535", "`first`, `last`, 0 to 65535", "`first`",
        "which of the possible merges is taken at each turn"),
    Key("bits", "16|27|38", "`16`, `27`, `38`", "`38`",
        "the resolution of the grid: binary digits after the point of a millimetre"),
    Key("within", "1..1000000", "1 to 1000000, in nanometres and parts per 10⁹", "1000",
        "the limit of both tolerances"),
    Key("place", "boxes|points", "`boxes`, `points`", "`boxes`",
        "interval placement, which carries each position as a box, or midpoint placement, which settles it at a point of"
        " the grid where it is constructed"),
    Key("frame", "base|drawn", "`base`, `drawn`", "`base`",
        "local coordinates, those of the constraint that no step moves, or sketch coordinates, where that is drawn"),
    Key("n", "3..1000", "3 to 1000", "none; it is required", "how many elements the generated sketch has"),
)

ELEMENTS = (
    Line("point NAME x y", "a point, drawn at x, y"),
    Line("line NAME x1 y1 x2 y2", "a directed line without ends, drawn through the first place towards the second"),
    Line("circle NAME x y r", "a circle, drawn with its centre at x, y; its radius r is a dimension, and exact"),
)

CONSTRAINTS = (
    Line("distance U V len",
         "two points or centres are len millimetres apart; or a point or centre and a line are, in either order"),
    Line("on U V", "a point or centre U lies on the line V, or a point U lies on the circle V"),
    Line("tangent U V", "a line and a circle touch, in either order"),
    Line("outside U V", "two circles touch from outside"),
    Line("inside U V", "two circles of different radii touch, one inside the other"),
    Line("angle L M p/q", "the angle from line L to line M has the tangent p/q"),
    Line("block NAME x y NAME x y ..",
         "in version 2: from 2 to 16 points or centres lie relative to each other as these positions do, not mirrored"),
)

EDITS = (
    Line("drop I", "removes constraint I", "`ok`"),
    Line("set I VALUE", "gives a `distance` a new length, or an `angle` a new ratio", "`ok`"),
    Line("erase NAME", "removes an element that no constraint uses", "`ok`"),
    Line("undo", "takes back the last accepted edit that is still in effect", "`ok`"),
)
"""The lines that a session takes besides elements and constraints, `end` and its QUESTIONS."""

QUESTIONS = ("check", "plan", "solve", "write")

ENDS = ("sketch", "end")
"""The words that begin and end a sketch."""

TAILS = ("flip", "offer", "step", "tolerance")
"""The first words of lines behind a sketch, beside those of elements."""

STEP_WORDS = ("joins", "at", "keeps", "turn", "advance", "none")
"""What stands between the names of a step."""

STATUSES = (
    Status(0, "the command did its work", "its report"),
    Status(1, "the input is rejected", "the refusal line"),
    Status(2, "the command or one of its keys isn't valid", "the usage line"),
    Status(3, "standard input failed", "nothing; in `live` the whole replies so far"),
    Status(4, "standard output failed", "as much of the text as could be written"),
    Status(5, "out of memory", "nothing; in `session` and `live` the whole replies so far"),
    Status(6, "the sketch isn't fully constrained, for `plan`, `solve`, `dxf`, `grow` and `flips`; or `complete` has no"
           " completion to give", "the report of `check`; for `complete`, a line before it says why"),
    Status(7, "a step has no positions, or a sign isn't as drawn", "the fault line"),
    Status(8, "a tolerance is beyond the limit", "the fault line"),
    Status(9, "for `verify`, something of the claim fails; for `measure`, an element has no position",
           "the line that names it"),
    Status(10, "there is no memory for the arguments", "nothing"),
)

CODES = (
    Code("E1", "header", "the first line that isn't blank is neither `sketch 1` nor `sketch 2`"),
    Code("E2", "word", "the first word of a line after the header is neither `end` nor a first word of this version (so a"
         " second `sketch` is E2)"),
    Code("E3", "shape", "the number of words is wrong; more words follow `end` in its line"),
    Code("E4", "name", "a word in place of a name isn't one"),
    Code("E5", "name-taken", "the name that the line declares is taken"),
    Code("E6", "unknown", "a name isn't declared"),
    Code("E7", "kind", "the elements aren't of the kinds that the line needs; an element of a block is a line"),
    Code("E8", "number", "a word in place of a number or a ratio isn't one, passes its limit, or is a negative length or"
         " radius"),
    Code("E9", "zero", "a length or radius is 0, p is 0, `inside` has equal radii, or two positions of a block are equal"),
    Code("E10", "same", "two names are the same element"),
    Code("E11", "drawn-flat", "the two drawn places of a line are equal"),
    Code("E12", "variable-radius",
         "a `circle` line has exactly four words: circles of variable radius aren't supported"),
    Code("E13", "too-many-elements", "there are 2,000 elements already"),
    Code("E14", "too-many-constraints", "there are 4,000 constraints already"),
    Code("E15", "line-too-long", "the line has more than 200 bytes"),
    Code("E16", "no-end", "the text ends without `end`; N is the number of lines plus 1"),
    Code("E17", "after-end", "a line that isn't blank follows `end`"),
    Code("E18", "empty", "no line has a word (line 0), or `end` comes before any element"),
    Code("E19", "not-ascii", "a byte is neither a tab nor one from 0x20 to 0x7E"),
    Code("E20", "too-long", "the text has more than 1,048,576 bytes, for `live` more than 4,294,967,295 (line 0)"),
    Code("E21", "too-many-flips", "there are 64 lines of flips already, for `flips`"),
    Code("S1", "no-such-number", "no constraint has this number"),
    Code("S2", "in-use", "a constraint uses the element"),
    Code("S3", "nothing-to-undo", "no accepted edit is left to undo"),
    Code("S4", "no-value", "the constraint is `on`, `tangent`, `outside`, `inside` or a block"),
    Code("S5", "edits-spent", "1,000,000 edits and undos were accepted; an input of `session` is too short for that,"
         " since an edit or undo takes at least five bytes"),
)
