"""The manual page sketch(5): the language."""
from .roff import LICENCE, chapter, head, shown, terms
from .table import CODES, CONSTRAINTS, EDITS, ELEMENTS

ABOUT = "the language of planar drawings and their dimensions"
SAYS = (
    "For anyone who writes or generates sketches for `sketch`(1). A sketch is a text. Its first line is `sketch 1` or"
    " `sketch 2`, its last `end`. Between them are elements and constraints, one on each line; a line that declares an"
    " element comes before any that uses it. Numbers are millimetres, x to the right and y up. The elements are drawn"
    " roughly: their positions only say on which side things lie and which way they run. The constraints are the"
    " dimensions; these and the radii of circles give the sizes.",
    "Version 2 adds rigid blocks, and comments from `#` to the end of a line.",
)
EXAMPLE = """sketch 2
line Base 0 0 60 0      # drawn; a line has no ends
line Face 0 0 60 35
point Tip 0 0
point Heel 60 0
on Tip Base
on Tip Face
on Heel Base
distance Tip Heel 60    # a dimension
angle Base Face 2911/5042
end
"""
WORDS = (
    ("NAME", "a letter, and up to 15 letters, digits or `_`."),
    ("x, y, len, r", "a number: an optional `-`, one to seven digits, and optionally a `.` with one to three digits; at"
     " most 1,000,000 in absolute value. A length or radius is above 0."),
    ("p/q", "a ratio of whole numbers, the tangent of an angle: an optional `-`, one to five digits, `/`, one to five"
     " digits; both at most 10,000, and p isn't 0. `1/0` is a right angle, `1/1` is 45\u00b0, `8733/5042` is"
     " 60\u00b0, `2911/5042` is 30\u00b0. Plus is to the left."),
)
DECIDES = (
    "The drawn positions decide what the dimensions leave open: on which side of a line a point lies, which way a line"
    " runs, the orientation of three points, and which of two points comes first along a line. They need not fit the"
    " dimensions. A sign that the drawing leaves open counts as plus.",
)
LIMITS = ("A text has at most 1,048,576 bytes, a line 200, a sketch 2,000 elements and 4,000 constraints. All bytes are"
          " ASCII from 0x20 to 0x7E, tabs and line feeds; one carriage return at the end of a line is ignored.")
REFUSED = ("A text that isn't a sketch is rejected with one line, `refused line N CODE word`, which names its first faulty"
           " line; line 0 means the whole text.")


def page(version: str, date: str) -> list[str]:
    """The page of that version and date, in lines."""
    return [
        *head("sketch", 5, ABOUT, version, date),
        *chapter("DESCRIPTION", *SAYS),
        *chapter("EXAMPLE", shown(EXAMPLE)),
        *chapter("ELEMENTS", terms(*((it.form, it.means + ".") for it in ELEMENTS))),
        *chapter("CONSTRAINTS", terms(*((it.form, it.means + ".") for it in CONSTRAINTS))),
        *chapter("WORDS", terms(*WORDS)),
        *chapter("WHAT THE DRAWING DECIDES", *DECIDES),
        *chapter("SESSIONS", "`sketch session` reads elements and constraints as above, without a header, and the lines below."
                 " It answers each line; `check`, `plan`, `solve` and `write` by a report or the text. It ends at `end`.",
                 terms(*((it.form, f"{it.means}; answered {it.reply}.") for it in EDITS))),
        *chapter("LIMITS", LIMITS),
        *chapter("REFUSALS", REFUSED, terms(*((f"{it.code} {it.word}", it.where + ".") for it in CODES))),
        *chapter("SEE ALSO", "`sketch`(1), `pertxogai`(1)"),
        *LICENCE,
    ]
