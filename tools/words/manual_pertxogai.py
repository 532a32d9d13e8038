"""The manual page pertxogai(1): the commands of the Python package."""
from .options import commands, options
from .roff import LICENCE, chapter, head, shown, terms
from pertxogai.commands.statuses import ENDS, GOOD, PROGRAM

ABOUT = "judges, places and draws sketches by the proved program sketch"
SAYS = (
    "For designers and scripts. `pertxogai` takes a sketch from a file, translates it into the language of `sketch`(5), runs"
    " the program `sketch`(1), and reports its answer in the designer's own names. It decides nothing itself. Then it measures"
    " each of the designer's constraints on the printed positions, in whole numbers, and reports the deviations.",
    "FILE is a text of the sketch language (.sketch), a drawing in a designer's words (.drawing), or a file of FreeCAD"
    " (.FCStd), SolveSpace (.slvs) or DXF (.dxf).",
)
EXAMPLE = """$ cat plate.drawing
rectangle Plate 0 0 118 79
circle Hole 47 28 5
coincident PlateBottom.start Origin
length PlateBottom 120
length PlateRight 80
x Hole 45
y Hole 30
diameter Hole 12
$ pertxogai judge plate.drawing
plate: well (fully constrained), encoding values, elements 7, constraints 11, rigid clusters 1
  placed within 0 nm and 0 ppb
  measured: each constraint holds exactly
$ pertxogai draw plate.drawing -o plate.svg
$ pertxogai certify plate.drawing -o plate.claim
$ pertxogai page
"""
VARIABLES = (
    ("PERTXOGAI_SKETCH", "the program `sketch`, if it is neither the repository's build nor on the path."),
    ("PERTXOGAI_LIBRARY", "the library libsketch.so, for Python programs that call it."),
    ("PERTXOGAI_MEMORY_MIB", "the memory limit of a call in MiB: 4096 if it isn't set, 0 for no limit."),
)


def page(version: str, date: str) -> list[str]:
    """The page of that version and date, in lines."""
    described = [line for name, about, parser in commands()
                 for line in (f".SS {name}", about[0].upper() + about[1:] + ".", *terms(*options(parser)))]
    return [
        *head("pertxogai", 1, ABOUT, version, date),
        *chapter("SYNOPSIS", ["\\fBpertxogai\\fR \\fBjudge\\fR|\\fBwatch\\fR|\\fBdraw\\fR|\\fBcomplete\\fR|\\fBrange\\fR|\\fBfit\\fR|\\fBcertify\\fR [\\fIOPTION\\fR].. \\fIFILE\\fR", ".br",
                              "\\fBpertxogai\\fR \\fBfamily\\fR [\\fIOPTION\\fR].. \\fIFILE\\fR \\fISIZES.csv\\fR", ".br",
                              "\\fBpertxogai\\fR \\fBpage\\fR [\\fIOPTION\\fR].."]),
        *chapter("DESCRIPTION", *SAYS),
        *chapter("COMMANDS", described),
        *chapter("ENVIRONMENT", terms(*VARIABLES)),
        *chapter("EXIT STATUS", terms(*((name, f"{says}.") for name, says in ENDS.items())), GOOD, PROGRAM),
        *chapter("EXAMPLES", shown(EXAMPLE)),
        *chapter("SEE ALSO", "`sketch`(1), `sketch`(5)"),
        *LICENCE,
    ]
