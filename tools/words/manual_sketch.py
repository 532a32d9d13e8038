"""The manual page sketch(1): the program."""
from .roff import LICENCE, chapter, head, shown, terms
from .table import COMMANDS, KEYS, STATUSES, Command, Key

ABOUT = "checks whether a planar sketch is fully constrained, and places it exactly"
SAYS = (
    "For designers and for programs that solve sketches. `sketch` reads a text from standard input, a drawing with its"
    " dimensions in the language of `sketch`(5), and writes its answer to standard output. Its first argument is a command;"
    " keys follow as `key=value`, in any order, each at most once. It opens no file, keeps no state from run to run, and"
    " needs no terminal.",
    "A rigid cluster is a group of elements that hold each other in place. At first each constraint is one. Clusters that"
    " share enough elements are merged, until no two or three of them can be. So a sketch that is fully constrained ends as"
    " one rigid cluster.",
    "The following is proved for every sketch that parses, unless memory runs out, or input or output fails. The proof is about"
    " bytes in memory; for standard input and output an argument and tests take its place. The clusters that `check` prints"
    " don't depend on the order in which they were merged, and no more of them can be merged. A cluster of n >= 2 elements is"
    " called over-constrained if and only if it has more than 2n - 3 constraints, where a block of k points counts as 2k - 3."
    " The coordinates that `solve` prints for a fully constrained sketch meet each constraint within the printed tolerance and"
    " in the drawn orientations; if there are none, one line names what fails first.",
)
VERDICTS = (
    ("well", "fully constrained. This is a count and looks at no length. If the lengths don't fit, `solve` names the step,"
     " the quantity, the element, and the interval in which the quantity lies."),
    ("over", "over-constrained. `spare` names each dimension that can be removed by itself. `excess` says of the later ones"
     " whether they are redundant or conflicting, and by how much."),
    ("open", "under-constrained, and the rigid clusters are listed; or rigid in a way that merging triangles doesn't find. So"
     " `open` proves neither that the sketch can move nor that its dimensions agree."),
)
EXAMPLE = """$ cat triangle.sketch
sketch 1
point A 0 0
point B 4 0
point C 4 3
distance A B 4
distance A C 5
distance B C 3
end
$ sketch solve < triangle.sketch
verdict well
steps 1
bits 38
point A 0 0
point B 4000000 0
point C 4000000 3000000
length tolerance 0 nm at c1
angle tolerance 0 ppb at none
$ sketch dxf < triangle.sketch > triangle.dxf && echo ready
ready
"""
USAGE = ("With status 2 the program prints the usage line, which is the same whatever is wrong: an unknown command or key, a"
         " value that a key doesn't take, a key given twice or to a command that doesn't take it, or no command. It doesn't say"
         " which. COMMANDS says which keys a command takes, and KEYS which values a key takes. `--help` and `--version` are no"
         " commands: they get the usage line too.")
VERSION = ("`sketch` has no command for its version. `pertxogai --version` prints that of the release, `dpkg -s pertxogai` that"
           " of the Debian package, and `pkg-config --modversion sketch` that of the library.")
TOLD = ("Coordinates are whole nanometres, x to the right and y up. A line is the set of points with"
        " a\u00b7x + b\u00b7y = c, with a and b in parts per 10\u2079. The two tolerances are measured on the printed numbers.")


def _command(command: Command) -> tuple[str, str]:
    keys = " Keys: " + ", ".join(f"`{key}`" for key in command.keys) + "." if command.keys else ""
    return command.word, f"reads {command.reads}; writes {command.answers}.{keys}"


def _key(key: Key) -> tuple[str, str]:
    return f"{key.word}={key.usage}", f"{key.means}; default: {key.default}."


def page(version: str, date: str) -> list[str]:
    """The page of that version and date, in lines."""
    return [
        *head("sketch", 1, ABOUT, version, date),
        *chapter("SYNOPSIS", ["\\fBsketch\\fR \\fICOMMAND\\fR [\\fIKEY\\fR=\\fIVALUE\\fR].. < \\fIFILE\\fR"]),
        *chapter("DESCRIPTION", *SAYS),
        *chapter("COMMANDS", terms(*map(_command, COMMANDS))),
        *chapter("KEYS", terms(*map(_key, KEYS))),
        *chapter("VERDICTS", terms(*VERDICTS)),
        *chapter("EXIT STATUS", terms(*((str(it.number), f"{it.means}; written: {it.written}.") for it in STATUSES)), USAGE),
        *chapter("EXAMPLES", shown(EXAMPLE), TOLD),
        *chapter("VERSION", VERSION),
        *chapter("SEE ALSO", "`sketch`(5), `pertxogai`(1). An installed package has the documentation, the examples and the"
                 " claims in /usr/share/doc/pertxogai."),
        *LICENCE,
    ]
