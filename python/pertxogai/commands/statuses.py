"""With which exit status each command ends, as `--help` and the manual page say it."""
from __future__ import annotations

from textwrap import fill

OTHERWISE = ("2 if the arguments or a file can't be read, or nothing can be written; 3 if the"
             " program gave no answer")
ENDS = {
    "judge": f"0 if every sketch is good; 1 if one isn't, and a line says why; {OTHERWISE}; of"
             " several files the greatest",
    "watch": "2 if there is no such file, or it is none that can be judged; 3 if the program isn't"
             " found; 130 once Ctrl-C ends it",
    "draw": "0 if the sketch is good, or --as-drawn drew it; 1 if it isn't good: the SVG is drawn"
            " all the same, and says why; 2 if the arguments or a file can't be read, nothing can"
            " be written, or a DXF of what isn't good is asked for; 3 if the program gave no"
            " answer",
    "complete": "0 if each sketch is good with the proposed lines, or is good and lacks nothing; 1"
                f" if one isn't, and a line says why; {OTHERWISE}",
    "range": "0 if the drawing has ranges; 1 if it isn't good and so has none, and a line says why;"
             f" {OTHERWISE}",
    "family": "the greatest of all variants: 0 if it is good; 1 if it isn't; 2 if it is rejected; 3"
              " if the program gave no answer. 2 also if the arguments or a file can't be read, or"
              " nothing can be written",
    "fit": "0 if every check with limits fits in the worst case; 1 if one doesn't, if it isn't"
           f" known, or if there is no check; {OTHERWISE}",
    "certify": "0 if the claim is written, and with --check each checker accepts it; 1 if the"
               " sketch isn't good, or a checker doesn't accept the claim or can't be run;"
               f" {OTHERWISE}",
}
"""When each command ends with which status."""
GOOD = ("A sketch is good if the program says well and places it, every constraint is met within"
        " --within, as measured, nothing is left out, every size is given, no dimension is known"
        " to be missing by rank, and nothing is found to lie mirrored.")
PROGRAM = ("The program is the one of --program, else of the variable PERTXOGAI_SKETCH, else the"
           " repository's build, else the one on the path.")
LIBRARY = ("If the variable PERTXOGAI_LIBRARY names the library and --program isn't given, the"
           " library is asked in place of the program, and --seconds doesn't limit it.")
"""What `commands.solvers` chooses for the commands that ask many times."""
ASK_LIBRARY = ("range", "family", "fit")
WIDTH = 80


def epilog(command: str) -> str:
    """What stands below the options of a command."""
    told = [f"exit status: {ENDS[command]}.", GOOD, PROGRAM]
    if command in ASK_LIBRARY:
        told.append(LIBRARY)
    return "\n\n".join(fill(it, WIDTH) for it in told)
