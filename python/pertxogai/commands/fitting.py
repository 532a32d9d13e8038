"""The command `fit`."""
from __future__ import annotations

import argparse
import json

from pertxogai.commands.judging import chosen, made_of
from pertxogai.commands.solvers import solver_of
from pertxogai.exits import CommandError, Exit
from pertxogai.files.atomic import written_whole
from pertxogai.files.kinds import DesignerDrawing, read_inputs
from pertxogai.files.printable import printable
from pertxogai.fitting import Answer, Fit, fit
from pertxogai.output.fit_chart import fit_chart
from pertxogai.output.fit_json import fit_json
from pertxogai.output.fit_text import fit_lines


def fit_file(options: argparse.Namespace) -> Exit:
    """Prints what tolerances do to what must fit in a file, and draws the chart where that is asked
    for. Raises CommandError, InputRefused, FileRefusal and ProgramError."""
    if options.jobs < 1:
        raise CommandError("--jobs takes a whole number from 1 on")
    one = chosen(read_inputs(options.file), options.sketch)
    if not isinstance(one, DesignerDrawing):
        raise CommandError(f"{options.file}: checks are lines of a .drawing, and none of a sketch "
                           "of the language")
    with made_of(one):
        found = fit(one.drawing, solver_of(options), options.within, options.jobs)
    if options.json:
        sketches = [fit_json(one.name, found)]
        print(json.dumps({"file": str(options.file), "sketches": sketches}, indent=2))
    else:
        print(*map(printable, fit_lines(one.name, found)), sep="\n")
    if options.output is not None:
        if not isinstance(found, Fit):
            raise CommandError(f"{options.file}: nothing is known of what fits, so "
                               f"{options.output} isn't written")
        with written_whole(options.output, options.file) as file:
            file.write(fit_chart(one.name, found).encode("utf-8"))
    return Exit.GOOD if isinstance(found, Fit) and found.answer is Answer.FITS else Exit.NOT_GOOD
