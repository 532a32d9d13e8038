"""The command `certify`."""
from __future__ import annotations

import argparse

from pertxogai.commands.judging import chosen, outcome_of, program_of
from pertxogai.exits import CommandError, Exit
from pertxogai.files.atomic import written_whole
from pertxogai.files.kinds import read_inputs
from pertxogai.files.printable import printable
from pertxogai.judging import NotGood
from pertxogai.judging.claims import NotAccepted, checked, claim_of, scale_of
from pertxogai.program import Program


def certify(options: argparse.Namespace) -> Exit:
    """Writes the claim of a sketch that is good, and has it checked where that is asked for.
    Raises CommandError, InputRefused, FileRefusal, TextRefused and ProgramError."""
    found = chosen(read_inputs(options.file), options.sketch)
    program = program_of(options)
    outcome = outcome_of(found, program, options)
    good = outcome.good()
    if isinstance(good, NotGood):
        print(printable(f"{outcome.name}: no claim is written, because it isn't good: {good}"))
        return Exit.NOT_GOOD
    try:
        claim = claim_of(good, program).text()
    except NotAccepted as error:
        raise CommandError(f"{outcome.name}: {error}") from None
    with written_whole(options.output, options.file) as file:
        file.write(claim.encode("ascii"))
    if scale_of(good) > 1:
        print(f"the sketch of the claim is {scale_of(good)} times as large as the drawing")
    return _check_claim(claim, program) if options.check else Exit.GOOD


def _check_claim(claim: str, program: Program) -> Exit:
    """Tells what each checker answers to a claim."""
    answers = list(checked(claim, program))
    for each in answers:
        print(f"{each.checker}: {each.line}")
    return Exit.GOOD if all(each.accepts() for each in answers) else Exit.NOT_GOOD
