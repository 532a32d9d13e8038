"""A claim for what is judged good, and the three checkers that read it.

A claim has the sketch that the program was told, the steps of its construction, a place for each
element, and within what all of it holds. Whoever has it can check it again, without this package
and without the program."""

from __future__ import annotations

import shutil
import sys
from collections.abc import Iterator, Sequence
from dataclasses import dataclass
from pathlib import Path
from tempfile import TemporaryDirectory

from pertxogai.judging.good import GoodJudgement, GoodSketch
from pertxogai.language import Claim, Sketch
from pertxogai.program import MissingProgram, Program, Solver, Status
from pertxogai.program.process import Ended, Limits, run_process
from pertxogai.program.reports import Solved, read_plan

REPOSITORY = Path(__file__).resolve().parents[3]
IN_PYTHON = "sketch_claim.py"
IN_C = "sketch_claim.c"


class NotAccepted(Exception):
    """The program doesn't accept a claim that was made of its own answers. The message is one
    line."""


def claim_of(good: GoodJudgement | GoodSketch, program: Solver) -> Claim:
    """The claim of what is good, which the program accepts. Raises NotAccepted and ProgramError."""
    claim = _claim_of(*_sketch_and_places(good), program)
    verified = program.ask(("verify",), claim.text())
    if verified.status is not Status.DONE:
        raise NotAccepted(f"the program doesn't accept the claim: {verified.text.strip()}")
    return claim


def scale_of(good: GoodJudgement | GoodSketch) -> int:
    """How many times as large as the drawing the sketch is that the program was told."""
    return 1 if isinstance(good, GoodSketch) else good.judged.judgement.asked.spelled.scale


def _sketch_and_places(good: GoodJudgement | GoodSketch) -> tuple[Sketch, Solved]:
    """The sketch that the program was told, and where it placed that."""
    if isinstance(good, GoodSketch):
        return good.judged.sketch, good.solved
    asked = good.judged.judgement.asked
    assert isinstance(asked.solved, Solved)
    return asked.spelled.sketch, asked.solved


def _claim_of(sketch: Sketch, solved: Solved, program: Solver) -> Claim:
    answer = program.ask(("plan",), sketch.text())
    if answer.status is not Status.DONE:
        raise NotAccepted("the program has no plan of what it places")
    steps = read_plan(answer.text).steps
    tolerances = solved.length_tolerance_nm, solved.angle_tolerance_ppb
    return Claim(sketch, steps, solved.places, *tolerances)


@dataclass(frozen=True)
class Checked:
    """What one checker answers to a claim: its exit status and its line; no status, and why, where
    it couldn't be asked."""

    checker: str
    status: int | None
    line: str

    def accepts(self) -> bool:
        """Whether the claim is accepted."""
        return self.status == Status.DONE and self.line.startswith("verified ")


def checked(claim: str, program: Program) -> Iterator[Checked]:
    """The answers of the program's `verify`, and of the two checkers that share nothing with it.
    Raises ProgramError."""
    answer = program.ask(("verify",), claim)
    yield Checked("sketch verify", answer.status, answer.text.strip())
    limits = Limits(program.seconds, None)
    folder = _folder(program)
    for name, run in ((IN_PYTHON, _run_in_python), (IN_C, _run_in_c)):
        try:
            yield run(folder / name, claim, limits)
        except MissingProgram as error:
            yield Checked(name, None, f"not asked: {error}")


def _folder(program: Program) -> Path:
    """Where the checkers lie: in the repository, else beside the installed program."""
    beside = Path(program.path).resolve().parents[1] / "share" / "pertxogai"
    found = [each / "checker" for each in (REPOSITORY, beside)]
    return next((each for each in found if (each / IN_PYTHON).is_file()), found[-1])


def _run_in_python(source: Path, claim: str, limits: Limits) -> Checked:
    return _answer_of(source.name, [python_itself(), "-I", str(_there(source))], claim, limits)


def python_itself() -> str:
    """The interpreter that runs this, or, within a program that has Python in it, as FreeCAD, the
    one on the path. Raises MissingProgram."""
    if Path(sys.executable).name.startswith("python"):
        return sys.executable
    found = shutil.which("python3")
    if found is None:
        raise MissingProgram("python3 isn't on the path")
    return found


def _run_in_c(source: Path, claim: str, limits: Limits) -> Checked:
    with TemporaryDirectory(prefix="pertxogai-") as room:
        built = str(Path(room, source.stem))
        words = ["cc", "-std=c99", "-O2", "-o", built, str(_there(source))]
        ended = run_process(words, b"", limits)
        if ended.code:
            raise MissingProgram(f"it can't be built: cc {ended.how()}")
        return _answer_of(source.name, [built], claim, limits)


def _there(source: Path) -> Path:
    """The file. Raises MissingProgram where there is none."""
    if not source.is_file():
        raise MissingProgram(f"{source} isn't there")
    return source


def _answer_of(name: str, words: Sequence[str], claim: str, limits: Limits) -> Checked:
    ended: Ended = run_process(words, claim.encode("ascii"), limits)
    return Checked(name, ended.code, ended.written.decode("ascii", "replace").strip())
