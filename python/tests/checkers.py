"""Three checkers of claims: the program, and the two that share nothing with it."""
from __future__ import annotations

import subprocess
from collections.abc import Callable
from functools import cache, partial
from importlib.machinery import SourceFileLoader
from pathlib import Path
from types import ModuleType

TOP = Path(__file__).resolve().parents[2]
CHECKER = TOP / "checker"

# A status, and what was printed.
Answer = tuple[int, bytes]


def ask(words: tuple[str | Path, ...], claim: bytes) -> Answer:
    """What a checker answers to a claim on its standard input."""
    run = subprocess.run(words, input=claim, capture_output=True, check=False, timeout=60)
    assert not run.stderr, run.stderr
    return run.returncode, run.stdout


def built(folder: Path) -> Path:
    """The checker in C, built into the folder so that it stops at an overflow or a byte beyond a
    table."""
    made, source = folder / "sketch_claim", CHECKER / "sketch_claim.c"
    sanitizers = ["-fsanitize=address,undefined", "-fno-sanitize-recover=all"]
    warnings = ["-pedantic", "-Wall", "-Wextra", "-Werror"]
    words = ["cc", "-std=c99", "-O1", *sanitizers, *warnings, "-o", str(made), str(source)]
    subprocess.run(words, check=True)
    return made


def called(claim: bytes) -> Answer:
    """What the checker in Python answers, called here, since a Python takes longer to start than
    to check."""
    status, line = _module().answer(claim)
    return status, f"{line}\n".encode()


def explained(claim: bytes) -> list[str]:
    """What the checker in Python says of a claim, line by line."""
    lines: list[str] = []
    _, line = _module().answer(claim, lines.append)
    return [*lines, line]


@cache
def _module() -> ModuleType:
    loader = SourceFileLoader("sketch_claim", str(CHECKER / "sketch_claim.py"))
    module = ModuleType(loader.name)
    loader.exec_module(module)
    return module


def all_of(program: Path, in_c: Path) -> dict[str, Callable[[bytes], Answer]]:
    """Each checker by its name, of which that in C is built already."""
    return {
        "sketch verify": partial(ask, (program, "verify")),
        "sketch_claim.py": called,
        "sketch_claim.c": partial(ask, (in_c,)),
    }


def kind(answer: Answer) -> str:
    """What kind of answer it is: verified, what fails, or the code of a refusal."""
    words = answer[1].decode().split()
    if answer[0] == 9:
        what = words[2:] if words[2] == "sign" else words[2:3]
        return " ".join(["verify fails", *(it.rstrip("0123456789") for it in what)])
    return {0: "verified", 1: " ".join(words[:1] + words[3:4])}.get(answer[0], "?")
