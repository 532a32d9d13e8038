"""What `complete` and `why` answer to random sketches, beside what the definitions say of them."""
from __future__ import annotations

import subprocess
from collections import Counter
from collections.abc import Iterator
from dataclasses import dataclass
from pathlib import Path

from plain_completions import completion
from plain_groups import groups
from plain_sketches import Sketch, parts, read
from random_sketches import sketches

WELL, OVER = "well already", "over"


@dataclass(frozen=True)
class Case:
    """A sketch, what kind it is of, what a command answers and what it should."""

    text: str
    command: str
    kind: str
    answer: tuple[int, str]
    expected: tuple[int, str]


def ask(program: Path, command: str, text: str) -> tuple[int, str]:
    """The status and the text that the program answers."""
    words = [program, command]
    run = subprocess.run(
        words, input=text.encode(), capture_output=True, check=False, timeout=60
    )
    return run.returncode, run.stdout.decode()


def completed(program: Path, text: str) -> Case:
    """What `complete` answers: of a sketch without a completion the reason, and behind it the
    check report."""
    sketch = read(text)
    whole = completion(sketch)
    answer = ask(program, "complete", text)
    if isinstance(whole, str):
        report = ask(program, "check", text)[1]
        return Case(text, "complete", whole, answer, (6, f"no completion {whole}\n{report}"))
    added = [it.line for it in whole.constraints[len(sketch.constraints) :]]
    return Case(text, "complete", f"{len(added)} added", answer, (0, with_lines(text, added)))


def with_lines(text: str, added: list[str]) -> str:
    """The text with lines before its end."""
    *lines, end = text.splitlines()
    return "\n".join([*lines, *added, end, ""])


def explained(program: Path, text: str) -> Case:
    """What `why` answers: the lines of parts are those of the check report."""
    sketch = read(text)
    report = ask(program, "check", text)[1].splitlines()
    found, over = groups(sketch), [it for it in parts(sketch) if sketch.is_over(it)]
    lines = [f"why {len(over)}"]
    for part in over:
        lines += [line for line in report if is_of(line, names(sketch, part))]
        left = [k for k in sorted(found) if sketch.constraints[k - 1].elements <= part]
        lines += [told(sketch, k, found[k]) for k in left]
    expected = 0, "\n".join([*lines, ""])
    return Case(text, "why", f"{len(found)} left out", ask(program, "why", text), expected)


def names(sketch: Sketch, part: frozenset[int]) -> list[str]:
    """The names of a part's elements, in order."""
    return [sketch.element(it).name for it in sorted(part)]


def is_of(line: str, part: list[str]) -> bool:
    """Whether a line of the check report is that of a part, by its names."""
    return line.startswith("part ") and line.split(" : ")[1].split(" ") == part


def told(sketch: Sketch, number: int, because: list[int]) -> str:
    """The line of a constraint that is left out."""
    numbers = "".join(f" c{it}" for it in because)
    return f"c{number} : {sketch.constraints[number - 1].line} follows from{numbers}"


def cases(program: Path, count: int, seed: int) -> Iterator[Case]:
    """Both commands on so many sketches."""
    for text in sketches(count, seed):
        yield completed(program, text)
        yield explained(program, text)


def differing(program: Path, count: int, seed: int, told_kinds: Counter[str]) -> Iterator[Case]:
    """The cases whose answers differ from what the definitions say. Counts those of each kind."""
    for case in cases(program, count, seed):
        told_kinds[f"{case.command}: {case.kind}"] += 1
        if case.answer != case.expected:
            yield case
