"""Three checkers of claims agree: `verify` of the proved program, and the two in checker/ that
share nothing with it."""
from __future__ import annotations

import os
import subprocess
import sys
from collections.abc import Callable
from pathlib import Path

import pytest

import checkers
import hand_claims
import random_claims
from pertxogai.program import Program

Checkers = dict[str, Callable[[bytes], checkers.Answer]]

TRIANGLE = hand_claims.TRIANGLE.format(step=hand_claims.STEP)

VERIFIED = "verified steps 1 length 0 nm angle 0 ppb"

# A change of the triangle's claim, and what is answered to it.
ANSWERS = [
    ("", "", 0, VERIFIED),
    ("C 4000000 3000000", "C 4000000 -3000000", 9, "verify fails sign s1"),
    ("C 4000000 3000000", "C 4000000 3000001", 9, "verify fails c2"),
    ("at C A B", "at C B A", 9, "verify fails s1"),
    ("step s1 joins c3 c2 c1 at C A B keeps c1 turn +\n", "", 9, "verify fails parts"),
    ("keeps c1", "keeps c2", 9, "verify fails s1"),
    ("turn +", "turn -", 9, "verify fails s1"),
    ("point B 4000000 0\n", "", 9, "verify fails element B"),
    ("tolerance 0 0\n", "", 1, "refused line 13 E16 no-end"),
    ("tolerance 0 0\n", "tolerance 0 0\nend\n", 1, "refused line 14 E17 after-end"),
    ("tolerance 0 0", "tolerance 0 -1", 1, "refused line 13 E8 number"),
    ("keeps c1 turn +", "keeps c1 turn", 1, "refused line 9 E2 word"),
    ("point A 0 0\npoint B 4000000", "line A 0 0 0\npoint B 4000000", 1, "refused line 10 E7 kind"),
    ("sketch 1\n", "# part\nsketch 2\n", 1, "refused line 1 E1 header"),
    ("sketch 1\npoint A 0 0", "sketch 2\npoint A 0 0 # left", 0, VERIFIED),
    ("step s1", "step c1", 9, "verify fails s1"),
    ("turn +", "none +", 1, "refused line 9 E2 word"),
    ("keeps c1", "keeps c01", 1, "refused line 9 E4 name"),
    ("keeps c1", "keeps c1000000", 1, "refused line 9 E4 name"),
    ("point A 0 0\n", "point A 0 0\n" + " " * 201 + "\n", 1, "refused line 3 E15 line-too-long"),
]

BLOCK = """sketch 2
point A 0 0
point B 1 0
point C 0 -1
block A 0 0 B 4 0 C 4 3
end
point A 0 0
point B 4000000 0
point C 4000000 3000000
tolerance 0 0
"""



@pytest.fixture(scope="module")
def in_c(tmp_path_factory: pytest.TempPathFactory) -> Path:
    """The checker in C."""
    return checkers.built(tmp_path_factory.mktemp("checker"))


@pytest.fixture(scope="module")
def asks(program: Program, in_c: Path) -> Checkers:
    """The three checkers."""
    return checkers.all_of(Path(program.path), in_c)


def said(asks: Checkers, claim: bytes) -> dict[str, tuple[int, str]]:
    """What each answers to a claim: the status, and the one line."""
    found = {name: ask(claim) for name, ask in asks.items()}
    assert all(text.endswith(b"\n") for _, text in found.values())
    return {name: (status, text[:-1].decode()) for name, (status, text) in found.items()}


@pytest.mark.parametrize(("old", "new", "status", "line"), ANSWERS)
def test_the_triangle(asks: Checkers, old: str, new: str, status: int, line: str) -> None:
    claim = TRIANGLE.replace(old, new, 1) if old else TRIANGLE
    assert said(asks, claim.encode()) == dict.fromkeys(asks, (status, line))


def test_a_block_turns_as_its_places_do_whichever_way_its_pins_are_drawn(asks: Checkers) -> None:
    good, fails = (0, "verified steps 0 length 0 nm angle 0 ppb"), (9, "verify fails sign c1")
    for claim, answer in [(BLOCK, good), (BLOCK.replace(" 3000000", " -3000000"), fails)]:
        assert said(asks, claim.encode()) == dict.fromkeys(asks, answer)


@pytest.mark.parametrize(("line", "refused"), hand_claims.LINES.items())
def test_a_line_is_refused_as_the_page_says(asks: Checkers, line: str, refused: str) -> None:
    answers = said(asks, f"{hand_claims.SKETCH}{line}\n".encode())
    assert answers == dict.fromkeys(asks, (1, f"refused {refused}"))


@pytest.mark.parametrize(("claim", "end"), hand_claims.CLAIMS, ids=range(len(hand_claims.CLAIMS)))
def test_a_claim_is_answered_as_the_page_says(asks: Checkers, claim: str, end: str) -> None:
    good = end.startswith("verified")
    answer = (0, end) if good else (9, f"verify {end}")
    assert said(asks, claim.encode()) == dict.fromkeys(asks, answer)


def large(elements: int, constraints: int, trailing: int) -> bytes:
    """A sketch of so many points and constraints that is no part, and so many line feeds behind its
    claim."""
    points = [f"point P{number} 0 0" for number in range(elements)]
    lines = ["sketch 1", *points, *["distance P0 P1 1"] * constraints, "end", "tolerance 0 0"]
    return ("\n".join(lines) + "\n" * trailing).encode()


@pytest.mark.parametrize(("claim", "line"), [
    (large(2000, 4000, 1), "verify fails parts"),
    (large(2001, 4000, 1), "refused line 2002 E13 too-many-elements"),
    (large(2000, 4001, 1), "refused line 6002 E14 too-many-constraints"),
    (large(2, 1, 2**20 - len(large(2, 1, 0))), "verify fails element P0"),
    (large(2, 1, 2**20 + 1 - len(large(2, 1, 0))), "refused line 0 E20 too-long"),
    (b"\n" * 2**20, "refused line 0 E18 empty"),
    (b"", "refused line 0 E18 empty"),
    (b"\x01", "refused line 1 E19 not-ascii"),
], ids=range(8))
def test_the_limits(asks: Checkers, claim: bytes, line: str) -> None:
    assert {answer[1] for answer in said(asks, claim).values()} == {line}


def test_three_hundred_claims_have_one_answer_each(asks: Checkers, program: Program) -> None:
    kinds = set()
    for claim in random_claims.claims(Path(program.path), 300, seed=7):
        answers = {name: ask(claim.encode("latin-1")) for name, ask in asks.items()}
        assert len(set(answers.values())) == 1, (claim, answers)
        kinds.add(checkers.kind(answers["sketch verify"]))
    assert {"verified", "verify fails c", "verify fails s", "refused E2", "refused E8"} <= kinds


def explained(words: list[str | Path], claim: bytes) -> list[str]:
    """What a checker says of a claim, line by line."""
    run = subprocess.run([*words, "--explain"], input=claim, capture_output=True, check=False)
    return run.stdout.decode().splitlines()


def test_both_explain_each_step_each_constraint_and_each_sign(program: Program, in_c: Path) -> None:
    for words in ([sys.executable, checkers.CHECKER / "sketch_claim.py"], [in_c]):
        assert explained(words, TRIANGLE.encode()) == [
            "s1 joins c3 c2 c1 to 3 elements, turn +",
            "c1: the distances have the squares [16000000000000] nm2",
            "c2: the distances have the squares [25000000000000] nm2",
            "c3: the distances have the squares [9000000000000] nm2",
            "s1: drawn +1, placed +1",
            VERIFIED,
        ]
    for claim in random_claims.claims(Path(program.path), 100, seed=1):
        data = claim.encode("latin-1")
        assert explained([in_c], data) == checkers.explained(data)


@pytest.mark.parametrize("more", [["one", "two"], ["--explain", "one", "two"], ["--help"],
                                  ["--explain", "--explain"], ["one", "--explain"]])
def test_other_words_than_one_file_are_told_the_usage(more: list[str], in_c: Path) -> None:
    for words in ([sys.executable, checkers.CHECKER / "sketch_claim.py"], [in_c]):
        run = subprocess.run([*words, *more], input=TRIANGLE.encode(), capture_output=True, check=False)
        assert (run.returncode, run.stdout) == (2, b"")
        assert run.stderr.startswith(b"usage: sketch_claim")
        assert run.stderr.endswith(b" [--explain] [FILE]\n")


def test_a_file_is_read_as_standard_input_is(in_c: Path, tmp_path: Path) -> None:
    claim = tmp_path / "a.claim"
    claim.write_text(TRIANGLE)
    for words in ([sys.executable, checkers.CHECKER / "sketch_claim.py"], [in_c]):
        for path, status, said in ((claim, 0, f"{VERIFIED}\n"), (tmp_path / "none", 3, "")):
            run = subprocess.run([*words, path], capture_output=True, check=False, text=True)
            assert (run.returncode, run.stdout) == (status, said)


@pytest.mark.parametrize("unbuffered", ["", "1"])
def test_an_input_or_output_that_fails_has_a_status_of_its_own(unbuffered: str, in_c: Path) -> None:
    """Standard input is closed, or standard output is a device that takes nothing."""
    environment = {**os.environ, "PYTHONUNBUFFERED": unbuffered}
    for words in ([sys.executable, checkers.CHECKER / "sketch_claim.py"], [in_c]):
        for told, status in (('"$@" <&-', 3), ('"$@" > /dev/full', 4), ('"$@" --explain > /dev/full', 4)):
            run = subprocess.run(["sh", "-c", told, "sh", *words], input=TRIANGLE.encode(),
                                 capture_output=True, check=False, env=environment)
            assert (run.returncode, run.stdout, run.stderr) == (status, b"", b""), (words, told)


def test_it_is_one_file_of_at_most_350_lines_on_the_standard_library() -> None:
    source = Path(checkers.CHECKER, "sketch_claim.py").read_text().splitlines()
    assert len(source) <= 350
    imported = [line.split()[1] for line in source if line.startswith(("import ", "from "))]
    assert set(imported) <= set(sys.stdlib_module_names)
