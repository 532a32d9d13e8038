"""`complete` and `why` beside a plain writing of their definitions, which shares no code with the
program."""
from __future__ import annotations

from collections import Counter

import pytest

from asked_plainly import ask, differing, with_lines
from pertxogai.program import Program
from plain_completions import completion, drawn_line, nearest_fraction, nearest_root
from plain_groups import groups
from plain_sketches import read, verdict
from random_sketches import sketches

# Of 300 sketches at least so many have to be of these kinds, or they show little.
LEAST = 20


@pytest.mark.parametrize(
    ("over", "under", "root"),
    # 2.5 isn't the root of a whole number; of quotients halves are rounded up
    [(0, 1, 0), (6, 1, 2), (7, 1, 3), (25, 4, 3), (24, 4, 2), (10**18, 1, 10**9)],
)
def test_nearest_root(over: int, under: int, root: int) -> None:
    """The nearest whole number, halves up."""
    assert nearest_root(over, under) == root


@pytest.mark.parametrize(
    ("over", "under", "fraction"),
    # 1/20,000 lies between 0/1 and 1/10,000, as near to both: the lesser denominator
    [(1, 2, (1, 2)), (2, 4, (1, 2)), (1, 20_000, (0, 1)), (1, 19_999, (1, 10_000))],
)
def test_nearest_fraction(over: int, under: int, fraction: tuple[int, int]) -> None:
    """The nearest fraction, with the least denominator."""
    assert nearest_fraction(over, under) == fraction


def test_drawn_between_a_line_and_a_point() -> None:
    """A right-angled triangle of 3, 4 and 5: from the corner to its longest side it is 3 * 4 / 5,
    which is 2.4."""
    sketch = read("sketch 1\nline L 3 0 0 4\npoint P 0 0\npoint Q 0 4\nend\n")
    assert drawn_line(sketch, 1, 2) == "distance P L 2.4"
    assert drawn_line(sketch, 1, 3) == "on Q L"


def test_three_loose_points() -> None:
    """The nearest of the base each time: B to A, then C to both."""
    sketch = read("sketch 1\npoint A 0 0\npoint B 3 0\npoint C 0 4\nend\n")
    whole = completion(sketch)
    assert not isinstance(whole, str)
    lines = [it.line for it in whole.constraints]
    assert lines == ["distance A B 3", "distance A C 4", "distance B C 5"]
    assert verdict(whole) == "well"


# Sketches, and what is added to them, worked out by hand. Each answer is another one where the base
# is the first part and not the greatest; where the nearest element is chosen and not the one that
# holds most firmly; where tied lines get an angle once more, or angles aren't followed.
CHOSEN = [
    (
        "point A 10 0,point B 10 3,point C 0 0,point D 4 0,point E 0 3,"
        "distance A B 3,distance C D 4,distance C E 3,distance D E 5",
        "distance A D 6,distance A E 10.44,distance B D 6.708",
    ),
    (
        "point A 0 0,point B 8 0.8,point C 7 7,point D 10 0,"
        "distance A B 8.04,distance A C 9.899,distance B C 6.28,distance A D 10",
        "distance C D 7.616",
    ),
    (
        "point A 0 0,point B 4 0,line L 0 0 4 0,line N 0 3 4 3,line M 2 0 4 5,"
        "on A L,on B L,distance A B 4,angle L N 1/1,angle N M 1/1",
        "distance A M 1.857,distance A N 3",
    ),
]


@pytest.mark.parametrize(("given", "added"), CHOSEN)
def test_chosen_among_several(program: Program, given: str, added: str) -> None:
    """The program adds these, and so does the plain writing."""
    text = "\n".join(["sketch 1", *given.split(","), "end", ""])
    answer = with_lines(text, added.split(","))
    assert ask(program.path, "complete", text) == (0, answer)
    whole = completion(read(text))
    assert not isinstance(whole, str)
    assert [it.line for it in whole.constraints] == [it.line for it in read(answer).constraints]


def test_a_length_twice() -> None:
    """The later one goes, and follows from the earlier."""
    lines = ["distance A B 4", "distance A C 5", "distance B C 3", "distance C B 3"]
    points = ["point A 0 0", "point B 4 0", "point C 4 3"]
    sketch = read("\n".join(["sketch 1", *points, *lines, "end", ""]))
    assert groups(sketch) == {4: [3]}


def test_kinds_of_sketches() -> None:
    """The random sketches are of all verdicts."""
    kinds = Counter(verdict(read(text)) for text in sketches(300, 1))
    assert min(kinds[it] for it in ("well", "over", "open")) > LEAST


def test_as_defined(program: Program) -> None:
    """Each answer to 300 random sketches is the defined one, byte for byte."""
    kinds: Counter[str] = Counter()
    assert not list(differing(program.path, 300, 1, kinds))
    assert sum(times for kind, times in kinds.items() if kind.endswith(" added")) > LEAST
    assert kinds.total() - 300 - kinds["why: 0 left out"] > LEAST
