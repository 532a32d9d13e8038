"""The search, by numbers: a shape for every drawing, its degrees of freedom, and which constraints
are redundant or conflicting. The results are computed in floating point by numpy and scipy, and
nothing certifies them. The program constructs and certifies its sketch, and
`pertxogai.judging.measure` measures each of the designer's constraints on whole nanometres; only
what neither of these gives is found here. Nothing here imports numpy before it is used."""
from __future__ import annotations

from importlib.util import find_spec
from typing import TYPE_CHECKING

from pertxogai.drawing import Drawing
from pertxogai.exits import MissingLibrary
from pertxogai.judging.finding import Finding
from pertxogai.judging.judgement import Judgement
from pertxogai.program import Solver

if TYPE_CHECKING:
    from pertxogai.search.searched import Searched

__all__ = ["check_libraries", "search", "search_judged", "searched_within"]


def search(drawing: Drawing) -> Finding:
    """Searches a sound drawing. Raises MissingLibrary without numpy or scipy."""
    check_libraries()
    from pertxogai.search.searched import searched
    return searched(drawing).finding()


def search_judged(drawing: Drawing, judgement: Judgement, program: Solver) -> Finding:
    """Searches a sound drawing that was judged; if it is under-constrained, with the program's
    construction by values that were found. Raises MissingLibrary."""
    check_libraries()
    from pertxogai.search.searched import searched
    return searched(drawing).finding_with(judgement, program)


def searched_within(drawing: Drawing, seconds: float) -> Searched:
    """Searches a sound drawing, for at most `seconds` of processor time. Raises
    MissingLibrary."""
    check_libraries()
    from pertxogai.search.searched import Searched
    return Searched(drawing, seconds)


def check_libraries() -> None:
    """Raises MissingLibrary if numpy or scipy is missing."""
    missing = [name for name in ("numpy", "scipy") if find_spec(name) is None]
    if missing:
        are = "are" if len(missing) > 1 else "is"
        raise MissingLibrary(
            f"{' and '.join(missing)} {are} missing, which the search needs: apt-get install "
            f"{' '.join(f'python3-{name}' for name in missing)}, and run it by /usr/bin/python3; "
            f"or pip install {' '.join(missing)}")
