"""What is told of what must fit, in lines to read."""
from __future__ import annotations

from collections import Counter
from collections.abc import Iterator, Sequence
from fractions import Fraction

from pertxogai.drawing import Drawing
from pertxogai.fitting import Answer, CheckedFit, Fit, NoFit, Range, Share, UnknownFit
from pertxogai.fitting.toleranced import MILLIONTHS, Toleranced
from pertxogai.judging.naming import listed

MOST_SHARES = 8
"""Of this number of dimensions at most it is told what they give, those that give most."""
MOST_NAMED = 3
"""A line names at most this number of dimensions or cases."""
LITTLE = 1000
"""What is beyond a limit by fewer millionths is told in nanometres, or to a millionth of a
degree."""
PLACES = 4
"""A number has at most this number of digits behind the point."""
WHOSE = (
    "worst case: the worst of the placed cases. No other case is worse if the check is monotone",
    "in each dimension, which was sampled, not proved.",
    "root sum square: calculated from the effects of single dimensions.")
"""How the numbers of a check were found."""
SURE = {Answer.FITS: "fits", Answer.BEYOND: "",
        Answer.UNSURE: "all placed cases fit, but another may not"}
UNLIMITED = {Answer.FITS: "", Answer.BEYOND: "",
             Answer.UNSURE: "of the placed cases, but another may be beyond it"}
"""The same of a check without limits."""
ONE = {Answer.FITS: "it fits in the worst case", Answer.BEYOND: "it doesn't fit in the worst case",
       Answer.UNSURE: "it isn't known whether it fits in the worst case"}


def fit_lines(name: str, found: Fit | NoFit) -> Iterator[str]:
    """What comes of the checks of a drawing of that name, or why nothing does, in lines."""
    if isinstance(found, NoFit):
        yield from (f"{name}: {each}" for each in found.why)
        return
    yield f"{name}: {_summary(found)}"
    for each in found.checks:
        yield f"  {each.check.name}: {each.check.words()}"
        yield from (f"    {line}" for line in check_lines(found.drawing, each))
        if isinstance(each, CheckedFit):
            yield from (f"    {line}" for line in _share_lines(found.drawing, each))
    yield from _lines_of_all(found)
    yield f"  the program placed {_count(found.placements, 'case')}; each check was measured there"
    yield from (f"  {line}" for line in WHOSE)


def _summary(found: Fit) -> str:
    count, exact = len(found.checks), len(found.dimensions.exact)
    said = _answer(found.checks[0]) if count == 1 else _answers(found)
    if found.unplaced and _all_fit(found):
        said += " where the part can be placed"
    counts = f", {exact} without one {'counts' if exact == 1 else 'count'} as exact" * bool(exact)
    return (f"{_count(count, 'check')}, {said}; "
            f"{_count(len(found.dimensions.toleranced), 'dimension')} with a tolerance{counts}")


def _all_fit(found: Fit) -> bool:
    """Whether all checks with limits fit, of which there are some."""
    limited = [each for each in found.checks if each.check.has_limits]
    return bool(limited) and all(each.answer is Answer.FITS for each in found.checks)


def _answer(found: CheckedFit | UnknownFit) -> str:
    """Whether the one check fits."""
    return ONE[found.answer] if found.check.has_limits else "it has no limits"


def _answers(found: Fit) -> str:
    """How many checks fit, how many don't, of how many it isn't known, and how many have no
    limits."""
    numbers = Counter(each.answer for each in found.checks if each.check.has_limits)
    fits, beyond, unsure = (numbers[each] for each in (Answer.FITS, Answer.BEYOND, Answer.UNSURE))
    free = len(found.checks) - fits - beyond - unsure
    if fits == len(found.checks):
        return "all fit in the worst case"
    if free == len(found.checks):
        return "none has limits"
    parts = [f"{fits or 'none'} fit{'' if fits > 1 else 's'} in the worst case"]
    parts += [f"{beyond} {'do' if beyond > 1 else 'does'}n't"] * bool(beyond)
    parts += [f"of {unsure} it isn't known"] * bool(unsure)
    parts += [f"{free} {'have' if free > 1 else 'has'} no limits"] * bool(free)
    return ", ".join(parts)


def check_lines(drawing: Drawing, found: CheckedFit | UnknownFit) -> Iterator[str]:
    """What comes of a check but for what single dimensions give, in lines."""
    if isinstance(found, UnknownFit):
        yield f"not known: {found.why}"
        return
    unit, squares, has_limits = unit_of(found), found.by_squares, found.check.has_limits
    sure = (SURE if has_limits else UNLIMITED)[found.answer]
    yield f"nominal          {number_text(found.nominal)} {unit}"
    yield f"worst case       {_range(found.placed, unit)}{_told(found.placed, found, sure)}"
    if squares is not None:
        fits = "fits" if has_limits else ""
        yield f"root sum square  {_range(squares, unit)}{_told(squares, found, fits)}"
    else:
        yield f"root sum square  not given, because {_without_squares(found)}"
    if found.worst.turning:
        named = _named(drawing, found.turning_numbers)
        yield f"at the worst case the check isn't monotone in {named}"
        yield f"by numbers, from the effects of single dimensions: {_range(found.reckoned, unit)}"
    if not found.shares:
        yield "no single dimension changes it"


def _without_squares(found: CheckedFit) -> str:
    """Why no root sum square is given."""
    if found.worst.turning:
        return "the check isn't monotone"
    return ("the segments tilt" if found.tilts else
            "the dimensions change it more together than each by itself")


def _told(ranged: Range, of: CheckedFit, sure: str) -> str:
    """What is said behind a range: by how much it is beyond the limits, else what is sure of
    it."""
    said = _beyond(ranged, of) or sure
    return f": {said}" if said else ""


def _share_lines(drawing: Drawing, found: CheckedFit) -> Iterator[str]:
    """What single dimensions give, and which to tighten first."""
    unit = unit_of(found)
    yield from (_share_text(drawing, share, unit) for share in found.shares[:MOST_SHARES])
    if len(found.shares) > MOST_SHARES:
        yield f"and {len(found.shares) - MOST_SHARES} more, each as much or less"
    if found.shares and found.check.has_limits and found.answer is not Answer.FITS:
        first = found.shares[0].dimension
        yield f"tighten first: {words_of_dimension(drawing, first)}{_to(found)}"


def _lines_of_all(found: Fit) -> Iterator[str]:
    """What is told beside the checks: which cases have no places, and what moves no check."""
    yield from (f"  {line}" for line in case_lines(found))
    if found.idle:
        words = [f"{words_of_dimension(found.drawing, each)}{_general(each)}"
                 for each in found.idle]
        more = [f"{len(words) - MOST_SHARES} more"] if len(words) > MOST_SHARES else []
        yield f"  these alone change no check: {', '.join(words[:MOST_SHARES] + more)}"


def case_lines(found: Fit) -> Iterator[str]:
    """Which cases can't be placed, and how exactly the others are, in lines."""
    yield from _cases("some parts within tolerance can't be placed", found.unplaced)
    yield from _cases("a case that can't be placed, between two that can", found.between)
    if found.loose_nm:
        yield (f"the constraints are met within {found.loose_nm} nm in these cases, and no check is"
               " more exact")


def _cases(said: str, cases: Sequence[str]) -> Iterator[str]:
    """A few cases with what is said of them, and how many more there are."""
    yield from (f"{said}: {why}" for why in cases[:MOST_NAMED])
    if len(cases) > MOST_NAMED:
        yield f"and {len(cases) - MOST_NAMED} more such cases"


def _to(found: CheckedFit) -> str:
    """To which tolerance the first dimension would have to be tightened, where it alone is
    enough."""
    if found.tightened is None:
        return ""
    unit, mark = _unit(found.shares[0].dimension)
    tighter = f"+-{rounded(float(found.tightened * unit))}{mark}"
    return f"; tightened alone to {tighter} it is enough, as placed"


def _beyond(ranged: Range, of: CheckedFit) -> str:
    """By how much a range lies beyond the limits; nothing where it doesn't."""
    beyond = []
    low, high = of.allowed
    if low is not None and ranged.least < low - of.noise:
        beyond.append(f"{_amount(low - ranged.least, of)} too small")
    if high is not None and ranged.greatest > high + of.noise:
        beyond.append(f"{_amount(ranged.greatest - high, of)} too large")
    return " and ".join(beyond)


def _amount(millionths: Fraction, of: CheckedFit) -> str:
    if millionths >= LITTLE:
        return number_text(millionths)
    if of.check.is_angle:
        return f"{float(millionths / MILLIONTHS):.6f}"
    return f"{round(millionths)} nm"


def unit_of(found: CheckedFit) -> str:
    """The unit of a check."""
    return "deg" if found.check.is_angle else "mm"


def _range(ranged: Range, unit: str) -> str:
    return f"{number_text(ranged.least)} to {number_text(ranged.greatest)} {unit}"


def _named(drawing: Drawing, numbers: Sequence[int]) -> str:
    """Dimensions by their places, or how many where they are many."""
    if len(numbers) > MOST_NAMED:
        return f"{len(numbers)} dimensions"
    return listed(map(drawing.called, numbers))


def _share_text(drawing: Drawing, share: Share, unit: str) -> str:
    of = "deg" if share.dimension.is_angle else "mm"
    per = ("not monotone" if share.per_unit is None
           else f"{rounded(share.per_unit)} {unit} per {of}")
    return (f"{100 * share.part:5.1f} %, +-{number_text(share.gives)} {unit}: "
            f"{words_of_dimension(drawing, share.dimension)}{_general(share.dimension)} ({per})")


def _general(dimension: Toleranced) -> str:
    """The general tolerance of a dimension, where it has that."""
    return f" ({tolerance_text(dimension)} by class)" if dimension.is_general else ""


def words_of_dimension(drawing: Drawing, dimension: Toleranced) -> str:
    """A dimension by its name, where it has one, and by its words."""
    number = dimension.number
    name, words = drawing.constraints[number - 1].name, drawing.wordings[number - 1]
    return words if name is None else f"{name} ({words})"


def tolerance_text(dimension: Toleranced) -> str:
    """A tolerance as it is written."""
    unit, mark = _unit(dimension)
    if dimension.below == dimension.above:
        return f"+-{rounded(float(dimension.above * unit))}{mark}"
    ends = (float(dimension.above * unit), float(-dimension.below * unit))
    above, below = (f"{'-' if end < 0 or end == 0 and place else '+'}{rounded(abs(end))}{mark}"
                    for place, end in enumerate(ends))
    return above + below


def _unit(dimension: Toleranced) -> tuple[Fraction, str]:
    """What a tolerance is multiplied by to be told, and what stands behind it."""
    return (Fraction(1), "deg") if dimension.is_angle else (Fraction(1, 1000), "")


def number_text(millionths: int | Fraction) -> str:
    """A number of millimetres or degrees, without its unit."""
    return rounded(float(Fraction(millionths, MILLIONTHS)))


def rounded(number: float) -> str:
    """A number to the last digit that is told."""
    shown = f"{number:.{PLACES}f}".rstrip("0").rstrip(".")
    return "0" if shown == "-0" else shown


def _count(number: int, what: str) -> str:
    return f"{number} {what}{'' if number == 1 else 's'}"
