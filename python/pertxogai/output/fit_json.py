"""What is told of what must fit, as objects for JSON: lengths in mm, angles in degrees."""
from __future__ import annotations

from fractions import Fraction
from typing import TypedDict

from pertxogai.drawing import Drawing
from pertxogai.fitting import Answer, CheckedFit, Fit, NoFit, Range, Share, UnknownFit
from pertxogai.fitting.toleranced import MILLIONTHS, Toleranced
from pertxogai.output.fit_text import unit_of


class RangeJson(TypedDict):
    """From the least to the greatest."""

    least: float
    greatest: float


class SquaresJson(RangeJson):
    """The root sum square, and whether it lies within the limits; null where there are none."""

    fits: bool | None


class WorstJson(RangeJson):
    """The worst case that was placed. fits: null where it isn't known, and where the check has no
    limits. monotone: whether the check
    is in each dimension, wherever that was tried; not_monotone_in: the dimensions in which it
    isn't. reckoned: from the single effects, by numbers, where it isn't monotone."""

    fits: bool | None
    monotone: bool
    not_monotone_in: list[str]
    reckoned: RangeJson | None


class DimensionJson(TypedDict):
    """A dimension with a tolerance, and what it gives to a check. per_unit: null where the check
    turns round."""

    number: int
    name: str
    words: str
    unit: str
    below: float
    above: float
    general: bool
    per_unit: float | None
    gives: float
    part: float
    part_of_squares: float


class CheckJson(TypedDict):
    """What comes of one check. why: why nothing is known of it; null where something is."""

    name: str
    line: str
    unit: str
    why: str | None
    low: float | None
    high: float | None
    nominal: float | None
    worst: WorstJson | None
    by_squares: SquaresJson | None
    dimensions: list[DimensionJson]
    tighten_first: str | None
    tighten_to: float | None


class FitJson(TypedDict):
    """What comes of the checks of a drawing. fits: null where it isn't known, and where no check
    has limits. why: why nothing is known at all. unplaced: which cases can't be placed, and why;
    between: those of which both cases beside them can. exact: the dimensions without a tolerance;
    idle: those whose tolerance moves no check."""

    name: str
    fits: bool | None
    why: list[str]
    placements: int
    unplaced: list[str]
    between: list[str]
    exact: list[str]
    idle: list[str]
    checks: list[CheckJson]


def fit_json(name: str, found: Fit | NoFit) -> FitJson:
    """What comes of the checks of a drawing of that name."""
    if isinstance(found, NoFit):
        return {"name": name, "fits": None, "why": list(found.why), "placements": 0,
                "unplaced": [], "between": [], "exact": [], "idle": [], "checks": []}
    called = found.drawing.called
    has_limits = any(each.check.has_limits for each in found.checks)
    return {"name": name, "fits": found.answer.value if has_limits else None, "why": [],
            "placements": found.placements,
            "unplaced": list(found.unplaced), "between": list(found.between),
            "exact": [*map(called, found.dimensions.exact)],
            "idle": [called(each.number) for each in found.idle],
            "checks": [check_json(found.drawing, each) for each in found.checks]}


def check_json(drawing: Drawing, found: CheckedFit | UnknownFit) -> CheckJson:
    """What comes of one check of a drawing."""
    if isinstance(found, UnknownFit):
        return {"name": found.check.name, "line": found.check.line(),
                "unit": "deg" if found.check.is_angle else "mm", "why": found.why, "low": None,
                "high": None, "nominal": None, "worst": None, "by_squares": None,
                "dimensions": [], "tighten_first": None, "tighten_to": None}
    squares = found.by_squares
    first = found.shares[0].dimension if found.shares else None
    is_asked = found.check.has_limits and found.answer is not Answer.FITS
    to_tighten = first if is_asked else None
    return {
        "name": found.check.name, "line": found.check.line(), "unit": unit_of(found), "why": None,
        "low": _optional(found.low), "high": _optional(found.high),
        "nominal": _number(found.nominal), "worst": _worst(drawing, found),
        "by_squares": (None if squares is None
                       else {"least": _number(squares.least), "greatest": _number(squares.greatest),
                             "fits": found.fits_by_squares if found.check.has_limits else None}),
        "dimensions": [_dimension(drawing, each) for each in found.shares],
        "tighten_first": drawing.called(to_tighten.number) if to_tighten else None,
        "tighten_to": (None if to_tighten is None or found.tightened is None
                       else float(found.tightened * _unit(to_tighten)))}


def _worst(drawing: Drawing, found: CheckedFit) -> WorstJson:
    return {"least": _number(found.placed.least), "greatest": _number(found.placed.greatest),
            "fits": found.answer.value if found.check.has_limits else None,
            "monotone": found.worst.is_one_way,
            "not_monotone_in": [drawing.called(it) for it in found.turning_numbers],
            "reckoned": _range(found.reckoned) if found.worst.turning else None}


def _dimension(drawing: Drawing, share: Share) -> DimensionJson:
    dimension, unit = share.dimension, _unit(share.dimension)
    number = dimension.number
    return {"number": number, "name": drawing.called(number),
            "words": drawing.wordings[number - 1], "unit": "deg" if dimension.is_angle else "mm",
            "below": float(dimension.below * unit), "above": float(dimension.above * unit),
            "general": dimension.is_general, "per_unit": share.per_unit,
            "gives": _number(share.gives), "part": share.part,
            "part_of_squares": share.part_of_squares}


def _unit(dimension: Toleranced) -> Fraction:
    """What a tolerance is multiplied by to be told in mm or degrees."""
    return Fraction(1) if dimension.is_angle else Fraction(1, 1000)


def _range(found: Range) -> RangeJson:
    return {"least": _number(found.least), "greatest": _number(found.greatest)}


def _number(millionths: int | Fraction) -> float:
    return float(Fraction(millionths, MILLIONTHS))


def _optional(millionths: Fraction | None) -> float | None:
    return None if millionths is None else _number(millionths)
