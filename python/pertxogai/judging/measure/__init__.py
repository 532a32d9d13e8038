"""Each of a designer's constraints, measured exactly on the printed whole numbers."""

from pertxogai.exact import Number
from pertxogai.judging.measure.deviation import Because, Deviation, Implied, Unit, greatest
from pertxogai.judging.measure.limit import Limit, amount_text, units_text
from pertxogai.judging.measure.measuring import Measurement, measure, measure_placed
from pertxogai.judging.measure.solution import Frame, MissingPlace, PointNm, Solution

__all__ = ["Because", "Deviation", "Frame", "Implied", "Limit", "Measurement", "MissingPlace",
           "Number", "PointNm", "Solution", "Unit", "amount_text", "greatest", "measure",
           "measure_placed", "units_text"]
