"""How a drawing is encoded in the sketch language: once for each style, with the constraints that
each line stands for. A drawing goes in; sketches of the language come out. Which of them is fully
constrained, the program says."""
from typing import TYPE_CHECKING

from pertxogai.spelling.axes import Axes
from pertxogai.spelling.interpretation import Interpretation
from pertxogai.spelling.rails import Rails
from pertxogai.spelling.reading import READINGS, Reading, axes_of, axes_said, readings, spell
from pertxogai.spelling.spelled import Care, Spelled
from pertxogai.spelling.style import Style
from pertxogai.spelling.writing import written

__all__ = ["Axes", "Care", "Interpretation", "READINGS", "Rails", "Reading", "Spelled", "Style",
           "axes_of", "axes_said", "readings", "spell", "written"]

if not TYPE_CHECKING:
    from pertxogai._former import former_names

    __getattr__ = former_names("spelling")
