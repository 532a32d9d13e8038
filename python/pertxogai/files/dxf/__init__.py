"""A DXF drawing, which has positions and no constraints, as a drawing that can be dimensioned."""

from pertxogai.files.dxf.joining import Outline
from pertxogai.files.dxf.reading import TOLERANCE_UM, read_outline

__all__ = ["Outline", "TOLERANCE_UM", "read_outline"]
