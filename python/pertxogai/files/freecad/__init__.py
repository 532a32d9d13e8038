"""FreeCAD's files, read and written without FreeCAD: versions 0.18 to 1.0.

A `.FCStd` is a zip; its `Document.xml` has each sketch's shapes and constraints. Lengths are
millimetres there, angles radians.
"""

from pertxogai.files.freecad.reading import read_freecad
from pertxogai.files.freecad.writing import write_freecad

__all__ = ["read_freecad", "write_freecad"]
