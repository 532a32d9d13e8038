"""SolveSpace's files, read and written without SolveSpace: version 3, sketches in a plane. A
`.slvs` is a text of groups, numbers, requests (what was drawn), entities (what was made of them)
and constraints, one field in a line. Lengths are millimetres there, angles degrees."""

from pertxogai.files.solvespace.reading import read_solvespace
from pertxogai.files.solvespace.writing import write_solvespace

__all__ = ["read_solvespace", "write_solvespace"]
