"""How a sheet is filled: its points and tracks, the angles, the heights, and what is told twice.

A `Layout` has what is written so far; each module writes its share on it.
"""
