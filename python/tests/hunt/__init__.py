"""A hunt for answers that aren't so.

Drawings are made by chance, with the geometry first and the dimensions read off it, so that what
is true of each is known: whether it is complete, open, says something twice, contradicts itself or
is impossible. What `judge` says of it is compared with that. Nothing here takes the package's own
reading, spelling or measure: `reading` and `rows` were written from python/DRAWING.md, in floats.
"""
