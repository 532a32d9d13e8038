"""Pertxogai at home in FreeCAD: what its commands do, without a window. The window's own modules
lie in `window`, and only show what these find."""
