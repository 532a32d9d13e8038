"""FreeCAD's window runs this where the add-on is installed."""
from pertxogai_freecad.window.workbench import install

install()
