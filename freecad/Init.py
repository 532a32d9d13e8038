"""FreeCAD runs this where the add-on is installed, with a window and without; the folder of the
add-on is on Python's path already, so nothing is to be done."""
