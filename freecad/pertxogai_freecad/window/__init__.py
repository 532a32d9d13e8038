"""What FreeCAD's window shows: the workbench, its commands, and the panel. Nothing here asks the
program or changes a document but by the modules beside this folder."""
