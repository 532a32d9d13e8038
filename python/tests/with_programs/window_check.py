"""Works the add-on in FreeCAD's own window as a user does, and writes what came of it.

    freecad python/tests/with_programs/window_check.py

The add-on is installed in FreeCAD's folder Mod. FOLDER has copies of the files of
python/tests/files that may be changed; TOLD names the file to write: one object of JSON with the
facts of each check by its name; PICTURES the folder in which a picture of the window is put for
each. What is expected stands in python/tests/test_freecad_window.py, which starts it on a screen of
its own, and ends it where it takes too long.

A dialogue that FreeCAD opens would wait for an answer: each is closed, and told as an error.
"""
import faulthandler
import json
import os
import sys
import time
import traceback
from pathlib import Path

import FreeCAD
import FreeCADGui
import numpy
from PySide import QtCore, QtGui
from pivy import coin

WIDTH, HEIGHT = 1500, 900
CLUSTER_COLOURS = (0.13, 0.40, 0.67), (0.84, 0.37, 0.00)
"""The colours of the first two clusters."""
FIRST = "SketcherWorkbench"
"""With what FreeCAD begins, as it is set."""
PLACE_MM = (10, 20, 30)
"""Where a sketch is laid that doesn't lie at the origin."""
SECONDS, PAUSE_MS = 30, 20
"""How long a condition may take to come, and how long it isn't looked at."""
STUCK_SECONDS = 420
"""After so long where Python is at is written to the standard error."""
COMMANDS = ("Judge", "Repair", "Complete", "Range", "Certify", "Construction")
TOLD, DIALOGUES = {}, []


def spin():
    """Has the window do what it has to."""
    for _ in range(2):
        QtGui.QApplication.processEvents()
        QtGui.QApplication.sendPostedEvents()


def wait(condition, what):
    """Has the window do what it has to, until a condition comes."""
    end = time.monotonic() + SECONDS
    while not condition():
        if time.monotonic() > end:
            raise AssertionError(f"{what} doesn't come within {SECONDS} s")
        spin()
        QtCore.QThread.msleep(PAUSE_MS)


def refuse_dialogues():
    """Closes a dialogue that waits for an answer, and notes what it says."""
    dialogue = QtGui.QApplication.activeModalWidget()
    if dialogue is not None:
        said = dialogue.text() if isinstance(dialogue, QtGui.QMessageBox) else ""
        DIALOGUES.append(f"{dialogue.windowTitle()}: {said}")
        dialogue.close()


def seen():
    """The window as the screen has it."""
    window = FreeCADGui.getMainWindow()
    return QtGui.QApplication.primaryScreen().grabWindow(window.winId()).toImage()


def picture(name):
    """The window as it is seen, once it stands still."""
    FreeCADGui.SendMsgToActiveView("ViewFit")
    for view in ("Report view", "Python console"):
        FreeCADGui.getMainWindow().findChild(QtGui.QDockWidget, view).hide()
    shots = [None, seen()]

    def stands_still():
        shots[:] = [shots[1], seen()]
        return shots[0] == shots[1]

    spin()
    wait(stands_still, f"the picture {name}")
    shots[1].save(os.path.join(os.environ["PICTURES"], name + ".png"))
    return shots[1]


def pixels_of(image, colour):
    """How many pixels of an image have a colour, to a tenth of its range."""
    image = image.convertToFormat(QtGui.QImage.Format_RGB32)
    bgr = numpy.frombuffer(image.constBits(), numpy.uint8).reshape(image.height(), -1, 4)[..., :3]
    away = abs(bgr / 255 - numpy.array(colour[2::-1]))
    return int((away < 0.1).all(axis=2).sum())


def opened(name):
    """The sketch of a file, open, seen and selected."""
    document = FreeCAD.openDocument(os.path.join(os.environ["FOLDER"], name + ".FCStd"))
    sketch = document.getObject("Sketch")
    sketch.ViewObject.Visibility = True
    document.recompute()
    FreeCADGui.Selection.clearSelection()
    FreeCADGui.Selection.addSelection(sketch)
    FreeCADGui.ActiveDocument.ActiveView.viewTop()
    spin()
    document.save()
    return sketch


def closed(sketch):
    """Closes the document, without asking."""
    FreeCADGui.getDocument(sketch.Document.Name).resetEdit()
    FreeCAD.closeDocument(sketch.Document.Name)
    spin()


def found(kind, name):
    """A widget of the panel."""
    return FreeCADGui.getMainWindow().findChild(kind, "Pertxogai" + name)


def text(name):
    """What a label or a text of the panel shows."""
    label = found(QtGui.QLabel, name)
    return label.text() if label is not None else found(QtGui.QPlainTextEdit, name).toPlainText()


def rows(name):
    """What a table of the panel shows."""
    table = found(QtGui.QTreeWidget, name)
    items = [table.topLevelItem(place) for place in range(table.topLevelItemCount())]
    return [[item.text(column) for column in range(table.columnCount())] for item in items]


def click_row(name, first):
    """Selects the row of a table that begins so."""
    table = found(QtGui.QTreeWidget, name)
    place = [row[0] for row in rows(name)].index(first)
    table.setCurrentItem(table.topLevelItem(place))
    spin()


def press(name):
    """Presses a button, and tells whether it could be."""
    button = found(QtGui.QPushButton, name)
    is_there = button.isEnabled()
    button.click()
    spin()
    return is_there


def run(command):
    """Runs a command of FreeCAD's."""
    FreeCADGui.runCommand("Pertxogai_" + command)
    spin()


def stored(sketch):
    """All that is stored of a sketch's constraints and shapes."""
    return [each.Content for each in [*sketch.Constraints, *sketch.Geometry]]


def selected():
    """What is selected within objects."""
    return [list(each.SubElementNames) for each in FreeCADGui.Selection.getSelectionEx()]


def check_workbench():
    """The workbench, its toolbar, menu and page of preferences."""
    document = FreeCAD.newDocument("none")
    bars = FreeCADGui.getMainWindow().findChildren(QtGui.QToolBar, "Pertxogai")
    menus = [each.text().replace("&", "") for each in
             FreeCADGui.getMainWindow().menuBar().actions()]
    page = FreeCADGui.UiLoader().load(os.path.join(
        os.path.dirname(os.path.realpath(os.environ["ADDON"] + "/InitGui.py")),
        "resources", "ui", "preferences.ui"))
    facts = {"name": FreeCADGui.activeWorkbench().name(),
             "buttons": [each.text() for each in bars[0].actions()], "menu": "Pertxogai" in menus,
             "active": FreeCADGui.Command.get("Pertxogai_Judge").isActive(),
             "preferences": sorted(each.objectName() for each in page.children()
                                   if each.property("prefEntry"))}
    FreeCAD.closeDocument(document.Name)
    return facts


def check_untouched():
    """No command changes a document: FreeCAD doesn't call it modified after any."""
    document = FreeCAD.openDocument(os.path.join(os.environ["FOLDER"], "plate.FCStd"))
    shown = FreeCADGui.getDocument(document.Name)
    FreeCADGui.Selection.clearSelection()
    FreeCADGui.Selection.addSelection(document.getObject("Sketch"))
    before = shown.Modified
    after = {}
    for command in COMMANDS:
        run(command)
        after[command] = shown.Modified
    FreeCAD.closeDocument(document.Name)
    return {"before": before, "after": after}


def check_judge():
    """A sketch that is selected and judged: nothing of it changes."""
    sketch = opened("twice")
    before = stored(sketch)
    run("Judge")
    facts = {"seen": found(QtGui.QDockWidget, "Panel").isVisible(), "headline": text("Headline"),
             "facts": text("Facts"), "rows": rows("Rows"), "told": text("Told"),
             "place": found(QtGui.QPushButton, "Place").isEnabled(),
             "same": stored(sketch) == before, "undo": list(sketch.Document.UndoNames)}
    picture("judge")
    click_row("Rows", "above")
    facts["selected"] = selected()
    closed(sketch)
    return facts


def check_repair():
    """While it is edited: a row selects its constraint, and the button removes it; undo."""
    sketch = opened("contradiction")
    before = stored(sketch)
    FreeCADGui.ActiveDocument.setEdit("Sketch")
    run("Repair")
    untouched = stored(sketch) == before
    facts = {"rows": rows("Candidates"), "before": found(QtGui.QPushButton, "Remove").isEnabled()}
    click_row("Candidates", "above")
    facts.update(selected=selected(), untouched=untouched)
    picture("repair")
    facts["pressed"] = press("Remove")
    facts.update(headline=text("Headline"), note=text("Note"), count=len(sketch.Constraints),
                 undo=list(sketch.Document.UndoNames), left=rows("Candidates")[0][0])
    picture("repaired")
    sketch.Document.undo()
    spin()
    facts.update(undone=stored(sketch) == before, stale=text("Note"))
    closed(sketch)
    return facts


def check_two_documents():
    """Another document comes to the front after Repair was asked: the button changes neither."""
    sketch = opened("contradiction")
    before = stored(sketch)
    run("Repair")
    click_row("Candidates", "above")
    other = opened("twice")
    press("Remove")
    facts = {"note": text("Note"), "same": stored(sketch) == before,
             "undo": list(other.Document.UndoNames)}
    FreeCAD.setActiveDocument("contradiction")
    press("Remove")
    facts.update(headline=text("Headline"), count=len(sketch.Constraints))
    closed(other)
    closed(sketch)
    return facts


def check_gone():
    """A shape, and then the document, goes while a construction is shown."""
    sketch = opened("plate")
    scene = FreeCADGui.ActiveDocument.ActiveView.getSceneGraph()
    children = scene.getNumChildren()
    run("Construction")
    sketch.delGeometry(5)
    spin()
    facts = {"left": scene.getNumChildren() - children, "note": text("Note")}
    run("Judge")
    facts["before"] = len(rows("Rows"))
    closed(sketch)
    facts.update(after=rows("Rows"), headline=text("Headline"))
    return facts


def check_complete():
    """What is missing is added by a button, and taken back by undo."""
    sketch = opened("plate-without-height")
    before = stored(sketch)
    run("Complete")
    facts = {"rows": [row[0] for row in rows("Proposals")], "untouched": stored(sketch) == before}
    picture("complete")
    facts["pressed"] = press("AddAll")
    facts.update(headline=text("Headline"), count=len(sketch.Constraints),
                 undo=list(sketch.Document.UndoNames))
    sketch.Document.undo()
    spin()
    facts["undone"] = stored(sketch) == before
    closed(sketch)
    return facts


def check_construction():
    """The steps over the sketch, which are gone with the panel."""
    sketch = opened("plate")
    before, scene = stored(sketch), FreeCADGui.ActiveDocument.ActiveView.getSceneGraph()
    children = scene.getNumChildren()
    run("Construction")
    slider = found(QtGui.QSlider, "Slider")
    facts = {"steps": slider.maximum(), "first": text("Step"),
             "drawn": scene.getNumChildren() - children}
    slider.setValue(4)
    picture("construction")
    press("Play")
    facts["plays"] = found(QtGui.QPushButton, "Play").text()
    found(QtGui.QDockWidget, "Panel").hide()
    spin()
    facts.update(left=scene.getNumChildren() - children, same=stored(sketch) == before)
    closed(sketch)
    return facts


def check_construction_lines():
    """Over a sketch that has nothing but construction lines, of which FreeCAD makes no shape."""
    sketch = opened("plate")
    for count in range(len(sketch.Geometry)):
        sketch.toggleConstruction(count)
    sketch.Document.recompute()
    scene = FreeCADGui.ActiveDocument.ActiveView.getSceneGraph()
    children = scene.getNumChildren()
    run("Construction")
    slider = found(QtGui.QSlider, "Slider")
    slider.setValue(slider.maximum())
    facts = {"edges": len(sketch.Shape.Edges), "steps": slider.maximum(), "last": text("Step"),
             "drawn": scene.getNumChildren() - children}
    closed(sketch)
    return facts


def check_construction_turned():
    """Over a sketch that lies elsewhere; and not where a spreadsheet is in front."""
    sketch = opened("plate")
    sketch.Placement = FreeCAD.Placement(
        FreeCAD.Vector(*PLACE_MM), FreeCAD.Rotation(FreeCAD.Vector(1, 0, 0), 90))
    sketch.Document.recompute()
    run("Construction")
    slider = found(QtGui.QSlider, "Slider")
    slider.setValue(slider.maximum())
    view = FreeCADGui.ActiveDocument.ActiveView
    measure = coin.SoGetBoundingBoxAction(coin.SbViewportRegion(WIDTH, HEIGHT))
    measure.apply(view.getSceneGraph().getChild(view.getSceneGraph().getNumChildren() - 1))
    box = measure.getBoundingBox()
    facts = {"least": list(box.getMin().getValue()), "most": list(box.getMax().getValue())}
    sheet = sketch.Document.addObject("Spreadsheet::Sheet", "Sheet")
    FreeCADGui.Selection.clearSelection()  # FreeCAD brings to the front what is selected.
    spin()
    sheet.ViewObject.doubleClicked()
    wait(lambda: not hasattr(FreeCADGui.ActiveDocument.ActiveView, "getSceneGraph"),
         "the spreadsheet's view")
    run("Construction")
    facts["sheet"] = text("Note")
    closed(sketch)
    return facts


def check_range_and_certify():
    """The range of the selected dimension, and a claim beside the document."""
    sketch = opened("plate")
    FreeCADGui.ActiveDocument.setEdit("Sketch")
    FreeCADGui.Selection.addSelection(sketch.Document.Name, "Sketch", "Constraint10")
    run("Range")
    facts = {"range": text("Ranges"), "note": text("Note")}
    picture("range")
    run("Certify")
    facts.update(claim=text("Claim").splitlines(), files=sorted(
        each.name for each in Path(os.environ["FOLDER"]).glob("plate-Sketch.*")))
    picture("certify")
    closed(sketch)
    return facts


def check_place():
    """Shapes are placed by a button, and come back by undo."""
    sketch = opened("link")
    FreeCADGui.ActiveDocument.setEdit("Sketch")
    before = stored(sketch)
    run("Judge")
    facts = {"pressed": press("Place"), "undo": list(sketch.Document.UndoNames),
             "solves": sketch.solve(), "fully": sketch.FullyConstrained}
    sketch.Document.undo()
    facts["undone"] = stored(sketch) == before
    closed(sketch)
    return facts


def check_clusters():
    """Two leaves of a hinge in two colours, while the button is pressed; the document has nothing
    of it."""
    document = FreeCAD.openDocument(os.path.join(os.environ["FOLDER"], "hinge.FCStd"))
    sketch, shown = document.getObject("Sketch"), FreeCADGui.getDocument(document.Name)
    FreeCADGui.Selection.clearSelection()
    FreeCADGui.Selection.addSelection(sketch)
    run("Judge")
    scene = shown.ActiveView.getSceneGraph()
    children, modified = [scene.getNumChildren()], [shown.Modified]
    press("Clusters")
    children.append(scene.getNumChildren())
    modified.append(shown.Modified)
    shown.ActiveView.viewTop()
    image = picture("clusters")
    facts = {"pixels": [pixels_of(image, colour) for colour in CLUSTER_COLOURS]}
    press("Clusters")
    children.append(scene.getNumChildren())
    modified.append(shown.Modified)
    facts.update(modified=modified, drawn=[each - children[0] for each in children])
    press("Clusters")
    closed(sketch)
    sketch = opened("plate")
    run("Judge")
    facts["next"] = text("Headline")
    closed(sketch)
    return facts


def check_nothing():
    """Without a sketch the panel says so."""
    document = FreeCAD.newDocument("none")
    from pertxogai_freecad.window.command_words import Word
    from pertxogai_freecad.window.panel import the_panel

    the_panel().do(Word.JUDGE)
    facts = {"note": text("Note")}
    FreeCAD.closeDocument(document.Name)
    return facts


CHECKS = (check_workbench, check_untouched, check_judge, check_repair, check_two_documents,
          check_complete,
          check_construction, check_construction_lines, check_construction_turned,
          check_range_and_certify, check_place,
          check_clusters, check_gone, check_nothing)


def main():
    """All of it, and the end."""
    window = FreeCADGui.getMainWindow()
    wait(window.isVisible, "FreeCAD's window")
    wait(lambda: FreeCADGui.activeWorkbench().name() == FIRST, FIRST)
    window.setGeometry(0, 0, WIDTH, HEIGHT)
    window.findChild(QtGui.QDockWidget, "Combo View").show()
    FreeCADGui.activateWorkbench("PertxogaiWorkbench")
    for check in CHECKS:
        name, began = check.__name__.removeprefix("check_"), time.monotonic()
        try:
            TOLD[name] = check()
        except Exception:
            TOLD[name] = {"error": traceback.format_exc()}
        print(f"{name}: {time.monotonic() - began:.1f} s", file=sys.__stderr__, flush=True)
    TOLD["dialogues"] = DIALOGUES
    Path(os.environ["TOLD"]).write_text(json.dumps(TOLD, indent=1))
    os._exit(0)


faulthandler.dump_traceback_later(STUCK_SECONDS, file=sys.__stderr__)
WATCH = QtCore.QTimer()
WATCH.timeout.connect(refuse_dialogues)
WATCH.start(500)
QtCore.QTimer.singleShot(0, main)
