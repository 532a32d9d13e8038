"""Does the work of each command of the add-on in FreeCAD's console, and writes what came of it.

    freecadcmd python/tests/with_programs/addon_check.py

The add-on is installed in FreeCAD's folder Mod. FOLDER has copies of the files of
python/tests/files that may be changed; TOLD names the file to write: one object of JSON with the
facts of each check by its name. What is expected stands in python/tests/test_freecad_commands.py.
"""
import json
import os
import resource
import tempfile
import traceback
from pathlib import Path

import FreeCAD
import Part
import Sketcher
from pertxogai_freecad.home import find_package, find_program, limit_of
from pertxogai_freecad.settings import Settings
from pertxogai_freecad.trouble import Trouble

SETTINGS = Settings()
find_package(SETTINGS)
from pertxogai_freecad.certifying import certify  # noqa: E402
from pertxogai_freecad.changes import place  # noqa: E402
from pertxogai_freecad.completing import Proposed  # noqa: E402
from pertxogai_freecad.constructing import construct  # noqa: E402
from pertxogai_freecad.following import followers  # noqa: E402
from pertxogai_freecad.judging import judge_sketch  # noqa: E402
from pertxogai_freecad.ranging import ranges  # noqa: E402
from pertxogai_freecad.repairing import Repair  # noqa: E402
from pertxogai_freecad.sketches import read_sketch, stored_of, write_copy  # noqa: E402

ARCS, END = (0, 1), 2
"""The numbers of two arcs of the link, and of a shape's end."""
RING, TAIL, START = 0, 1, 1
"""The numbers of the circle and of the line that touches it of tangent-forms, and of a start."""
WIDTH, HEIGHT, HOLE = 9, 10, 11
"""The numbers of three dimensions of the plate, from 0: that of a hole is its radius."""
FLOOR, BELOW = 0, 9
"""The numbers of a plate's lower edge, and of its width there."""
RIGHT, LEFT = 1, 3
"""The numbers of a plate's upright edges."""
HOLE_SHAPE, CENTRE = 5, 3
"""The numbers of a plate's second hole, and of a centre."""
OUTER = -3
"""The number of the first outer shape."""
PROGRAM, LIMIT = find_program(SETTINGS), limit_of(SETTINGS)


def opened(name):
    """The sketch of a file, in a document that can undo."""
    document = FreeCAD.openDocument(os.path.join(os.environ["FOLDER"], name + ".FCStd"))
    document.UndoMode = 1
    return document.getObject("Sketch")


def judged(sketch):
    """A sketch of an open document, judged."""
    return judge_sketch(read_sketch(sketch), PROGRAM, LIMIT)


def trouble_of(act):
    """The line of the trouble that something meets; None where it meets none."""
    try:
        act()
    except Trouble as trouble:
        return str(trouble)
    return None


def freecad_says(sketch):
    """What FreeCAD's own solver says."""
    return [sketch.solve(), sketch.FullyConstrained]


def check_judge():
    """What is told of a plate with two holes, of one with an ellipse, and of one that is open."""
    for name in ("plate", "ellipse", "plate-without-height"):
        sketch = opened(name)
        before = stored_of(sketch)
        found = judged(sketch)
        yield name, {
            "headline": found.headline(), "freedoms": found.freedoms(),
            "tolerance": found.tolerance(), "good": not isinstance(found.good, Exception),
            "rows": [[row.index, row.name, row.says, row.off, row.standing.value]
                     for row in found.rows()],
            "unchanged": stored_of(sketch) == before, "undo": sketch.Document.UndoNames,
            "file": os.path.basename(sketch.Document.FileName)}
        FreeCAD.closeDocument(sketch.Document.Name)


def check_repair():
    """A width too many, of another that agrees and of one that doesn't: taken away, and undone."""
    for name in ("twice", "contradiction"):
        sketch = opened(name)
        before, document = stored_of(sketch), sketch.Document
        repair = Repair.of(judged(sketch))
        told = {each.name: [each.standing.value, each.off, each.rest, each.by.value]
                for each in repair.candidates}
        untouched = stored_of(sketch) == before
        (above,) = (each for each in repair.candidates if each.name == "above")
        wrong = trouble_of(lambda: repair.take_away(0))
        repair.take_away(above.index)
        stale = trouble_of(lambda: repair.take_away(above.index))
        names = [each.Name for each in sketch.Constraints]
        after = judged(sketch)
        says, undo = freecad_says(sketch), list(document.UndoNames)
        document.undo()
        yield name, {"told": told, "untouched": untouched, "wrong": wrong, "stale": stale,
                     "left": [len(names), "above" in names], "says": says, "undo": undo,
                     "then": after.headline(), "undone": stored_of(sketch) == before}
        FreeCAD.closeDocument(document.Name)


def check_repair_moves():
    """The width that is left isn't the drawn one, so the shapes move, and come back by one step of
    undo. That a constraint was hidden since doesn't matter."""
    sketch = opened("contradiction")
    sketch.Document.recompute()
    before, widths = stored_of(sketch), [sketch.getPoint(FLOOR, END).x]
    repair = Repair.of(judged(sketch))
    sketch.setVirtualSpace(BELOW, True)
    repair.take_away(BELOW)
    widths.append(sketch.getPoint(FLOOR, END).x)
    sketch.Document.undo()
    widths.append(sketch.getPoint(FLOOR, END).x)
    yield "width", {"widths": [round(each, 6) for each in widths],
                    "undone": stored_of(sketch) == before}
    FreeCAD.closeDocument(sketch.Document.Name)


def check_repair_followed():
    """A width that a height, a box and a cell of a spreadsheet follow from stays."""
    sketch = opened("contradiction")
    document = sketch.Document
    sketch.setExpression(f"Constraints[{HEIGHT}]", "Constraints.above * 2 / 3")
    document.addObject("Part::Box", "Box").setExpression("Length", "Sketch.Constraints.above")
    document.addObject("Spreadsheet::Sheet", "Sheet").set("A1", "=Sketch.Constraints.above")
    other = document.addObject("Sketcher::SketchObject", "Other")
    other.addGeometry(Part.LineSegment(FreeCAD.Vector(0, 0, 0), FreeCAD.Vector(5, 0, 0)))
    other.addConstraint(Sketcher.Constraint("Distance", 0, 5.0))
    other.renameConstraint(0, "below")
    other.addConstraint(Sketcher.Constraint("DistanceX", 0, 1, 4.0))
    other.setExpression("Constraints[1]", "Constraints.below * 2")
    before = stored_of(sketch)
    repair = Repair.of(judged(sketch))
    stays = {each.name: each.stays() for each in repair.candidates}
    (above,) = (each for each in repair.candidates if each.name == "above")
    yield "width", {"stays": stays, "trouble": trouble_of(lambda: repair.take_away(above.index)),
                    "same": stored_of(sketch) == before}
    FreeCAD.closeDocument(document.Name)


def check_repair_linked():
    """A width that a box and a cell of another document follow from stays; others of that document
    follow from a sketch of their own, of the same name."""
    sketch = opened("contradiction")
    document, other = sketch.Document, FreeCAD.newDocument("other")
    sketch.setExpression(f"Constraints[{HEIGHT}]", "_self.Constraints.below * 2 / 3")
    own = other.addObject("Sketcher::SketchObject", "Sketch")
    own.addGeometry(Part.LineSegment(FreeCAD.Vector(0, 0, 0), FreeCAD.Vector(5, 0, 0)))
    own.addConstraint(Sketcher.Constraint("Distance", 0, 5.0))
    own.renameConstraint(0, "above")
    other.saveAs(os.path.join(os.environ["FOLDER"], "other.FCStd"))  # Else FreeCAD links nothing.
    other.addObject("Part::Box", "Box").setExpression(
        "Length", "contradiction#Sketch.Constraints.above")
    other.addObject("Part::Box", "Own").setExpression("Length", "Sketch.Constraints.above")
    other.addObject("Spreadsheet::Sheet", "Sheet").set(
        "A1", "=<<contradiction>>#<<Sketch>>.Constraints.above")
    numbers = {each.Name: index for index, each in enumerate(sketch.Constraints)}
    yield "width", {name: followers(sketch, numbers[name]) for name in ("above", "below")}
    os.remove(other.FileName)
    FreeCAD.closeDocument(other.Name)
    yield "alone", {name: followers(sketch, numbers[name]) for name in ("above", "below")}
    FreeCAD.closeDocument(document.Name)


def check_repair_in_part():
    """A point that is told again to lie on the circle on which a tangency at an end has it."""
    sketch = opened("tangent-forms")
    sketch.addConstraint(Sketcher.Constraint("PointOnObject", TAIL, START, RING))
    repair = Repair.of(judged(sketch))
    told = {each.name: [each.standing.value, each.off, each.rest, each.by.value]
            for each in repair.candidates}
    (tangency,) = (each for each in repair.candidates if each.name == "Constraint3")
    repair.take_away(tangency.index)
    yield "tangency", {"told": told, "then": judged(sketch).headline()}
    FreeCAD.closeDocument(sketch.Document.Name)


def check_repair_opening():
    """Beside the two widths a second height, and equal upright sides: three are too many."""
    sketch = opened("contradiction")
    sketch.addConstraint(Sketcher.Constraint("DistanceY", LEFT, END, LEFT, START, 40.0))
    sketch.addConstraint(Sketcher.Constraint("Equal", RIGHT, LEFT))
    repair = Repair.of(judged(sketch))
    yield "corner", {"rest": [[each.name, each.rest] for each in repair.candidates]}
    FreeCAD.closeDocument(sketch.Document.Name)


def check_repair_not_good():
    """A disc of 5 mm, and a ring of 0.05 mm that touches it from outside, its centre 4.95 away."""
    document = FreeCAD.newDocument()
    sketch = document.addObject("Sketcher::SketchObject", "Sketch")
    for at, radius in ((0, 5), (5.05, 0.05)):
        circle = Part.Circle(FreeCAD.Vector(at, 0, 0), FreeCAD.Vector(0, 0, 1), radius)
        sketch.addGeometry(circle, False)
    for said in (("Coincident", 0, CENTRE, -1, START), ("Radius", 0, 5.0),
                 ("PointOnObject", 1, CENTRE, -1), ("Tangent", 1, 0),
                 ("Distance", 1, CENTRE, -1, START, 4.95), ("Radius", 1, 0.05)):
        sketch.addConstraint(Sketcher.Constraint(*said))
    repair = Repair.of(judged(sketch))
    yield "ring", {"rest": {each.name: each.rest for each in repair.candidates}}
    FreeCAD.closeDocument(document.Name)


def check_complete_moved():
    """A shape that was drawn since: what is proposed isn't added."""
    sketch = opened("plate-without-height")
    proposed = Proposed.of(read_sketch(sketch), PROGRAM, LIMIT)
    sketch.addGeometry(Part.Point(FreeCAD.Vector(5, 5, 0)))
    before = stored_of(sketch)
    yield "shape", {"stale": trouble_of(proposed.take_all), "same": stored_of(sketch) == before}
    FreeCAD.closeDocument(sketch.Document.Name)


def check_complete():
    """What lacks one dimension, and what lacks more: taken one by one, or all; and undone."""
    for name in ("plate-without-height", "hinge", "plate-with-loose-hole"):
        sketch = opened(name)
        before, document = stored_of(sketch), sketch.Document
        proposed = Proposed.of(read_sketch(sketch), PROGRAM, LIMIT)
        untouched = stored_of(sketch) == before
        proposed.take([0])
        one = len(sketch.Constraints) - len(before[0])
        stale = trouble_of(proposed.take_all)
        document.undo()
        Proposed.of(read_sketch(sketch), PROGRAM, LIMIT).take_all()
        added = len(sketch.Constraints) - len(before[0])
        says, undo = freecad_says(sketch), list(document.UndoNames)
        after = judged(sketch).headline()
        document.undo()
        yield name, {"lines": [each.line() for each in proposed.proposals], "one": one,
                     "stale": stale, "untouched": untouched, "added": added, "says": says,
                     "undo": undo, "then": after, "undone": stored_of(sketch) == before}
        FreeCAD.closeDocument(document.Name)


def check_complete_two():
    """A plate without its two sizes: both taken in one step, and undone at once."""
    sketch = opened("plate")
    document = sketch.Document
    for number in (HEIGHT, WIDTH):
        sketch.delConstraint(number)
    before, known = stored_of(sketch), len(document.UndoNames)
    proposed = Proposed.of(read_sketch(sketch), PROGRAM, LIMIT)
    proposed.take_all()
    added, says = len(sketch.Constraints) - len(before[0]), freecad_says(sketch)
    after, steps = judged(sketch).headline(), len(document.UndoNames) - known
    document.undo()
    yield "plate", {"proposed": len(proposed.proposals), "added": added, "says": says,
                    "then": after, "steps": steps, "undone": stored_of(sketch) == before}
    FreeCAD.closeDocument(document.Name)


def check_complete_nothing():
    """What lacks nothing."""
    sketch = opened("plate")
    proposed = Proposed.of(read_sketch(sketch), PROGRAM, LIMIT)
    yield "plate", {"lines": list(proposed.lines()), "take": trouble_of(proposed.take_all)}
    FreeCAD.closeDocument(sketch.Document.Name)


def check_place():
    """A link of arcs, placed, and taken back."""
    sketch = opened("link")
    sketch.Document.recompute()
    document, before = sketch.Document, stored_of(sketch)
    ends = [sketch.getPoint(curve, END) for curve in ARCS]
    found = judged(sketch)
    place(found.read, found.good)
    moved = max(old.distanceToPoint(sketch.getPoint(curve, END)) for old, curve in zip(ends, ARCS))
    says, undo = freecad_says(sketch), list(document.UndoNames)
    stale = trouble_of(lambda: place(found.read, found.good))
    document.undo()
    yield "link", {"moved_nm": moved * 1e6, "says": says, "undo": undo,
                   "stale": stale, "undone": stored_of(sketch) == before}
    FreeCAD.closeDocument(document.Name)


def check_place_rough():
    """A plate that is drawn half a millimetre off, placed without FreeCAD's own solver."""
    sketch = opened("plate")
    rough = list(sketch.Geometry)
    rough[FLOOR].EndPoint = FreeCAD.Vector(60.4, -0.3, 0)
    rough[HOLE_SHAPE].Center, rough[HOLE_SHAPE].Radius = FreeCAD.Vector(44.7, 20.2, 0), 5.3
    sketch.Geometry = rough
    found = judged(sketch)
    sketch.Document.RecomputesFrozen = True
    place(found.read, found.good)
    ends = [sketch.getPoint(FLOOR, END), sketch.getPoint(HOLE_SHAPE, CENTRE)]
    yield "plate", {"ends": [[each.x, each.y] for each in ends],
                    "radius": sketch.Geometry[HOLE_SHAPE].Radius}
    FreeCAD.closeDocument(sketch.Document.Name)


def check_complete_outer():
    """An edge of a box that the sketch has lies elsewhere since: what is proposed isn't added."""
    document = FreeCAD.newDocument("outer")
    box = document.addObject("Part::Box", "Box")
    box.Length = 60
    sketch = document.addObject("Sketcher::SketchObject", "Sketch")
    document.recompute()
    sketch.addExternal("Box", "Edge9")
    sketch.addGeometry(Part.LineSegment(FreeCAD.Vector(0, 0, 0), FreeCAD.Vector(30, 20, 0)))
    sketch.addConstraint(Sketcher.Constraint("Coincident", 0, START, OUTER, END))
    document.recompute()
    proposed = Proposed.of(read_sketch(sketch), PROGRAM, LIMIT)
    box.Length = 80
    document.recompute()
    before = stored_of(sketch)
    yield "edge", {"proposed": len(proposed.proposals), "stale": trouble_of(proposed.take_all),
                   "same": stored_of(sketch) == before}
    FreeCAD.closeDocument(document.Name)


def check_place_point():
    """A point, which is construction geometry to FreeCAD, and a construction line to it."""
    document = FreeCAD.newDocument()
    document.UndoMode = 1
    sketch = document.addObject("Sketcher::SketchObject", "Sketch")
    sketch.addGeometry(Part.Point(FreeCAD.Vector(3, 4, 0)))
    sketch.addGeometry(Part.LineSegment(FreeCAD.Vector(0, 0, 0), FreeCAD.Vector(3, 4, 0)), True)
    sketch.addGeometry(Part.LineSegment(FreeCAD.Vector(0, 0, 0), FreeCAD.Vector(9, 0, 0)))
    for said in (("DistanceX", -1, START, 0, START, 3.0), ("DistanceY", -1, START, 0, START, 4.0),
                 ("Coincident", 1, START, -1, START), ("Coincident", 1, END, 0, START),
                 ("Coincident", 2, START, -1, START), ("Horizontal", 2), ("Distance", 2, 9.0)):
        sketch.addConstraint(Sketcher.Constraint(*said))
    document.recompute()

    def outline():
        return [[sketch.getConstruction(count) for count in range(3)], len(sketch.Shape.Vertexes)]

    facts = {"before": outline()}
    found = judged(sketch)
    place(found.read, found.good)
    facts.update(after=outline(), undo=list(document.UndoNames))
    yield "mark", facts
    FreeCAD.closeDocument(document.Name)


def check_certify():
    """A link that is good, a plate that isn't, and a document that was never saved."""
    sketch = opened("link")
    found = certify(judged(sketch))
    yield "link", {"files": [found.claim.name, found.verification.name],
                   "beside": str(found.claim.parent) == os.environ["FOLDER"],
                   "accepted": found.is_accepted(), "claim": found.claim.read_text()[:9],
                   "verification": found.verification.read_text().splitlines()}
    yield "again", {"line": next(certify(judged(sketch)).lines())}
    FreeCAD.closeDocument(sketch.Document.Name)
    sketch = opened("twice")
    yield "twice", {"trouble": trouble_of(lambda: certify(judged(sketch)))}
    Path(os.environ["FOLDER"], "twice-Sketch.claim").touch()
    yield "earlier", {"trouble": trouble_of(lambda: certify(judged(sketch)))}
    FreeCAD.closeDocument(sketch.Document.Name)
    sketch = opened("plate")
    sketch.setDatum(WIDTH, 61.0)
    yield "changed", {"trouble": trouble_of(lambda: certify(judged(sketch)))}
    FreeCAD.closeDocument(sketch.Document.Name)
    document = FreeCAD.newDocument("unsaved")
    copied = document.copyObject(opened("plate"))
    yield "unsaved", {"trouble": trouble_of(lambda: certify(judged(copied)))}


def check_construction():
    """A plate with two holes, step by step, and one that isn't good."""
    found = construct(judged(opened("plate")))
    yield "plate", {"steps": [each.number for each in found.steps],
                    "loci": [len(each.loci) for each in found.steps],
                    "last": sorted(found.steps[-1].shapes)}
    yield "twice", {"trouble": trouble_of(lambda: construct(judged(opened("twice"))))}


def ranges_of(sketch, asked):
    """What is told of the ranges of some constraints, by their numbers from 0."""
    lines = []
    trouble = trouble_of(lambda: lines.extend(
        ranges(read_sketch(sketch), PROGRAM, LIMIT, frozenset(asked))))
    return {"lines": lines, "trouble": trouble}


def check_range():
    """How far a plate's width may go, also where its height that follows from it is selected, and
    what is told where no dimension is."""
    sketch = opened("plate")
    for name, asked in (("plate", {WIDTH}), ("nothing", set())):
        yield name, ranges_of(sketch, asked)
    sketch.renameConstraint(WIDTH, "width")
    sketch.setExpression(f"Constraints[{HEIGHT}]", "Constraints.width * 2 / 3")
    sketch.Document.recompute()
    yield "height by width", ranges_of(sketch, {HEIGHT})
    sheet = sketch.Document.addObject("Spreadsheet::Sheet", "Sheet")
    sheet.set("A1", "60 mm")
    sheet.setAlias("A1", "wide")
    sketch.Document.recompute()
    sketch.setExpression("Constraints.width", "Sheet.wide")
    sketch.setExpression(f"Constraints[{HEIGHT}]", "Sheet.wide * 2 / 3")
    sketch.Document.recompute()
    yield "by a sheet", ranges_of(sketch, {HEIGHT})
    yield "beside a sheet", ranges_of(sketch, {HOLE})


def check_program():
    """A program that isn't there, a limit that is none, and no room for a copy: no folder for it,
    and a system that takes 1,000 bytes of it."""
    lost = Settings(program="/nowhere/sketch")
    yield "lost", {"trouble": trouble_of(lambda: find_program(lost))}
    yield "within", {"trouble": trouble_of(lambda: limit_of(Settings(within=0)))}
    sketch = opened("plate")
    tempfile.tempdir = "/nowhere"
    trouble = trouble_of(lambda: read_sketch(sketch))
    tempfile.tempdir = None
    yield "room", {"trouble": trouble}
    path = Path(os.environ["FOLDER"], "full.FCStd")
    limits = resource.getrlimit(resource.RLIMIT_FSIZE)
    resource.setrlimit(resource.RLIMIT_FSIZE, (1000, limits[1]))
    trouble = trouble_of(lambda: write_copy(sketch.Document, path))
    resource.setrlimit(resource.RLIMIT_FSIZE, limits)
    yield "full", {"trouble": trouble, "left": path.exists()}
    FreeCAD.closeDocument(sketch.Document.Name)


def main():
    """All of it, and the end."""
    told = {}
    for check in (check_judge, check_repair, check_repair_moves, check_repair_followed,
                  check_repair_linked, check_repair_in_part, check_repair_opening,
                  check_repair_not_good, check_complete,
                  check_complete_two, check_complete_moved,
                  check_complete_outer, check_complete_nothing, check_place, check_place_rough,
                  check_place_point,
                  check_certify, check_construction,
                  check_range, check_program):
        word = check.__name__.removeprefix("check_")
        try:
            told.update((f"{word} {name}", facts) for name, facts in check())
        except Exception:
            told[word] = {"error": traceback.format_exc()}
    Path(os.environ["TOLD"]).write_text(json.dumps(told, indent=1))


main()
