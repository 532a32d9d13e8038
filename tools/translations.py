"""The texts of the add-on for FreeCAD that can be translated, as Qt's tools read them: freecad/resources/translations/
Pertxogai.ts. A translation is a copy of it, called Pertxogai_de.ts for German, that Qt's Linguist or a text editor
fills; `lrelease` makes the .qm of it that FreeCAD reads."""
import ast
import pathlib
import xml.etree.ElementTree as ElementTree

TOP = pathlib.Path(__file__).resolve().parent.parent
ADDON = TOP / "freecad"
CONTEXT = "Pertxogai"
MARK = "QT_TRANSLATE_NOOP"
"""The function whose second argument is a text that is shown."""
HEAD = '<?xml version="1.0" encoding="utf-8"?>\n<!DOCTYPE TS>\n'


def texts():
    """Each text by its context, in the order of the sources."""
    found = {CONTEXT: {}}
    for path in sorted((ADDON / "pertxogai_freecad").rglob("*.py")):
        for node in ast.walk(ast.parse(path.read_text())):
            if isinstance(node, ast.Call) and getattr(node.func, "id", None) == MARK:
                found[CONTEXT][ast.literal_eval(node.args[1])] = None
    for path in sorted((ADDON / "resources" / "ui").glob("*.ui")):
        form = ElementTree.parse(path).getroot()
        found[form.findtext("class")] = {each.text: None for each in form.iter("string") if each.text}
    return found


def page():
    """The file, whole."""
    top = ElementTree.Element("TS", version="2.1")
    for name, of_context in texts().items():
        context = ElementTree.SubElement(top, "context")
        ElementTree.SubElement(context, "name").text = name
        for text in of_context:
            message = ElementTree.SubElement(context, "message")
            ElementTree.SubElement(message, "source").text = text
            ElementTree.SubElement(message, "translation", type="unfinished")
    ElementTree.indent(top, " ")
    return HEAD + ElementTree.tostring(top, encoding="unicode") + "\n"
