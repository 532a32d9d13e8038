"""What the window says, in the user's language."""
from __future__ import annotations

import FreeCAD

from pertxogai_freecad.translating import CONTEXT


def shown(text: str) -> str:
    """A text that is marked for translation, in the user's language; as it stands where it isn't
    translated."""
    translated: str = FreeCAD.Qt.translate(CONTEXT, text)
    return translated
