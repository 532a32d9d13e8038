"""Texts that are translated where the window shows them: `resources/translations/Pertxogai.ts` has
each that is marked here, and takes translations."""
from __future__ import annotations

CONTEXT = "Pertxogai"
"""Whose texts they are, to Qt."""


def QT_TRANSLATE_NOOP(context: str, text: str) -> str:
    """The text itself: the name marks it for Qt's tools, and for tools/translations.py."""
    return text
