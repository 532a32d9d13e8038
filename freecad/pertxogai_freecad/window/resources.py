"""Where the add-on's icons, translations and page of preferences lie."""
from __future__ import annotations

from pathlib import Path

RESOURCES = Path(__file__).resolve().parents[2] / "resources"
ICONS = RESOURCES / "icons"
TRANSLATIONS = RESOURCES / "translations"
PREFERENCES = RESOURCES / "ui" / "preferences.ui"


def icon(name: str) -> str:
    """The file of an icon."""
    return str(ICONS / f"{name}.svg")
