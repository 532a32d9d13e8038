"""What the user has set in FreeCAD's preferences."""
from __future__ import annotations

from dataclasses import dataclass

import FreeCAD

GROUP = "User parameter:BaseApp/Preferences/Mod/Pertxogai"
"""Where FreeCAD keeps it: the page of preferences writes the same names there."""
DEFAULT_WITHIN = 1000
DEFAULT_SECONDS = 60


@dataclass(frozen=True)
class Settings:
    """package: the folder in which `pertxogai` lies; program: the file `sketch`; empty where they
    are to be found. within: what is met within so many nanometres, or an angle within so many ppb,
    holds. seconds: how long a call of the program may take."""

    package: str = ""
    program: str = ""
    within: int = DEFAULT_WITHIN
    seconds: int = DEFAULT_SECONDS

    @staticmethod
    def stored() -> Settings:
        """What is set now."""
        group = FreeCAD.ParamGet(GROUP)
        return Settings(group.GetString("Package", ""), group.GetString("Program", ""),
                        group.GetInt("Within", DEFAULT_WITHIN),
                        group.GetInt("Seconds", DEFAULT_SECONDS))
