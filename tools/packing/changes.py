"""What CHANGELOG.md says of a version."""
import re
from pathlib import Path

from .refusal import Refused

UNRELEASED = re.compile(r"^## (\[Unreleased\]|Since )", re.MULTILINE)


def check_dated(top: Path, version: str) -> None:
    """Raises Refused unless the changes of a version stand under its own heading with a date, and none under
    'Unreleased'."""
    text = (top / "CHANGELOG.md").read_text()
    if UNRELEASED.search(text):
        raise Refused("CHANGELOG.md has changes that are unreleased: give them a version and a date, pass .ci/run again")
    if not re.search(rf"^## \[{re.escape(version)}\] - \d{{4}}-\d\d-\d\d$", text, re.MULTILINE):
        raise Refused(f"CHANGELOG.md has no heading '## [{version}] - DATE'")
