"""The add-on for FreeCAD as a zip: a folder to be put among FreeCAD's add-ons, with the package and the program in
it."""
import time
from collections.abc import Iterator
from pathlib import Path
from zipfile import ZIP_DEFLATED, ZipFile, ZipInfo

from .made import Made

NAME = "Pertxogai"
"""What the folder is called."""
MACHINE = "x86_64-linux"
NOT_PACKED = "__pycache__"


def make_addon(made: Made, to: Path) -> Path:
    """Packs the add-on into the folder `to`, and answers its path. The same commit packs alike."""
    packed = to / f"pertxogai-freecad-{made.version}-{MACHINE}.zip"
    date = time.gmtime(made.time)[:6]
    with ZipFile(packed, "w", ZIP_DEFLATED) as archive:
        for name, source in sorted(_members(made)):
            info = ZipInfo(f"{NAME}/{name}", date)
            info.external_attr = (0o755 if source == made.program else 0o644) << 16
            info.compress_type = ZIP_DEFLATED
            archive.writestr(info, source.read_bytes())
        archive.writestr(ZipInfo(f"{NAME}/GATE", date), made.gate)
    return packed


def _members(made: Made) -> Iterator[tuple[str, Path]]:
    """What lies in the folder, and where it comes from."""
    yield "bin/sketch", made.program
    for below, folder in (("", "freecad"), ("python/pertxogai/", "python/pertxogai"), ("checker/", "checker"),
                          ("licences/", "licences")):
        for each in (made.tree / folder).rglob("*"):
            if each.is_file() and NOT_PACKED not in each.parts:
                yield below + each.relative_to(made.tree / folder).as_posix(), each
