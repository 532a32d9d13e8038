"""The Debian packages: the program with its commands, the library, and what programs are linked by."""
import gzip
import re
import zipfile
from dataclasses import dataclass
from email.utils import formatdate
from pathlib import Path

from .made import Made
from .running import at_time, said
from .staging import Places, level_rights, stage

TRIPLET = "x86_64-linux-gnu"
LIBRARIES = f"lib/{TRIPLET}"
USR = Path("usr")
ROOT = Places(USR / "bin", USR / "include", USR / LIBRARIES, USR / "share", "/usr", "${prefix}/" + LIBRARIES)
PACKAGES = Path("usr/lib/python3/dist-packages")
COMMAND = """#!/usr/bin/python3
import os
import sys

# If the package is only unpacked, its own Python package and `sketch` come before those that are installed.
here = os.path.dirname(os.path.realpath(__file__))
if here != "/usr/bin":
    sys.path.insert(0, os.path.join(os.path.dirname(here), "lib", "python3", "dist-packages"))
    os.environ["PATH"] = os.pathsep.join(filter(None, (here, os.environ.get("PATH", os.defpath))))

from pertxogai.commands import main

sys.exit(main())
"""
COMPILE = """#!/bin/sh
# Keeps what Python compiles of the package; else each command would compile it anew, since users can't write there.
set -e
[ "$1" != configure ] || py3compile "$DPKG_ROOT/{folder}"
"""
REMOVE_COMPILED = """#!/bin/sh
set -e
find "$DPKG_ROOT/{folder}" -type d -name __pycache__ -prune -exec rm -r {{}} +
"""
MAINTAINER = "The Pertxogai authors (write to the place where you got this package)"
CONTROL = """Package: {name}
Version: {version}
Architecture: amd64
Maintainer: {maintainer}
Installed-Size: {size}
{relations}
Section: {section}
Priority: optional
Description: {about}
"""
COPYRIGHT = """Copyright: 2026 The Pertxogai authors
License: MIT OR Apache-2.0

You may choose either. The text of Apache-2.0 is in /usr/share/common-licenses/Apache-2.0, that of MIT is:

{mit}
This is the licence of the sources. What is built of them also contains code of others. For one part of that, the
standard library of the Rattle kit, no licence is known: ask before you pass the package on, or ship a product that is
linked with the library.

{licences}
The package pertxogai has the texts in /usr/share/doc/pertxogai/licences; those of the LGPL 2.1 and of the GPL 3
are also in /usr/share/common-licenses/LGPL-2.1 and /usr/share/common-licenses/GPL-3.
"""
CHANGES = """pertxogai ({version}) unstable; urgency=low

  * What changed stands in CHANGELOG.md, which the package pertxogai has in /usr/share/doc/pertxogai.

 -- {maintainer}  {date}
"""


@dataclass(frozen=True)
class Package:
    """One Debian package: its name, section, description, relations (`{c}` is the least version of the C library,
    `{version}` that of the release), which files below the staged root it takes, whether the linker's cache is made
    anew behind it, and which folder of Python modules below the root is compiled where it is installed."""

    name: str
    section: str
    about: str
    relations: str
    takes: tuple[str, ...]
    is_library: bool = False
    modules: Path | None = None


RUNTIME = Package(
    "libpertxogai-sketch1", "libs",
    """proved solver for planar CAD sketches (library)
 The library libsketch tells whether the dimensions of a drawing are just as many
 as fix it, too many or too few, and places it in whole nanometres. It has one
 call, keeps no state, and asks the C library for memory alone.""",
    "Depends: libc6 (>= {c})", (f"{USR / LIBRARIES}/libsketch.so.*",), is_library=True)
DEVELOPMENT = Package(
    "libpertxogai-sketch-dev", "libdevel",
    """proved solver for planar CAD sketches (development)
 The header sketch.h, the static library, and what pkg-config reads, to link
 libsketch into programs in C and C++. The package pertxogai has the page on
 it (docs/EMBEDDING.md) and examples in C.""",
    "Depends: libpertxogai-sketch1 (= {version})\nSuggests: pertxogai",
    (f"{USR}/include/*", f"{USR / LIBRARIES}/libsketch.a", f"{USR / LIBRARIES}/libsketch.so",
     f"{USR / LIBRARIES}/pkgconfig"))
MAIN = Package(
    "pertxogai", "graphics",
    """proved solver for planar CAD sketches
 The program sketch tells whether the dimensions of a drawing are just as many
 as fix it, too many or too few, places it in whole nanometres, and says how
 exactly. The command pertxogai reads drawings in a designer's words and files
 of FreeCAD, SolveSpace and DXF, and has a drawing board in the browser.
 .
 Debian's own package sketch has a program of the same name.""",
    "Depends: libc6 (>= {c}), python3 (>= 3.11)\n"
    "Recommends: python3-ezdxf, python3-flask, python3-numpy, python3-scipy\n"
    "Suggests: libpertxogai-sketch1\nConflicts: sketch", (f"{USR}/*",),
    modules=PACKAGES / "pertxogai")
BY_NEED = (DEVELOPMENT, RUNTIME, MAIN)
"""The packages, each of which takes what those before it have left: the link libsketch.so before the file that it leads
to, since a pattern doesn't match a link that leads nowhere."""


def c_library(*built: Path) -> str:
    """The least version of the C library that has all that these files ask of it."""
    asked = re.findall(r"GLIBC_(\d+(?:\.\d+)+)", said("objdump", "-T", *built))
    return str(max(asked, key=lambda version: [int(part) for part in version.split(".")]))


def _is_linked(path: Path) -> bool:
    """Whether a file is a program or a shared library."""
    with path.open("rb") as stream:
        return stream.read(4) == b"\x7fELF"


def make_packages(room: Path, made: Made, to: Path) -> list[Path]:
    """Packs the Debian packages into the folder `to`, and answers their paths."""
    staged = room / "debian"
    stage(staged, ROOT, made)
    with zipfile.ZipFile(made.wheel) as wheel:
        wheel.extractall(staged / PACKAGES)
    command = staged / ROOT.programs / "pertxogai"
    command.write_text(COMMAND)
    command.chmod(0o755)
    return [_pack(package, staged, room / package.name, made, to) for package in BY_NEED]


def _pack(package: Package, staged: Path, root: Path, made: Made, to: Path) -> Path:
    """Moves what a package takes from the staged root to its own, and packs that."""
    for pattern in package.takes:
        for each in sorted(staged.glob(pattern)):
            place = root / each.relative_to(staged)
            place.parent.mkdir(parents=True, exist_ok=True)
            each.rename(place)
    _remove_empty(root)
    _write_pages(root / ROOT.shared / "doc" / package.name, made)
    _write_control(package, root, made)
    level_rights(root)
    packed = to / f"{package.name}_{made.version}_amd64.deb"
    said("dpkg-deb", "--root-owner-group", "-Zxz", "--build", root, packed, env=at_time(made.time))
    return packed


def _remove_empty(root: Path) -> None:
    """Removes folders of which another package has taken all files."""
    for each in sorted(root.rglob("*"), reverse=True):
        if each.is_dir() and not any(each.iterdir()):
            each.rmdir()


def _write_pages(pages: Path, made: Made) -> None:
    """What Debian wants of each package: its licences, and what changed."""
    licences = (made.tree / "licences" / "README.md").read_text()
    mit = (made.tree / "LICENSE-MIT").read_text()
    pages.mkdir(parents=True, exist_ok=True)
    (pages / "copyright").write_text(COPYRIGHT.format(mit=mit, licences=licences))
    changes = CHANGES.format(version=made.version, maintainer=MAINTAINER, date=formatdate(made.time))
    (pages / "changelog.gz").write_bytes(gzip.compress(changes.encode(), mtime=0))


def _write_control(package: Package, root: Path, made: Made) -> None:
    """Writes what dpkg reads: what the package is and needs, of a library that the linker's cache is made anew, and of
    Python modules that they are compiled."""
    files = [each for each in root.rglob("*") if each.is_file() and not each.is_symlink()]
    size = sum(each.stat().st_size for each in files) // 1024
    needed = c_library(*filter(_is_linked, files)) if "{c}" in package.relations else ""
    control = root / "DEBIAN"
    control.mkdir()
    told = CONTROL.format(name=package.name, version=made.version, maintainer=MAINTAINER, size=size,
                          relations=package.relations.format(c=needed, version=made.version),
                          section=package.section, about=package.about)
    (control / "control").write_text(told)
    if package.is_library:
        (control / "triggers").write_text("activate-noawait ldconfig\n")
    if package.modules is not None:
        for name, script in (("postinst", COMPILE), ("prerm", REMOVE_COMPILED)):
            (control / name).write_text(script.format(folder=package.modules))
            (control / name).chmod(0o755)
