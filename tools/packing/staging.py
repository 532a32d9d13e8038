"""What of a release goes where."""
import gzip
import re
import shutil
from dataclasses import dataclass
from pathlib import Path

from .made import Made

HIGHLIGHTING = {
    "vim/ftdetect": "vim/vimfiles/ftdetect",
    "vim/syntax": "vim/vimfiles/syntax",
    "textmate": "pertxogai/textmate",
}
PAGES = (
    "README.md", "LICENSE-MIT", "LICENSE-APACHE", "CHANGELOG.md", "CONTRIBUTING.md", "SECURITY.md",
    "CODE_OF_CONDUCT.md", "CITATION.cff", "docs", "examples", "licences", "c/examples", "python/README.md",
    "python/examples",
)
"""What is read by people; all that these pages lead to is put beside them."""
LINK = re.compile(r"\]\(([^()#\s]+)")
TOOLS = ("refresh", "draw", "site")
"""Scripts of docs/ that are of use in the repository alone."""


@dataclass(frozen=True)
class Places:
    """The folders below a root where things go, as `usr/bin`, and what sketch.pc says of two of them."""

    programs: Path
    headers: Path
    libraries: Path
    shared: Path
    prefix: str
    libraries_said: str

    @property
    def pages(self) -> Path:
        """Where what is read by people lies."""
        return self.shared / "doc" / "pertxogai"


def put(source: Path, to: Path) -> None:
    """Copies a file or a folder; scripts stay what they are, and all else may be read by everyone."""
    to.parent.mkdir(parents=True, exist_ok=True)
    if source.is_dir():
        shutil.copytree(source, to, dirs_exist_ok=True, ignore=shutil.ignore_patterns(*TOOLS))
    else:
        shutil.copy2(source, to)


def stage(root: Path, places: Places, made: Made) -> None:
    """Puts the program, the library, manual pages, completion, highlighting, add-on, checker and pages below a
    root."""
    put(made.program, root / places.programs / "sketch")
    put(made.library / "sketch.h", root / places.headers / "sketch.h")
    _stage_libraries(root / places.libraries, made)
    _stage_flags(root, places, made)
    _stage_editors(root / places.shared, made.tree / "editors")
    stage_pages(root / places.pages, made.tree)
    for name in ("freecad", "checker"):
        put(made.tree / name, root / places.shared / "pertxogai" / name)
    (root / places.pages / "GATE").write_text(made.gate)
    _stage_manual(root / places.shared / "man", made.tree / "man")


def _stage_libraries(folder: Path, made: Made) -> None:
    """Puts the static library, the shared one under the name in its SONAME, and the link to it that linkers look for."""
    for each in (made.library / "libsketch.a", made.shared):
        put(each, folder / each.name)
    (folder / "libsketch.so").symlink_to(made.shared.name)


def stage_pages(folder: Path, tree: Path) -> None:
    """Puts what is read by people, and all of the tree that it leads to, from page to page."""
    top = tree.resolve()
    left = [top / name for name in PAGES]
    done: set[Path] = set()
    while left:
        source = left.pop()
        if source in done or top not in source.parents or not source.exists():
            continue
        done.add(source)
        put(source, folder / source.relative_to(top))
        pages = source.rglob("*.md") if source.is_dir() else [source] if source.suffix == ".md" else []
        left += [(page.parent / end).resolve() for page in pages for end in LINK.findall(page.read_text())]


def _stage_flags(root: Path, places: Places, made: Made) -> None:
    """Writes sketch.pc, by which pkg-config knows the library."""
    folders = {"PREFIX": places.prefix, "INCLUDE": "${prefix}/include", "LIBRARY": places.libraries_said}
    text = (made.tree / "c" / "sketch.pc.in").read_text()
    for word, value in {**folders, "VERSION": made.version}.items():
        text = text.replace(f"@{word}@", value)
    to = root / places.libraries / "pkgconfig" / "sketch.pc"
    to.parent.mkdir(parents=True)
    to.write_text(text)


def _stage_editors(shared: Path, editors: Path) -> None:
    put(editors / "bash", shared / "bash-completion" / "completions")
    for name, to in HIGHLIGHTING.items():
        put(editors / name, shared / to)


def _stage_manual(folder: Path, pages: Path) -> None:
    """Packs each manual page by gzip into the folder of its section."""
    for page in sorted(pages.glob("*.[1-9]")):
        to = folder / f"man{page.suffix[1:]}" / (page.name + ".gz")
        to.parent.mkdir(parents=True, exist_ok=True)
        to.write_bytes(gzip.compress(page.read_bytes(), mtime=0))


def level_rights(root: Path) -> None:
    """Gives each folder and program the rights 755 and each other file 644, whatever the umask was."""
    for each in [root, *root.rglob("*")]:
        if each.is_symlink():
            continue
        runs = each.is_dir() or (each.stat().st_mode & 0o100 and ".so" not in each.suffixes)
        each.chmod(0o755 if runs else 0o644)
