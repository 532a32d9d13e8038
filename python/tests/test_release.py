"""What ./release makes, installed in roots of its own and run there; and when it makes nothing."""
from __future__ import annotations

import importlib.machinery
import importlib.util
import json
import os
import re
import shutil
import subprocess
import sys
from pathlib import Path
from types import ModuleType
from typing import Any

import pytest

from conftest import TOP
from pertxogai import __version__
from pertxogai.program import Program
from pertxogai.program.library import BUILD as LIBRARY

sys.path.insert(0, str(TOP / "tools"))
from packing.changes import check_dated  # noqa: E402
from packing.debian import COMMAND, PACKAGES, ROOT  # noqa: E402
from packing.gate import Gate  # noqa: E402
from packing.made import Made, gate_text  # noqa: E402
from packing.refusal import Refused  # noqa: E402
from packing.staging import stage_pages  # noqa: E402
from packing.wheel import PYTHON, make_wheel  # noqa: E402

TRIANGLE = (TOP / "examples" / "triangle.sketch").read_text()
WELL = (
    "verdict well\nelements 3\nconstraints 3\nparts 1\n"
    "part 1 sound elements 3 held 3 due 3 : A B C\n"
)
KIT_LICENCES = {
    "slab": "slab/LICENSE",
    "thiserror": "thiserror/LICENSE",
    "indexmap-mit": "indexmap/LICENSE-MIT",
    "indexmap-apache": "indexmap/LICENSE-APACHE",
}
APART = shutil.ignore_patterns("out", "dist", ".git", "__pycache__", ".mypy_cache")
WITHOUT_SYSTEM = "--force-depends", "--force-script-chrootless"
"""How dpkg installs into a root that has no Debian."""
NOON = 1764331200
"""28 November 2025, 12:00, in seconds since 1970."""


def run(*words: object, **how: Any) -> subprocess.CompletedProcess[str]:
    """A command, run to its end; its output is text."""
    return subprocess.run([str(it) for it in words], capture_output=True, text=True, **how)


def done(*words: object, **how: Any) -> str:
    """What a command writes that has to end well."""
    ended = run(*words, **how)
    assert ended.returncode == 0, ended.stderr + ended.stdout
    return ended.stdout


def the_release() -> ModuleType:
    """The script ./release, as a module."""
    loader = importlib.machinery.SourceFileLoader("release", str(TOP / "release"))
    spec = importlib.util.spec_from_loader("release", loader)
    assert spec is not None
    module = importlib.util.module_from_spec(spec)
    loader.exec_module(module)
    return module


def library_folder() -> Path:
    """Where c/build made the library that is tested."""
    return Path(os.environ.get("PERTXOGAI_LIBRARY", LIBRARY)).parent


@pytest.fixture(scope="session")
def dist(program: Program, tmp_path_factory: pytest.TempPathFactory) -> Path:
    """What a release has, made of the tree as it stands, and of the program and the library under
    test."""
    if not (library_folder() / "libsketch.a").exists():
        pytest.skip("c/build hasn't made the library")
    if not all(map(importlib.util.find_spec, ("pip", "setuptools", "wheel"))):
        pytest.skip("Debian's python3-pip, python3-setuptools or python3-wheel is missing")
    room = tmp_path_factory.mktemp("release")
    shutil.copytree(TOP, room / "tree", ignore=APART)
    wheel = make_wheel(room / "tree" / "python", room, NOON)
    built, library = Path(program.path), library_folder()
    text = gate_text(__version__, "0" * 40, Gate("1234 passed, 0 failed", "kit-1 logic 0"), built, library)
    made = Made(room / "tree", built, library, wheel, __version__, NOON, text)
    the_release().pack(room, made, room / "dist")
    return room / "dist"


@pytest.fixture(scope="session")
def installed(dist: Path, tmp_path_factory: pytest.TempPathFactory) -> Path:
    """A root that has nothing but the Debian packages: installed by dpkg where this is root, else
    unpacked."""
    root = tmp_path_factory.mktemp("root")
    packages = sorted(dist.glob("*.deb"))
    if os.geteuid() != 0:
        for package in packages:
            done("dpkg-deb", "-x", package, root)
        return root
    for name in ("updates", "info", "triggers"):
        (root / "var/lib/dpkg" / name).mkdir(parents=True)
    (root / "var/lib/dpkg/status").touch()
    done("dpkg", f"--root={root}", *WITHOUT_SYSTEM, "--install", *packages)
    listed = done("dpkg", f"--root={root}", "-l")
    assert all(f" {it.name.partition('_')[0]} " in listed.replace(":amd64", "") for it in packages)
    return root


def within(root: Path) -> dict[str, str]:
    """An environment that finds the programs and the Python package of that root alone."""
    return {
        "PATH": f"{root}/usr/bin:/usr/bin:/bin",
        "HOME": str(root),
        "LC_ALL": "C.UTF-8",
        "PYTHONPATH": str(root / "usr/lib/python3/dist-packages"),
        "PYTHONDONTWRITEBYTECODE": "1",
    }


def test_each_link_of_a_release_leads_to_what_is_in_it(tmp_path: Path) -> None:
    stage_pages(tmp_path, TOP)
    pages = sorted(tmp_path.rglob("*.md"))
    names = {str(it.relative_to(tmp_path)) for it in pages}
    assert {"docs/CRATES.md", "python/RANGES.md", "crates/sk_cli/README.md"} <= names
    for page in pages:
        ends = re.findall(r"\]\(([^()#\s]+)", page.read_text())
        lost = [it for it in ends if not re.match("[a-z]+:", it) and not (page.parent / it).exists()]
        assert not lost, page
    assert (tmp_path / "crates/sk_laws/src/law.rt").is_file()


def test_a_release_has_each_drawing_that_a_command_of_a_page_reads(tmp_path: Path) -> None:
    stage_pages(tmp_path, TOP)
    for page in sorted(tmp_path.rglob("*.md")):
        shown = re.findall(r"^\$ .*$", page.read_text(), re.MULTILINE)
        files = re.findall(r"(?<!\S)(?:examples|python|c)/[\w/-]+\.\w+", " ".join(shown))
        read = {it for it in files if (TOP / it).exists()}
        assert not [it for it in sorted(read) if not (tmp_path / it).exists()], page


def test_a_release_has_a_tarball_a_package_a_wheel_and_checksums(dist: Path) -> None:
    assert sorted(it.name for it in dist.iterdir()) == [
        "GATE", "SHA256SUMS", f"libpertxogai-sketch-dev_{__version__}_amd64.deb",
        f"libpertxogai-sketch1_{__version__}_amd64.deb",
        f"pertxogai-{__version__}-py3-none-any.whl", f"pertxogai-{__version__}-x86_64-linux.tar.gz",
        f"pertxogai-{__version__}.spdx.json",
        f"pertxogai-freecad-{__version__}-x86_64-linux.zip", f"pertxogai_{__version__}_amd64.deb"]
    done("sha256sum", "--quiet", "-c", "SHA256SUMS", cwd=dist)
    gate = (dist / "GATE").read_text().splitlines()
    assert gate[:2] == [f"pertxogai {__version__}", "commit " + "0" * 40]
    assert gate[2] == "gate 1234 passed, 0 failed"
    assert gate[3] == "kit kit-1 logic 0"


def test_the_installed_program_answers(installed: Path) -> None:
    program = installed / "usr/bin/sketch"
    assert done(program, "check", input=TRIANGLE, env={}) == WELL


def test_the_installed_command_judges(installed: Path, tmp_path: Path) -> None:
    here = within(installed)
    shutil.copy(TOP / "examples/triangle.sketch", tmp_path)
    assert done("pertxogai", "--version", env=here) == f"pertxogai {__version__}\n"
    judged = done("pertxogai", "judge", "triangle.sketch", env=here, cwd=tmp_path)
    assert judged.startswith("triangle: well (fully constrained), elements 3, constraints 3, rigid clusters 1\n  placed within")
    done("pertxogai", "draw", "triangle.sketch", "-o", "triangle.svg", env=here, cwd=tmp_path)
    asked = "from pertxogai.program import Program; print(Program.find().path)"
    found = done(PYTHON, "-c", asked, env=here)
    assert found.strip() == str(installed / "usr/bin/sketch")
    told = run("pertxogai", "complete", "triangle.sketch", env=here, cwd=tmp_path).stderr
    assert told.endswith("a sketch of the language is completed by sketch complete\n")


def test_the_command_of_a_package_that_is_only_unpacked_judges(installed: Path) -> None:
    """It finds its Python package and the program, though neither is on a path."""
    bare = {"PATH": "/usr/bin:/bin", "HOME": str(installed), "LC_ALL": "C.UTF-8"}
    command = installed / "usr/bin/pertxogai"
    judged = done(command, "judge", TOP / "examples/triangle.sketch", env=bare)
    assert judged.startswith("triangle: well (fully constrained), elements 3, constraints 3, ")
    del bare["PATH"]
    assert done(command, "--version", env=bare) == f"pertxogai {__version__}\n"


def test_the_library_of_packages_that_are_only_unpacked_is_found(installed: Path) -> None:
    """By the `sketch` on the path: no variable names it."""
    asked = "from pertxogai.program.library import Library; print(Library.find().path)"
    found = done(PYTHON, "-c", asked, env=within(installed))
    assert found.strip() == str(installed / "usr/lib/x86_64-linux-gnu/libsketch.so.1")


def a_package(root: Path, version: str) -> Path:
    """The command of a package below a root; its `main` tells its version and which `sketch` it
    finds."""
    command, modules = root / ROOT.programs / "pertxogai", root / PACKAGES / "pertxogai"
    modules.mkdir(parents=True)
    command.parent.mkdir(parents=True)
    command.write_text(COMMAND)
    (command.parent / "sketch").touch()
    for file in (command, command.parent / "sketch"):
        file.chmod(0o755)
    (modules / "__init__.py").touch()
    (modules / "commands.py").write_text(
        f"import shutil\n\ndef main():\n    print({version!r}, shutil.which('sketch'))\n")
    return command


def test_the_command_of_an_unpacked_package_is_its_own_beside_an_older_one(tmp_path: Path) -> None:
    """What is unpacked to be tried isn't the one that is installed, by pip and on the path."""
    a_package(tmp_path / "old", "1")
    command = a_package(tmp_path / "new", "2")
    old = tmp_path / "old"
    here = {"PATH": f"{old}/usr/bin:/usr/bin:/bin", "PYTHONPATH": str(old / PACKAGES)}
    assert done(command, env=here) == f"2 {tmp_path}/new/usr/bin/sketch\n"


def test_the_installed_checkers_read_a_claim(installed: Path, tmp_path: Path) -> None:
    here, triangle = within(installed), TOP / "examples/triangle.sketch"
    words = ("pertxogai", "certify", triangle, "-o", tmp_path / "triangle.claim", "--check")
    verified = "verified steps 1 length 0 nm angle 0 ppb"
    assert done(*words, env=here).splitlines() == [
        f"{name}: {verified}" for name in ("sketch verify", "sketch_claim.py", "sketch_claim.c")]


def test_the_installed_library_links(installed: Path, tmp_path: Path) -> None:
    libraries = installed / "usr/lib/x86_64-linux-gnu"
    flags = [f"-I{installed}/usr/include", f"-L{libraries}", "-lsketch"]
    for how in (flags, [flags[0], libraries / "libsketch.a"]):
        done("cc", TOP / "c/examples/places.c", *how, "-o", tmp_path / "places")
        said = done(tmp_path / "places", env={"LD_LIBRARY_PATH": str(libraries)})
        assert said.splitlines()[-1] == "C lies at 40.000000, 30.000000 mm"
    told = (libraries / "pkgconfig/sketch.pc").read_text()
    assert f"Version: {__version__}\n" in told and "@" not in told
    assert "libdir=${prefix}/lib/x86_64-linux-gnu\n" in told


GUIDE = ("include=", "export PKG_CONFIG_PATH=$library", "cc places.c $(pkg-config --define",
         "cmake -S")
"""How the lines of the page begin by which packages that are only unpacked are found."""


@pytest.mark.skipif(not (shutil.which("cmake") and shutil.which("pkg-config")),
                    reason="Debian's cmake or pkg-config is missing")
def test_packages_that_are_only_unpacked_are_found_as_the_page_says(
    installed: Path, tmp_path: Path
) -> None:
    """By pkg-config and by CMake."""
    page = (TOP / "docs/EMBEDDING.md").read_text().splitlines()
    folders, where, linked, cmake = [it for it in page if it.startswith(GUIDE)]
    (tmp_path / "sketch").symlink_to(installed)
    for name in ("places.c", "CMakeLists.txt"):
        shutil.copy(TOP / "c/examples" / name, tmp_path)
    script = [folders, where, linked, "./places",
              f"{cmake} >&2", "cmake --build build >&2", "build/places"]
    here = {"HOME": str(tmp_path), "PATH": "/usr/bin:/bin"}
    said = done("sh", "-ec", "\n".join(script), cwd=tmp_path, env=here).splitlines()
    assert said[2::3] == ["C lies at 40.000000, 30.000000 mm"] * 2


@pytest.mark.skipif(shutil.which("man") is None, reason="Debian's man-db is missing")
@pytest.mark.parametrize("page", ["man1/sketch.1", "man1/pertxogai.1", "man5/sketch.5"])
def test_the_installed_manual_is_shown(page: str, installed: Path) -> None:
    shown = done("man", "-l", installed / f"usr/share/man/{page}.gz")
    assert "NAME" in shown and f"pertxogai {__version__}" in shown


def test_the_package_has_its_pages_and_what_editors_read(installed: Path) -> None:
    shared = installed / "usr/share"
    for name in ("doc/pertxogai/copyright", "doc/pertxogai/LICENSE-MIT",
                 "doc/libpertxogai-sketch1/copyright", "doc/libpertxogai-sketch-dev/changelog.gz", "doc/pertxogai/changelog.gz", "doc/pertxogai/GATE",
                 "doc/pertxogai/examples/bracket.sketch", "doc/pertxogai/licences/slab.txt",
                 "doc/pertxogai/docs/LANGUAGE.md", "bash-completion/completions/sketch",
                 "vim/vimfiles/syntax/sketch.vim", "pertxogai/textmate/sketch.tmLanguage.json",
                 "pertxogai/freecad/InitGui.py", "doc/pertxogai/checker/README.md",
                 "pertxogai/checker/sketch_claim.py", "pertxogai/checker/sketch_claim.c"):
        assert (shared / name).is_file(), name
    rights = {it.lstat().st_mode & 0o777 for it in (installed / "usr").rglob("*")
              if not it.is_symlink()}
    assert rights == {0o644, 0o755}


def test_the_installed_python_is_compiled_and_goes_as_it_came(installed: Path, tmp_path: Path) -> None:
    """Users can't write where it is installed: uncompiled, each command would compile it anew."""
    if os.geteuid() != 0:
        pytest.skip("only root installs packages")
    root = tmp_path / "root"
    shutil.copytree(installed, root, symlinks=True)
    modules = root / "usr/lib/python3/dist-packages/pertxogai"
    bare = [it for it in modules.rglob("*.py") if not [*it.parent.glob(f"__pycache__/{it.stem}.*.pyc")]]
    assert not bare
    done("dpkg", f"--root={root}", *WITHOUT_SYSTEM, "--remove", "pertxogai")
    assert not modules.exists()


def test_the_packages_say_what_they_need(dist: Path) -> None:
    said = re.search(r"`sketch` needs glibc (2\.\d+) or later, the library (2\.\d+)\.", (TOP / "README.md").read_text())
    program, library = map(re.escape, said.groups())
    depends = {
        "pertxogai": rf"libc6 \(>= {program}\), python3 \(>= 3\.11\)",
        "libpertxogai-sketch1": rf"libc6 \(>= {library}\)",
        "libpertxogai-sketch-dev": rf"libpertxogai-sketch1 \(= {re.escape(__version__)}\)"}
    for name, wanted in depends.items():
        said = done("dpkg-deb", "-f", dist / f"{name}_{__version__}_amd64.deb")
        assert f"Package: {name}\nVersion: {__version__}\n" in said
        assert re.search(rf"^Depends: {wanted}$", said, re.MULTILINE), said
        assert ("Conflicts: sketch\n" in said) == (name == "pertxogai")


def test_each_file_is_in_one_package(dist: Path) -> None:
    listed = [line.split(maxsplit=5)[5].partition(" -> ")[0]
              for package in dist.glob("*.deb") for line in done("dpkg-deb", "-c", package).splitlines()
              if not line.startswith("d")]
    assert len(listed) == len(set(listed)) > 100
    library = "./usr/lib/x86_64-linux-gnu/libsketch"
    assert {it for it in listed if it.startswith(library)} == {
        f"{library}.a", f"{library}.so", f"{library}.so.1"}


def test_the_development_package_has_the_link_that_the_linker_follows(dist: Path, tmp_path: Path) -> None:
    """With the two packages of the library alone a program is linked to the shared one."""
    for name in ("libpertxogai-sketch1", "libpertxogai-sketch-dev"):
        done("dpkg-deb", "-x", dist / f"{name}_{__version__}_amd64.deb", tmp_path)
    folder = tmp_path / "usr/lib/x86_64-linux-gnu"
    assert os.readlink(folder / "libsketch.so") == "libsketch.so.1"
    assert "libsketch" not in done("dpkg-deb", "-c", dist / f"pertxogai_{__version__}_amd64.deb")
    built = tmp_path / "places"
    done("cc", TOP / "c/examples/places.c", "-I", tmp_path / "usr/include", "-L", folder, "-lsketch", "-o", built)
    assert "NEEDED               libsketch.so.1\n" in done("objdump", "-p", built)


@pytest.mark.parametrize("name", ["LICENSE-APACHE", "LICENSE-MIT"])
def test_the_add_on_has_the_repository_s_licences(name: str) -> None:
    """As files of its own: the kit takes no links in a repository."""
    copied = TOP / "freecad" / name
    assert not copied.is_symlink() and copied.read_bytes() == (TOP / name).read_bytes()


def test_the_library_says_its_interface(installed: Path) -> None:
    header = (installed / "usr/include/sketch.h").read_text()
    assert f'#define SKETCH_VERSION "{__version__}"\n' in header
    (number,) = re.findall(r"^#define SKETCH_INTERFACE (\d+)$", header, re.MULTILINE)
    shared = installed / "usr/lib/x86_64-linux-gnu/libsketch.so"
    assert os.readlink(shared) == f"libsketch.so.{number}"
    assert f"SONAME               libsketch.so.{number}\n" in done("objdump", "-p", shared)


def test_the_list_of_what_it_is_made_of(dist: Path) -> None:
    """Each crate of the kit that is linked is in it, with its licence, and each file that is built, with its checksum."""
    told = json.loads((dist / f"pertxogai-{__version__}.spdx.json").read_text())
    assert told["spdxVersion"] == "SPDX-2.3"
    licences = {it["name"].partition(" (")[0]: it["licenseDeclared"] for it in told["packages"]}
    assert licences["pertxogai"] == "MIT OR Apache-2.0"
    assert {"thiserror", "indexmap", "slab"} <= set(licences)
    kit = Path("/opt/rattle/rattle")
    for it in told["packages"]:
        name = it["name"].partition(" (")[0]
        if name in ("thiserror", "indexmap", "slab") and kit.is_dir():
            assert f"`{name}` {it['versionInfo']} (" in (kit / name / "README.md").read_text()
    gate = (dist / "GATE").read_text()
    built = {it["fileName"][2:]: it["checksums"][0]["checksumValue"] for it in told["files"]}
    assert f"sketch {built['sketch']}\n" in gate and f"libsketch.a {built['libsketch.a']}\n" in gate


def test_changes_without_a_version_are_not_released(tmp_path: Path) -> None:
    page = tmp_path / "CHANGELOG.md"
    page.write_text("# Changes\n\n## [Unreleased]\n\n- a\n\n## [1.2.0] - 2026-05-03\n")
    with pytest.raises(Refused, match="unreleased"):
        check_dated(tmp_path, "1.2.0")
    page.write_text("# Changes\n\n## [1.2.0] - 2026-05-03\n")
    check_dated(tmp_path, "1.2.0")
    with pytest.raises(Refused, match="no heading '## .1.3.0. - DATE'"):
        check_dated(tmp_path, "1.3.0")


def test_the_wheel_works_by_itself(dist: Path, program: Program, tmp_path: Path) -> None:
    """In an environment of its own, without network."""
    done(PYTHON, "-m", "venv", "--without-pip", tmp_path / "own")
    python, (wheel,) = tmp_path / "own/bin/python", dist.glob("*.whl")
    pip = [PYTHON, "-m", "pip", "--python", python]
    done(*pip, "install", "--quiet", "--no-index", "--no-deps", wheel)
    (tmp_path / "part.drawing").write_text("segment Edge 0 0 40 0\nlength Edge 40\n")
    here = {"PATH": f"{tmp_path}/own/bin:/bin", "PERTXOGAI_SKETCH": program.path}
    judged = run("pertxogai", "judge", "part.drawing", env=here, cwd=tmp_path)
    assert judged.stdout.startswith("part: well"), judged.stderr
    asked = "import pertxogai.board as page; print(page.__file__)"
    where = done(python, "-c", asked, env=here)
    assert (Path(where.strip()).parent / "static/index.html").is_file()


def test_the_tarball_runs_where_it_is_unpacked(dist: Path, tmp_path: Path) -> None:
    (packed,) = dist.glob("*.tar.gz")
    done("tar", "-xzf", packed, "-C", tmp_path)
    (root,) = tmp_path.iterdir()
    done("sha256sum", "--quiet", "-c", "SHA256SUMS", cwd=root)
    assert done(root / "bin/sketch", "check", input=TRIANGLE, env={}) == WELL
    assert sorted(it.name for it in root.iterdir()) == [
        "GATE", "LICENSE-APACHE", "LICENSE-MIT", "README", "SHA256SUMS", "bin", "include", "lib",
        "licences", "share", "wheel"]
    assert "prefix=${pcfiledir}/../..\n" in (root / "lib/pkgconfig/sketch.pc").read_text()


@pytest.mark.skipif(shutil.which("pkg-config") is None, reason="Debian's pkg-config is missing")
def test_a_program_is_linked_in_the_home_as_the_tarball_says(dist: Path, tmp_path: Path) -> None:
    (packed,), (wheel,) = dist.glob("*.tar.gz"), dist.glob("*.whl")
    own = tmp_path / ".local"
    own.mkdir()
    done("tar", "-xzf", packed, "-C", own, "--strip-components=1")
    lines = [it for it in (own / "README").read_text().splitlines() if it.startswith(("    export ", "    cc "))]
    assert len(lines) == 2
    shutil.copy(TOP / "c/examples/places.c", tmp_path)
    here = {"HOME": str(tmp_path), "PATH": f"{own}/bin:/usr/bin:/bin"}
    done("sh", "-ec", "\n".join(lines), cwd=tmp_path, env=here)
    assert done(tmp_path / "places", env={}).endswith("C lies at 40.000000, 30.000000 mm\n")
    done(PYTHON, "-m", "zipfile", "-e", wheel, tmp_path / "site")
    asked = "from pertxogai.program.library import Library; print(Library.find().path)"
    found = done(PYTHON, "-c", asked, env={**here, "PYTHONPATH": str(tmp_path / "site")})
    assert found.strip() == str(own / "lib/libsketch.so.1")


def test_the_same_commit_packs_alike(dist: Path, tmp_path: Path) -> None:
    """A wheel made again of the same files is the same, byte by byte."""
    again = make_wheel(TOP / "python", tmp_path, NOON)
    assert again.read_bytes() == (dist / again.name).read_bytes()


def test_one_version() -> None:
    heading = re.search(r"^## \[(\S+)\] - ", (TOP / "CHANGELOG.md").read_text(), re.MULTILINE)
    assert heading is not None and heading[1] == __version__
    assert f'#define SKETCH_VERSION "{__version__}"\n' in (TOP / "c/sketch.h").read_text()
    assert f"<version>{__version__}</version>" in (TOP / "freecad/package.xml").read_text()
    for page in (TOP / "man").iterdir():
        assert f'"pertxogai {__version__}"' in page.read_text().splitlines()[0], page.name
    for name in ("python/pyproject.toml", "c/sketch.pc.in", "c/CMakeLists.txt", "c/build"):
        assert __version__ not in (TOP / name).read_text(), f"{name} says the version itself"


@pytest.mark.skipif(not Path("/opt/rattle/rattle").is_dir(), reason="the kit is elsewhere")
def test_the_licences_are_those_of_the_kit() -> None:
    kit = Path("/opt/rattle/rattle")
    for name, source in KIT_LICENCES.items():
        assert (TOP / "licences" / f"{name}.txt").read_text() == (kit / source).read_text()
    lines = (TOP / "crates.txt").read_text().splitlines()[1:]
    names = {name for line in lines for name in line.partition(":")[2].split()}
    assert {it for it in names if not it.startswith("sk_")} == {"thiserror", "indexmap", "slab"}


@pytest.fixture
def repository(tmp_path: Path, program: Program) -> Path:
    """A clone of this tree, all committed, with the program where a build would put it."""
    clone = tmp_path / "clone"
    shutil.copytree(TOP, clone, ignore=APART)
    done("git", "-C", clone, "init", "-q")
    done("git", "-C", clone, "add", "-A")
    who = ["-c", "user.name=nobody", "-c", "user.email=nobody@localhost"]
    done("git", "-C", clone, *who, "commit", "-q", "-m", "all")
    built = clone / "crates/sketch/out/sketch"
    built.parent.mkdir()
    shutil.copy(program.path, built)
    return clone


def refusal(repository: Path, *words: object) -> str:
    """Why ./release makes nothing there."""
    ended = run(repository / "release", *words)
    assert ended.returncode == 1 and not (repository / "dist").exists(), ended.stdout
    return ended.stderr


@pytest.mark.skipif(shutil.which("git") is None, reason="git is missing")
def test_nothing_is_released_of_a_changed_or_unproved_tree(repository: Path) -> None:
    built = repository / "crates/sketch/out/sketch"
    assert "no gate is recorded: pass .ci/run on this commit" in refusal(repository)
    record = built.with_name("gate")
    record.write_text(f"commit {'0' * 40}\nprogram {'0' * 64}\n12 passed, 0 failed\n")
    assert "doesn't say that this commit and this program passed" in refusal(repository)
    output = repository.parent / "output"
    output.write_text("12 passed, 1 failed\n")
    assert "doesn't end in 'N passed, 0 failed'" in refusal(repository, "--gate", output)
    output.write_text("12 passed, 0 failed\n")
    assert "doesn't say that this commit" in refusal(repository, "--gate", output)
    os.utime(built, (NOON, NOON))
    assert "the program is older than crates" in refusal(repository)
    built.unlink()
    assert "the program isn't proved: ./sketch prove" in refusal(repository)
    (repository / "README.md").write_text("changed\n")
    assert "the tree is changed, first README.md" in refusal(repository)


def test_what_a_gate_says(tmp_path: Path) -> None:
    output, commit, checksum = tmp_path / "output", "c" * 40, "e" * 64
    passed, which = "1234 passed, 0 failed\n", f"commit {commit}\nprogram {checksum}\n"
    told = "kit kit-1 logic 0\n" + which
    output.write_text("1200 passed, 0 failed\n" + told + passed)
    assert Gate.of(output, commit, checksum) == Gate("1234 passed, 0 failed", "kit-1 logic 0")
    for wrong in ("", which + passed, told, told + "0 passed, 0 failed\n", told + passed + "killed\n",
                  told + "15 passed, 10 failed\n", passed, told[:-2] + "\n" + passed):
        output.write_text(wrong)
        with pytest.raises(Refused):
            Gate.of(output, commit, checksum)
    with pytest.raises(Refused, match="can't be read"):
        Gate.of(tmp_path / "none", commit, checksum)
