"""The kit's compiler, called as the kit's gate calls it: over the libraries of the crates below, as they stand."""
import os
import pathlib
import shutil
import subprocess

import crates


def place():
    """The kit's folder: what RATTLE_KIT names, else that of the command rt on the path."""
    command = pathlib.Path(shutil.which("rt") or "/opt/rattle/bin/rt")
    return pathlib.Path(os.environ.get("RATTLE_KIT") or command.resolve().parent.parent)


KIT = place()
RATTLE = KIT / "bin" / "rattle"
TARGET = "x86_64-unknown-linux-gnu"


def folder(name):
    return crates.TOP / "crates" / name


def library(name):
    """Where a crate's library stands, which those above are proved over."""
    return folder(name) / "out" / "rlib" / f"{name}.rlib"


def below(name):
    """The crates that one stands on, each with its library."""
    return [other for other in crates.needed(name) if other != name]


def words(name):
    """What the compiler is told of a crate: its root file, its libraries, those of the kit among them, and the logic."""
    ours = crates.direct()
    named = ours[name]
    told = ["--crate-name", name, "src/main.rt" if name == crates.PROGRAM else "src/lib.rt"]
    for other in ["std", *named]:
        told += ["--extern", f"{other}={library(other) if other in ours else KIT / 'rlibs' / f'{other}.rlib'}"]
    for place in [KIT / "rlibs", *(library(other).parent for other in below(name))]:
        told += ["-L", f"dependency={place}"]
    logic = ["--antt-project", KIT / "rattle/logic/antt-project.json", "--logic-built", KIT / "logic_built"]
    return [*told, *logic, "--links", f"{name}="]


def by_llvm():
    """What it is told besides where code is made that a machine runs."""
    return ["--toolchain", KIT / "toolchain", "--backend", "llvm"]


def archive(name):
    """Where a crate's static library stands."""
    return folder(name) / "out" / f"lib{name}.a"


def archive_words(name):
    """What the compiler is told of a crate that becomes a static library."""
    return [*words(name), "--crate-type", "staticlib", *by_llvm(), "-o", archive(name)]


def link_words(made, program):
    """The command that links what the compiler made of the program."""
    of_kit = [KIT / "c" / "libos_c.a", KIT / "c" / "liblibc_c.a"]
    return [KIT / "bin" / "rattle-link", "--target", TARGET, "--toolchain", KIT / "toolchain", "-o", program, made, *of_kit]


def start(words, name):
    """Starts a command of the kit in a crate's folder, in a process group of its own."""
    return subprocess.Popen([str(word) for word in words], cwd=folder(name), stdin=subprocess.DEVNULL, stdout=subprocess.PIPE,
                            stderr=subprocess.STDOUT, text=True, errors="replace", start_new_session=True)
