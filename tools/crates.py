"""The crates of crates.txt, and what each stands on."""
import contextlib
import fcntl
import os
import pathlib
import subprocess
import sys
import tempfile

TOP = pathlib.Path(__file__).resolve().parent.parent
PROGRAM = "sketch"
LAWS = "sk_laws"
"""The laws on what the program answers. It doesn't stand on them, and is proved with them."""


def program():
    """Where the program stands once it is built."""
    return TOP / "crates" / PROGRAM / "out" / PROGRAM


def before_changes():
    """The time now by the clock that dates the files of this folder, less a nanosecond: nanoseconds since 1970. What is
    changed from now on is newer. That clock lags behind time.time() and stands still for some milliseconds, so a change may
    get the very date of the file that is made here. Raises OSError where no file can be made in the folder."""
    with tempfile.TemporaryFile(dir=TOP) as file:
        return os.fstat(file.fileno()).st_mtime_ns - 1


def date(path, began):
    """Dates a file by when its proof began, as `before_changes` told it, so that each source that is changed since is newer."""
    os.utime(path, ns=(began, began))


def first_newer():
    """A source of the crates that is newer than the program, or nothing: as ./sketch looks for it."""
    kinds = ["(", "-name", "*.rt", "-o", "-name", "*.antt", "-o", "-name", "crates.txt", ")"]
    line = ["find", TOP / "crates", TOP / "crates.txt", "-name", "out", "-prune", "-o", *kinds, "-newer", program(), "-print", "-quit"]
    found = subprocess.run(line, stdout=subprocess.PIPE, text=True).stdout.splitlines()
    return pathlib.Path(found[0]) if found else None


def date_program(began):
    """Dates the program, which is proved, by when its proof began, and tells of a source that is newer all the same."""
    date(program(), began)
    newer = first_newer()
    if newer:
        say("%s was changed meanwhile, or is dated in the future: the program counts as older" % newer.relative_to(TOP))


def say(text):
    """A line of a tool about its work."""
    print("sketch: " + text, file=sys.stderr, flush=True)


def lock(path):
    """Waits until no other run has the file or folder. What is answered keeps others out until it is closed."""
    held = os.open(path, os.O_RDONLY if path.is_dir() else os.O_RDWR | os.O_CREAT)
    try:
        fcntl.flock(held, fcntl.LOCK_EX | fcntl.LOCK_NB)
    except BlockingIOError:
        say("waiting for another run to end, which is at work in %s" % path)
        fcntl.flock(held, fcntl.LOCK_EX)
    return held


@contextlib.contextmanager
def alone(names):
    """Keeps the gate, and other runs that prove one of these crates, out meanwhile: in the order in which the kit does."""
    gate = [TOP / ".git" / "rt-ci.lock"] if (TOP / ".git").is_dir() else []
    with contextlib.ExitStack() as held:
        for path in [*gate, *sorted(TOP / "crates" / name for name in names)]:
            held.callback(os.close, lock(path))
        yield


def name_of(line):
    """The crate that a line of crates.txt is about; the empty text where it is about none."""
    head, colon, _ = line.partition(":")
    return head.split()[0] if colon and not line.startswith("#") else ""


def is_static(name):
    """Whether a crate is made a static library."""
    return " staticlib" in lines([name]).partition(":")[0]


def direct():
    """For each crate the libraries that its line names, those of the kit among them."""
    lines = (TOP / "crates.txt").read_text().splitlines()
    return {name_of(line): line.partition(":")[2].split() for line in lines if name_of(line)}


def proved_with(name):
    """A crate, and what is proved where it is asked for: with the program the laws on what it answers."""
    return [name, LAWS] if name == PROGRAM else [name]


def needed(*names):
    """Crates and all that they stand on, each with the crates of this repository that its line names."""
    named, found, left = direct(), {}, [*names]
    while left:
        crate = left.pop()
        if crate not in found:
            found[crate] = [other for other in named[crate] if other in named]
            left += found[crate]
    return found


def lines(names):
    """The lines of crates.txt that are about these crates."""
    written = (TOP / "crates.txt").read_text().splitlines()
    return "".join(line + "\n" for line in written if name_of(line) in names)
