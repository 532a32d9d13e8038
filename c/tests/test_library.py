"""The library beside the program: the same answers, from many threads, with memory refused, and nothing else shown."""
import itertools
import os
import pathlib
import shutil
import subprocess

import pytest

TOP = pathlib.Path(__file__).resolve().parents[2]
HERE = TOP / "c"
PROGRAM = os.environ.get("PERTXOGAI_SKETCH", str(TOP / "crates/sketch/out/sketch"))
STRICT = ["-Wall", "-Wextra", "-Wpedantic", "-Werror", "-O2", f"-I{HERE}"]
SKETCHES = sorted([*(TOP / "examples").glob("*.sketch"), *(TOP / "examples/faults").glob("*.sketch")])
COMMANDS = ["check", "plan", "plan order=last", "solve", "solve bits=16", "solve place=points", "solve frame=drawn", "dxf", "parts", "excess", "why", "complete",
            "offers", "measure", "session", "live", "migrate", "verify", "spare", "flips", "derive", "grow n=9", "nonsense", "", "check  ", "check order="]


def run(*words, **how):
    return subprocess.run([str(word) for word in words], capture_output=True, **how)


def compiled(*words, **how):
    done = run(*words, **how)
    assert done.returncode == 0, done.stderr.decode()


@pytest.fixture(scope="session")
def room(tmp_path_factory):
    """A folder with the library, which c/build makes of what is proved."""
    folder = tmp_path_factory.mktemp("library")
    compiled(HERE / "build", folder)
    return folder


@pytest.fixture(scope="session")
def judge(room):
    compiled("cc", "-std=c99", *STRICT, HERE / "examples/judge.c", room / "libsketch.a", "-o", room / "judge")
    return room / "judge"


@pytest.fixture(scope="session")
def faults(room):
    """A program whose requests for memory are refused, one after the other."""
    compiled("cc", "-std=gnu11", *STRICT, HERE / "tests/faults.c", room / "libsketch.a",
             "-Wl,--wrap=malloc,--wrap=realloc,--wrap=free", "-o", room / "faults")
    return room / "faults"


def test_a_folder_has_the_shared_library_without_a_symbolic_link(room):
    """`rt ci` refuses each symbolic link in the repository, where c/out is: with one the gate wouldn't run again."""
    assert not [each for each in room.iterdir() if each.is_symlink()]
    compiled("cc", "-std=c99", *STRICT, HERE / "examples/places.c", "-L", room, "-lsketch", "-o", room / "places_shared")
    asked = run("objdump", "-p", room / "places_shared").stdout.decode()
    assert "NEEDED               libsketch.so.1\n" in asked
    done = run(room / "places_shared", env={"LD_LIBRARY_PATH": str(room)})
    assert (done.returncode, done.stderr) == (0, b"")


@pytest.mark.parametrize("sketch", SKETCHES, ids=lambda path: path.stem)
def test_the_answers_are_the_programs(judge, sketch):
    for command in COMMANDS:
        wanted = run(PROGRAM, *command.split(), stdin=sketch.open("rb"))
        found = run(judge, sketch, command)
        assert (found.returncode, found.stdout) == (wanted.returncode, wanted.stdout), command


def test_judge_ends_with_another_status_if_it_cannot_read_or_write(judge):
    """As the program does: 3 and 4. A folder can be opened, and not read."""
    for unread in (TOP, TOP / "nowhere.sketch"):
        found = run(judge, unread)
        assert (found.returncode, found.stdout) == (3, b"") and str(unread).encode() in found.stderr
    with open("/dev/full", "wb") as full:
        assert subprocess.run([judge, SKETCHES[0]], stdout=full).returncode == 4


def test_eight_threads_answer_as_one(room):
    compiled("cc", "-std=gnu11", *STRICT, HERE / "tests/threads.c", room / "libsketch.a", "-lpthread", "-o", room / "threads")
    done = run(room / "threads", 8, 2, *SKETCHES)
    assert done.returncode == 0, done.stdout


@pytest.mark.parametrize("command", ["check", "plan", "solve place=points", "solve frame=drawn", "parts", "excess", "why", "complete", "flips",
                                     "derive", "spare", "session", "live"])
def test_each_request_for_memory_is_refused_in_turn(faults, command):
    done = run(faults, TOP / "examples/bracket.sketch", command)
    assert done.returncode == 0, done.stdout


def test_no_byte_beyond_and_none_lost(room):
    """Under AddressSanitizer, whose leaks and overruns end with another status."""
    for example in ("places", "session"):
        compiled("cc", "-std=c99", "-g", "-fsanitize=address", *STRICT, HERE / f"examples/{example}.c",
                 room / "libsketch.a", "-o", room / f"{example}_checked")
        done = run(room / f"{example}_checked")
        assert (done.returncode, done.stderr) == (0, b"")
    compiled("cc", "-std=gnu11", "-g", "-fsanitize=address", *STRICT, HERE / "tests/threads.c", room / "libsketch.a",
             "-lpthread", "-o", room / "threads_checked")
    done = run(room / "threads_checked", 2, 1, *SKETCHES[:8])
    assert (done.returncode, done.stderr) == (0, b"")


def test_one_symbol_is_shown_and_the_c_library_alone_is_asked(room):
    shown = run("nm", "-D", "--defined-only", room / "libsketch.so").stdout.decode().split()
    assert shown[2::3] == ["sketch_answer"]
    asked = run("nm", "-D", "--undefined-only", room / "libsketch.so").stdout.decode().split()
    names = {name.partition("@")[0] for name in asked if len(name) > 1}
    assert names <= {"malloc", "realloc", "free", "memcpy", "memmove", "memset", "memcmp", "bcmp", "calloc",
                     "__cxa_finalize", "_ITM_deregisterTMCloneTable", "_ITM_registerTMCloneTable", "__gmon_start__"}
    hidden = run("nm", "-g", "--defined-only", room / "libsketch.a").stdout.decode().split()
    assert [name for name in hidden if name.startswith("sk")] == ["sketch.o:", "sketch_answer"]


@pytest.mark.parametrize("name", ["libsketch.a", "libsketch.so"])
def test_the_library_has_about_a_megabyte(room, name):
    assert 700_000 < (room / name).stat().st_size < 1_300_000


def test_the_examples_say_what_the_guide_shows(room):
    compiled("cc", "-std=c99", *STRICT, HERE / "examples/places.c", room / "libsketch.a", "-o", room / "places")
    assert run(room / "places").stdout.decode().splitlines() == [
        "A lies at 0.000000, 0.000000 mm", "B lies at 40.000000, 0.000000 mm", "C lies at 40.000000, 30.000000 mm"]
    compiled("cc", "-std=c99", *STRICT, HERE / "examples/session.c", room / "libsketch.a", "-o", room / "session")
    replies = run(room / "session").stdout.decode().splitlines()
    assert replies[:6] == ["ok A", "ok B", "ok C", "ok c1", "ok c2", "verdict open"]
    # the height of C over A and B, with sides of 4, 3 and 9: its square is 81 - 11 * 11 = -40, in parts of 2^-38
    assert "fault s1 build height C gap -10995116277760 -10995116277760 bits 38" in replies
    assert replies[-3:] == ["point C 4000000 3000000", "length tolerance 0 nm at c1", "angle tolerance 0 ppb at none"]
    compiled("cc", "-std=c99", *STRICT, HERE / "examples/diagnose.c", room / "libsketch.a", "-o", room / "diagnose")
    # of 40 the line says 41; the drawn C lies 50 from A; over 5 a C with two sides of 1 has a height whose square is 1 - 2.5 * 2.5
    assert run(room / "diagnose").stdout.decode().splitlines() == [
        "conflicting: distance A B 41, off by -1000000 nm", "redundant: distance B C 30, off by 0 nm",
        "missing: distance A C 50", "height of C in step s1: gap, between -5.25 and -5.25"]
    # an element may have any name, also one that reads like the end of a line
    source = HERE / "tests/excess_lines.c"
    compiled("cc", "-std=c99", *STRICT, f"-I{HERE}/examples", source, room / "libsketch.a", "-o", room / "excess_lines")
    assert run(room / "excess_lines").stdout.decode().splitlines() == [
        "conflicting: distance repeat off 41, off by -1000000 nm", "redundant: on repeat off, off by 5 nm",
        "conflicting: angle conflict off 1/1, off by 500000000 ppb",
        "conflicting: tangent off conflict, off by 0 nm turned drawn + placed -1",
        "redundant: block repeat 0 0 off 4 0 conflict -1.5 3, off by 0 nm", "one too many: on repeat conflict"]
    compiled("c++", "-std=c++17", *STRICT, HERE / "examples/judge.cpp", room / "libsketch.a", "-o", room / "judge_cpp")
    assert run(room / "judge_cpp").stdout.decode() == "verdict open\nverdict well\n1 refused line 10 E16 no-end\n"


@pytest.mark.parametrize("sanitizer", [[], ["-fsanitize=address"]], ids=["plain", "sanitized"])
def test_a_plate_is_moved_to_the_origin(room, tmp_path, sanitizer):
    """The plate is 100 wide and 60 high, with A at the lower left; unmoved it lies elsewhere."""
    source = HERE / "examples/origin.c"
    compiled("cc", "-std=c99", *STRICT, *sanitizer, source, room / "libsketch.a", "-o", tmp_path / "origin")
    assert run(tmp_path / "origin").stdout.decode().splitlines() == [
        "A lies at 0.000, 0.000 mm", "B lies at 100.000, 0.000 mm", "C lies at 100.000, 60.000 mm", "D lies at 0.000, 60.000 mm"]


@pytest.mark.parametrize("example", ["places", "origin"])
def test_an_example_says_that_memory_ran_out(room, tmp_path, example):
    """Whichever request is the first that is refused: there is no text then, or an empty one, or its beginning."""
    compiled("cc", "-std=gnu11", *STRICT, HERE / f"examples/{example}.c", HERE / "tests/refusing.c",
             room / "libsketch.a", "-Wl,--wrap=malloc,--wrap=realloc", "-o", tmp_path / example)
    statuses = set()
    for granted in itertools.count():
        done = run(tmp_path / example, env={"GRANTED": str(granted)})
        if done.returncode == 0:
            break
        statuses.add(done.returncode)
        assert (done.stdout, done.stderr) == (b"", b"status %d: out of memory\n" % done.returncode)
    assert statuses == {4, 5}


def test_linking_as_the_guide_says(room, tmp_path):
    found = run("pkg-config", "--cflags", "--libs", "sketch", env={**os.environ, "PKG_CONFIG_PATH": str(room)})
    flags = found.stdout.decode().split() if found.returncode == 0 else [f"-I{room}", f"-L{room}", "-lsketch"]
    compiled("cc", HERE / "examples/places.c", *flags, "-o", tmp_path / "places")
    done = run(tmp_path / "places", env={"LD_LIBRARY_PATH": str(room)})
    assert done.stdout.startswith(b"A lies at 0.000000, 0.000000 mm\n")


@pytest.mark.skipif(not (shutil.which("cmake") and shutil.which("pkg-config")), reason="cmake or pkg-config is missing")
def test_a_project_of_cmake_as_the_guide_says(room, tmp_path):
    here = {**os.environ, "PKG_CONFIG_PATH": str(room)}
    compiled("cmake", "-S", HERE / "examples", "-B", tmp_path, env=here)
    compiled("cmake", "--build", tmp_path, env=here)
    assert run(tmp_path / "places").stdout.startswith(b"A lies at 0.000000, 0.000000 mm\n")
    lines = (HERE / "examples/CMakeLists.txt").read_text().splitlines()[-4:]
    assert "\n".join(lines) in (TOP / "docs/EMBEDDING.md").read_text()


@pytest.mark.skipif(not shutil.which("cmake"), reason="cmake is missing")
def test_cmake_says_what_to_do_where_the_library_is_missing(tmp_path):
    done = run("cmake", "-S", HERE, "-B", tmp_path / "build", f"-DSKETCH_FOLDER={tmp_path}")
    said = b" ".join(done.stderr.split())
    assert done.returncode != 0 and b"Run c/build" in said and b"-DSKETCH_FOLDER=/usr/lib" in said
