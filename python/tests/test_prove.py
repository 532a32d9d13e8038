"""What ./sketch prove does, where nothing was proved before, where all is proved, and where work is kept."""
from __future__ import annotations

import os
import re
import shutil
import subprocess
import time
from pathlib import Path

import pytest
from conftest import TOP

COMPILER = """\
name=$3
echo "$*" >>"$CALLS"
eval "$MEANWHILE"
[ "$BROKEN" = "$name" ] && { echo "fn $name::f: not proved"; exit 1; }
while [ "$1" != -o ]; do shift; done; to=$2
case $to in
    *.rlib) mkdir -p "$to" ;;
    *) echo "$name" >"$to" ;;
esac
"""
LINKER = """\
while [ "$1" != -o ]; do shift; done
cp "$3" "$2"
chmod +x "$2"
"""


def put(path: Path, text: str) -> None:
    """Writes a program into a file."""
    path.parent.mkdir(parents=True, exist_ok=True)
    path.write_text("#!/bin/sh\n" + text)
    path.chmod(0o755)


@pytest.fixture
def repository(tmp_path: Path) -> Path:
    """A program of three crates and its laws, a crate of tests, and a kit of stand-ins that take no time: the real
    one is run by bench/from-nothing, and takes a quarter of an hour."""
    top = tmp_path / "repository"
    for crate in ("sk_base", "sketch", "sk_tests", "sk_cli", "sk_laws"):
        (top / "crates" / crate / "src").mkdir(parents=True)
        (top / "crates" / crate / "src/lib.rt").write_text("// code\n")
    shutil.copy(TOP / "crates/sk_cli/src/top.rt", top / "crates/sk_cli/src/top.rt")
    (top / "crates.txt").write_text("# the crates\nsk_base: thiserror\nsk_tests: sk_base\nsketch: sk_base sk_cli\nsk_laws: sk_cli\nsk_cli: sk_base\n")
    (top / "tools").mkdir()
    for file in ("sketch", "tools/build", "tools/crates.py", "tools/kit.py", "tools/schedule.py"):
        shutil.copy(TOP / file, top / file)
    put(top / "tools/prove", 'echo "over kept work: $*" >&2\n')
    put(tmp_path / "kit/bin/rattle", COMPILER)
    put(tmp_path / "kit/bin/rattle-link", LINKER)
    put(tmp_path / "kit/bin/rt", "exit 1\n")
    (tmp_path / "kit/KIT-ID").write_text("a kit\n")
    return top


def surroundings(top: Path, kit: str | None = None) -> dict[str, str]:
    """What the tools are told of the stand-ins: the kit, and where the compiler notes its calls."""
    stand_in = top.parent / "kit"
    told = {"PATH": f"{stand_in}/bin:{os.environ['PATH']}", "CALLS": str(top.parent / "calls"), "BROKEN": "", "MEANWHILE": ":"}
    return {**told, "RATTLE_KIT": str(stand_in) if kit is None else kit}


def prove(top: Path, *words: str, broken: str = "", meanwhile: str = ":", kit: str | None = None) -> tuple[int, list[str]]:
    """The status of ./sketch prove, and the lines of its standard error without their times. A crate that is broken isn't
    proved. The program and its laws are proved side by side: the program is put first."""
    here = {**os.environ, **surroundings(top, kit), "BROKEN": broken, "MEANWHILE": meanwhile}
    line = [top / "sketch", "prove", *words]
    done = subprocess.run(line, stdin=subprocess.DEVNULL, capture_output=True, text=True, env=here)
    assert done.stdout == ""
    said = re.sub(r"(, | in)[^,\n]*\d s$", "", done.stderr, flags=re.MULTILINE)
    said = re.sub(r"(3 of 4): sk_laws\n(.*4 of 4): sketch\n", r"\1: sketch\n\2: sk_laws\n", said)
    return done.returncode, said.splitlines()


def calls(top: Path) -> list[list[str]]:
    """The words of each call of the compiler so far."""
    said = top.parent / "calls"
    return [line.split() for line in said.read_text().splitlines()] if said.exists() else []


def proved(top: Path) -> list[str]:
    """The crates that were proved since this was asked last, the program before its laws."""
    names = [call[2] for call in calls(top)]
    (top.parent / "calls").write_text("")
    return sorted(names, key=[*EACH, "sk_c"].index)


def is_stale(top: Path) -> bool:
    """Whether the source of the lowest crate is newer than the program, as ./sketch sees it."""
    line = ["find", top / "crates/sk_base/src/lib.rt", "-newer", top / "crates/sketch/out/sketch"]
    return subprocess.run(line, capture_output=True, text=True, check=True).stdout != ""


EACH = ["sk_base", "sk_cli", "sketch", "sk_laws"]
STANDS = "sketch: the program is proved, and no source differs"
OLDER = "sketch: crates/sk_base/src/lib.rt was changed meanwhile, or is dated in the future: the program counts as older"
ALL = [
    "sketch: proving 4 crates, 2 at once",
    "sketch: 1 of 4: sk_base",
    "sketch: 2 of 4: sk_cli",
    "sketch: 3 of 4: sketch",
    "sketch: 4 of 4: sk_laws",
    "sketch: proved and built",
]


def test_from_nothing_the_crates_of_the_program_are_proved_and_it_is_built(repository: Path) -> None:
    assert prove(repository, "--jobs", "2") == (0, ALL)
    base, answers, program = (next(it for it in calls(repository) if it[2] == name) for name in ("sk_base", "sk_cli", "sketch"))
    kit, library = repository.parent / "kit", repository / "crates/sk_base/out/rlib/sk_base.rlib"
    assert base[:4] == ["build", "--crate-name", "sk_base", "src/lib.rt"]
    assert "--statements" in base and f"thiserror={kit}/rlibs/thiserror.rlib" in base and "--incremental" not in base
    assert answers[2] == "sk_cli" and "--incremental" in answers and "--statements" not in answers
    assert program[:4] == ["build", "--crate-name", "sketch", "src/main.rt"]
    assert f"sk_base={library}" in program and f"dependency={library.parent}" in program
    built = repository / "crates/sketch/out/sketch"
    assert built.read_text() == "sketch\n" and os.access(built, os.X_OK)
    assert proved(repository) == EACH
    assert not (repository / "crates/sk_tests/out").exists()


def test_what_is_proved_is_proved_again_where_a_source_is_newer_and_differs(repository: Path) -> None:
    prove(repository)
    assert proved(repository) == EACH
    assert prove(repository) == (0, [STANDS])
    for changed, again in (("sketch", ["sketch"]), ("sk_laws", ["sk_laws"]), ("sk_base", EACH)):
        (repository / f"crates/{changed}/src/lib.rt").write_text("// other code\n")
        assert prove(repository, "--jobs", "2") == (0, ALL)
        assert proved(repository) == again


def test_a_library_that_is_gone_is_proved_again_with_those_above(repository: Path) -> None:
    prove(repository)
    shutil.rmtree(repository / "crates/sk_base/out")
    (repository / "crates/sketch/out/sketch").unlink()
    assert proved(repository) == EACH
    prove(repository)
    assert proved(repository) == EACH


def test_what_was_changed_in_its_own_proof_is_proved_again_and_the_program_is_stale_till_then(repository: Path) -> None:
    edit = f'[ $name != sk_base ] || echo "// more" >>{repository}/crates/sk_base/src/lib.rt'
    assert prove(repository, "--jobs", "2", meanwhile=edit) == (0, [*ALL, OLDER])
    assert is_stale(repository)
    assert proved(repository) == EACH
    assert prove(repository, "--jobs", "2") == (0, ALL)
    assert not is_stale(repository)
    assert proved(repository) == EACH
    assert prove(repository) == (0, [STANDS])


def test_a_source_that_is_dated_as_the_very_beginning_is_newer(repository: Path) -> None:
    prove(repository)
    began = (repository / "crates/sketch/out/sketch").stat().st_mtime_ns
    os.utime(repository / "crates/sk_base/src/lib.rt", ns=(began + 1, began + 1))
    assert is_stale(repository)


def test_a_source_that_is_dated_in_the_future_is_told(repository: Path) -> None:
    source, later = repository / "crates/sk_base/src/lib.rt", time.time() + 3600
    os.utime(source, (later, later))
    assert prove(repository, "--jobs", "2") == (0, [*ALL, OLDER])
    assert prove(repository) == (0, [STANDS, OLDER])


def test_a_lock_that_an_editor_leaves_stops_nothing(repository: Path) -> None:
    (repository / "crates/sk_base/src/.#lib.rt").symlink_to("someone@nowhere.4711")
    assert prove(repository, "--jobs", "2")[0] == 0
    assert (repository / "crates/sketch/out/sketch").exists()


def test_where_linking_fails_the_program_that_stood_stays(repository: Path) -> None:
    prove(repository)
    built = repository / "crates/sketch/out/sketch"
    stood = built.stat().st_mtime_ns
    (repository / "crates/sketch/src/lib.rt").write_text("// other code\n")
    put(repository.parent / "kit/bin/rattle-link", "exit 1\n")
    assert prove(repository)[0] == 1
    assert built.stat().st_mtime_ns == stood and built.read_text() == "sketch\n"


def test_another_kit_a_file_that_went_and_one_with_an_older_date_are_seen(repository: Path) -> None:
    extra = repository / "crates/sk_base/src/extra.rt"
    extra.write_text("// more\n")
    prove(repository)
    assert proved(repository) == EACH
    extra.unlink()
    prove(repository)
    assert proved(repository) == EACH
    extra.write_text("// other\n")
    os.utime(extra, (1, 1))
    prove(repository)
    assert proved(repository) == EACH
    (repository.parent / "kit/KIT-ID").write_text("a later kit\n")
    prove(repository)
    assert proved(repository) == EACH
    assert prove(repository) == (0, [STANDS])


def test_a_program_of_the_gate_that_no_source_is_newer_than_is_taken_as_it_is(repository: Path) -> None:
    put(repository / "crates/sketch/out/sketch", "")
    assert prove(repository) == (0, ["sketch: the program is proved, and no source is newer"])


def test_the_kit_is_that_of_the_command_rt_where_none_is_named(repository: Path) -> None:
    assert prove(repository, kit="")[0] == 0
    assert f"std={repository.parent}/kit/rlibs/std.rlib" in calls(repository)[0]


def test_a_static_library_is_built_where_it_is_named(repository: Path) -> None:
    (repository / "crates.txt").write_text("sk_base:\nsk_c staticlib: sk_base\nsketch: sk_base\n")
    (repository / "crates/sk_c/src").mkdir(parents=True)
    here = {**os.environ, **surroundings(repository)}
    subprocess.run([repository / "tools/build", "sk_c"], env=here, check=True, capture_output=True)
    assert "--crate-type" in calls(repository)[1] and (repository / "crates/sk_c/out/libsk_c.a").exists()
    assert proved(repository) == ["sk_base", "sk_c"]


def test_where_a_crate_is_not_proved_it_is_said_and_nothing_above_is_built(repository: Path) -> None:
    status, lines = prove(repository, broken="sk_base")
    assert status == 1
    assert lines[1:] == ["fn sk_base::f: not proved", "sketch: sk_base isn't proved, so sketch isn't built"]
    assert len(calls(repository)) == 1 and not (repository / "crates/sketch/out").exists()
    assert prove(repository)[0] == 0


def test_kept_work_and_a_crate_by_its_name_go_on_from_what_was_proved(repository: Path) -> None:
    assert prove(repository, "sk_base") == (0, ["over kept work: sk_base"])
    assert prove(repository, "--jobs", "2", "sk_base") == (0, ["over kept work: --jobs 2 sk_base"])
    (repository / "crates/sketch/out/incremental").mkdir(parents=True)
    assert prove(repository) == (0, ["over kept work: "])
