"""A talk with the running program: a line goes in, its reply comes out before the next is written;
and what is said where it gives none."""
from __future__ import annotations

import subprocess
import sys
import time

import pytest

from conftest import EXAMPLES, TOP
from pertxogai.language import Angle, Ask, Distance, Drop, Erase, Line, Point, SetLength, Sketch
from pertxogai.language.refusal import Code
from pertxogai.program import (
    MissingProgram, Program, ProgramCrashed, ProgramSpoke, ProgramTimedOut, Status)
from pertxogai.program.live import LiveEnded, LiveProgram
from pertxogai.program.reports import (
    Accepted, CheckReport, RefusedEdit, Solved, Verdict, read_session)
from test_program import script

LINES = [
    "undo",
    "point A 0 0",
    "check",
    "point B 4 0  # drawn",
    "line L 0 0 10 0",
    "distance A B 4",
    "solve",
    "nothing",
    "on A L",
    "on B L",
    ".",
    "set 1 5",
    "drop 9",
    "check\r",
    "plan",
    "solve",
    "write",
    "erase A",
    "x" * 201,
    "end end",
    "sketch 1",
    "point C \x0c 0",
]


def test_each_reply_comes_before_the_next_line(program: Program) -> None:
    """The same replies as a session gives to all lines at once."""
    with LiveProgram.start(program) as talk:
        replies = tuple(talk.say(line) for line in LINES)
    assert replies == read_session(program.ask(["session"], "\n".join(LINES)).text)
    assert (replies[0], replies[1]) == (RefusedEdit(Code.S3), Accepted("A"))


def test_the_example_stays_in_step_after_a_line_with_a_fault(program: Program) -> None:
    """Each reply of the example stands below its own line; that of `piont` is its refusal alone."""
    ended = subprocess.run([sys.executable, TOP / "examples/talk.py", program.path], capture_output=True,
                           text=True, timeout=60, check=True)
    said = [block.partition("\n") for block in ended.stdout.split("> ")[1:]]
    assert [line for line, _, _ in said] == [
        "point A 0 0", "piont B 40 0", "point B 40 0", "distance A B 40", "check", "set 1 50", "solve"]
    replies = [reply for _, _, reply in said]
    assert replies[:4] == ["ok A\n", "refused E2 word\n", "ok B\n", "ok c1\n"]
    assert replies[4].startswith("verdict well\n") and replies[5] == "ok\n"
    assert "point B 50000000 0\n" in replies[6]


def test_the_marker_comes_as_the_page_draws_it(program: Program) -> None:
    """Behind a report, behind a line that is answered as the marker is, and behind a blank line."""
    given = ["point A 0 0", "point B 40 0", "distance A B 40", "check", ".", "piont C 0 0", ".", "", "."]
    marker = "refused E2 word"
    said = subprocess.run([program.path, "live"], input="".join(it + "\n" for it in given), capture_output=True,
                          text=True, timeout=60, check=True).stdout.splitlines()
    assert said[3:8] == ["verdict well", "elements 2", "constraints 1", "parts 1",
                         "part 1 sound elements 2 held 1 due 1 : A B"]
    assert said[8:] == [marker, marker, marker, marker]
    wrong = subprocess.run([program.path, "live", "bits=99"], stdin=subprocess.DEVNULL, capture_output=True, text=True)
    assert (wrong.returncode, wrong.stderr) == (2, "") and wrong.stdout.startswith("usage: sketch ")


def test_values_are_lines_too(program: Program) -> None:
    with LiveProgram.start(program) as talk:
        for line in Point("A", 0, 0), Point("B", 4000, 0), Line("L", 0, 0, 1000, 0):
            assert talk.say(line) == Accepted(line.name)
        assert talk.say(Distance("A", "B", 4000)) == Accepted("c1")
        assert talk.say(SetLength(1, 5000)) == Accepted(None)
        solved, report = talk.say(Ask.SOLVE), talk.say(Ask.CHECK)
        assert isinstance(report, CheckReport) and report.verdict is Verdict.OPEN
        assert solved == report
        assert talk.say(Erase("L")) == Accepted(None)
        solved = talk.say(Ask.SOLVE)
        assert isinstance(solved, Solved) and solved.place("B").text() == "point B 5000000 0"
        assert talk.say(Drop(2)) == RefusedEdit(Code.S1)
        assert talk.say(Angle("A", "B", 1, 0)) == RefusedEdit(Code.E7)
        written = talk.say(Ask.WRITE)
        assert isinstance(written, Sketch) and len(written.elements) == 2


@pytest.mark.parametrize("line", ["", " \t", "# a comment", "\r", "   # and blanks"])
def test_a_blank_line_has_no_reply(line: str, program: Program) -> None:
    with LiveProgram.start(program) as talk:
        assert talk.say(line) is None
        assert talk.say("point A 0 0") == Accepted("A")


@pytest.mark.parametrize("line", ["\x0c", "\xa0", "#" * 201, " " * 201, "\r\r", "# \u20ac"])
def test_a_line_that_only_looks_blank_has_one(line: str, program: Program) -> None:
    with LiveProgram.start(program) as talk:
        reply = talk.say(line)
        assert isinstance(reply, RefusedEdit) and reply.code in (Code.E15, Code.E19)
        assert talk.say("point A 0 0") == Accepted("A")


def test_keys_are_those_of_a_session(program: Program) -> None:
    with LiveProgram.start(program, ["bits=16", "frame=drawn"]) as talk:
        talk.say("point A 3 4")
        solved = talk.say("solve")
        assert isinstance(solved, Solved) and solved.bits == 16
        assert solved.place("A").text() == "point A 3000000 4000000"


@pytest.mark.parametrize("path", EXAMPLES, ids=lambda path: path.stem)
def test_an_example_is_judged_as_it_grows(path, program: Program) -> None:
    """The verdict of each example, line by line, is that of the command."""
    sketch = Sketch.parse(path.read_text())
    with LiveProgram.start(program) as talk:
        for line in (*sketch.elements, *sketch.constraints):
            assert isinstance(talk.say(line), Accepted)
        report = talk.say(Ask.CHECK)
    assert isinstance(report, CheckReport)
    assert report.text() == program.ask(["check"], path.read_text()).text


def test_the_end(program: Program) -> None:
    talk = LiveProgram.start(program)
    assert talk.say("point A 0 0") == Accepted("A")
    assert talk.end() is Status.DONE
    with pytest.raises(LiveEnded) as over:
        talk.say("check")
    assert over.value.status is Status.DONE and "\n" not in str(over.value)
    with LiveProgram.start(program) as other:
        assert other.say("end # of it") is None
        with pytest.raises(LiveEnded):
            other.end()


def test_what_is_no_line(program: Program) -> None:
    with LiveProgram.start(program) as talk:
        with pytest.raises(ValueError, match="line feed"):
            talk.say("point A 0 0\npoint B 0 0")
        assert talk.say("point A 0 0") == Accepted("A")


def test_words_that_are_not_of_the_form(program: Program) -> None:
    talk = LiveProgram.start(program, ["bits=20"])
    with pytest.raises(LiveEnded, match="usage: sketch") as ended:
        talk.say("point A 0 0")
    assert ended.value.status is Status.USAGE


def test_a_thousand_lines(program: Program) -> None:
    """Each is written after the reply to the one before; how long that takes, bench/run tells."""
    with LiveProgram.start(program) as talk:
        for number in range(1000):
            assert talk.say(f"point P{number} {number} 0") == Accepted(f"P{number}")


def answered(program: Program, text: str) -> list[str]:
    """The lines that `live` writes to a whole input, which may be longer than that of a session."""
    done = subprocess.run(
        [program.path, "live"], input=text, capture_output=True, text=True, check=True, timeout=50
    )
    return done.stdout.splitlines()


def test_a_million_edits(program: Program) -> None:
    """The last edit that is accepted is the millionth; questions are answered behind it too."""
    declared = "point A 0 0\npoint B 9 0\ndistance A B 9\n"
    text = declared + "set 1 5\n" * 999_997 + "set 1 6\nundo\ncheck\nend\n"
    replies = answered(program, text)
    assert replies[:3] == ["ok A", "ok B", "ok c1"]
    assert replies[3:1_000_000] == ["ok"] * 999_997
    assert replies[1_000_000:1_000_003] == ["refused S5 edits-spent"] * 2 + ["verdict well"]


def test_an_input_of_twenty_megabytes(program: Program) -> None:
    """A comment has no reply, and nothing of it is kept."""
    comment = "# " + "x" * 197 + "\n"
    assert answered(program, comment * 100_000 + "point A 0 0\n") == ["ok A"]


def test_a_program_that_is_missing(tmp_path) -> None:
    with pytest.raises(MissingProgram, match="can't be run"):
        LiveProgram.start(Program(str(tmp_path / "gone")))


def fails(kind: type[Exception], program: Program, *inside: str) -> None:
    """A talk fails so at its first line, and is over then; what was started is stopped."""
    talk = LiveProgram.start(program)
    with pytest.raises(kind) as error:
        talk.say("point A 0 0")
    assert "\n" not in str(error.value) and all(it in str(error.value) for it in inside)
    assert talk.process.poll() is not None
    with pytest.raises(LiveEnded):
        talk.say("check")


def test_a_program_that_crashes(tmp_path) -> None:
    crash = "read line; echo 'out of luck' >&2; kill -SEGV $$"
    fails(ProgramCrashed, Program(script(tmp_path, crash)), "signal 11", "out of luck", "point A")
    fails(ProgramCrashed, Program(script(tmp_path, "exit 77")), "status 77")
    fails(LiveEnded, Program(script(tmp_path, "read line; echo ok; exit 5")), "status 5", "'ok'")


def test_a_program_that_hangs(tmp_path) -> None:
    begin = time.monotonic()
    fails(ProgramTimedOut, Program(script(tmp_path, "exec sleep 30"), seconds=0.3), "0.3 s")
    deaf = "exec <&-; exec sleep 30"
    fails(ProgramTimedOut, Program(script(tmp_path, deaf), seconds=0.3), "more seconds")
    mute = "exec >&-; exec sleep 30"
    fails(ProgramTimedOut, Program(script(tmp_path, mute), seconds=0.3), "0.3 s")
    endless = LiveProgram.start(Program(script(tmp_path, "exec sleep 30"), seconds=0.3))
    with pytest.raises(ProgramTimedOut):
        endless.end()
    assert time.monotonic() - begin < 10


def test_a_program_that_floods_or_prints_rubbish(tmp_path) -> None:
    fails(ProgramSpoke, Program(script(tmp_path, "exec yes"), seconds=30), "64 MiB")
    rubbish = r"read line; printf '\377\n'; echo 'refused E2 word'; exec sleep 30"
    fails(ProgramSpoke, Program(script(tmp_path, rubbish)), "no text")


def test_a_program_that_reads_on_before_it_answers(tmp_path, program: Program) -> None:
    """The command `session` takes its whole input first, so that a talk with it waits in vain."""
    path = script(tmp_path, f'shift; exec "{program.path}" session "$@"')
    fails(ProgramTimedOut, Program(path, seconds=0.5), "0.5 s")
