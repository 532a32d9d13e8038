"""An interactive session with a running program: `sketch live`, kept running. A line goes in, and
its reply comes out before the next one is written.

    with LiveProgram.start(Program.find()) as talk:
        talk.say(Point("A", 0, 0))
        print(talk.say(Ask.CHECK).verdict)

Nothing here decides anything: replies are the program's, as values.
"""
from __future__ import annotations

import os
import selectors
import subprocess
from collections.abc import Sequence
from contextlib import suppress
from dataclasses import dataclass, field
from time import monotonic
from types import TracebackType

from pertxogai.language.encoding import as_bytes
from pertxogai.language.lines import Row
from pertxogai.language.session import SessionLine
from pertxogai.program.errors import (
    MissingProgram, ProgramCrashed, ProgramError, ProgramSpoke, ProgramTimedOut)
from pertxogai.program.process import CHUNK, MOST_BYTES, Ended, Limits, limit_memory, stop
from pertxogai.program.reports.session import Reply, read_reply
from pertxogai.program.running import Program, Status

FENCE = b"."
"""No line of a session begins so; it is asked behind each line, and what it is answered ends the
reply to that."""
FENCED = b"refused E2 word\n"


class LiveEnded(ProgramError):
    """The session has ended: `status` is the program's exit status, or None if it was ended here.
    The message is one line."""

    def __init__(self, message: str, status: Status | None) -> None:
        super().__init__(message)
        self.status = status


@dataclass
class LiveProgram:
    """A running program, and its time limit for each reply, in seconds. After a reply that didn't
    come, or after the end of the session, it takes no more lines. One thread at a time may use
    it."""

    process: subprocess.Popen[bytes]
    seconds: float
    over: LiveEnded | None = None
    rest: bytearray = field(default_factory=bytearray)
    """What was read behind the last reply."""
    seen: int = 0
    """How many bytes of `rest` were looked through for the end of a reply; the last of them may
    begin its mark."""

    @staticmethod
    def start(program: Program, keys: Sequence[str] = ()) -> LiveProgram:
        """Starts a session with its keys, such as "bits=27". The program's time limit holds for
        each reply, its memory limit for the whole session. Raises MissingProgram."""
        words, pipe = [program.path, "live", *keys], subprocess.PIPE
        try:
            process = subprocess.Popen(
                words, stdin=pipe, stdout=pipe, stderr=pipe, bufsize=0, start_new_session=True
            )
        except (OSError, ValueError) as error:
            raise MissingProgram(f"{program.path} can't be run: {error}") from None
        assert process.stdin is not None
        os.set_blocking(process.stdin.fileno(), False)
        limit_memory(process, Limits(program.seconds, program.memory_mib))
        return LiveProgram(process, program.seconds)

    def say(self, line: SessionLine | str) -> Reply | None:
        """Writes a line and returns its reply, or None for a blank line or a comment. A line is a
        value, or a text without a line feed; a text may be rejected, which is a reply. `end` ends
        the session. Raises ProgramTimedOut, ProgramCrashed or ProgramSpoke, after which the session
        is over; LiveEnded if it was over before, or if the program ends; NotAReport if the reply
        can't be read; ValueError for a text with a line feed."""
        text = line if isinstance(line, str) else line.text()
        given = as_bytes(text)
        if b"\n" in given:
            raise ValueError("a line has no line feed in it: say one after the other")
        row = Row(1, given.removesuffix(b"\r"))
        words = row.words(True)
        if words == ["end"] and not row.fault():
            self.end()
            return None
        reply = self._exchange(given, has_reply=bool(words or row.fault()))
        return read_reply(reply) if reply else None

    def end(self) -> Status:
        """Ends the session, and returns the program's status. Raises ProgramTimedOut if the program
        doesn't end; if the session was over before, raises what had ended it."""
        if self.over:
            raise self.over
        assert self.process.stdin is not None
        with suppress(OSError):
            self.process.stdin.close()
        try:
            self.process.wait(self.seconds)
        except subprocess.TimeoutExpired:
            self._stop()
            raise self._late(b"end") from None
        ended = self._how_it_ended()
        self._stop()
        status = _status(ended.code)
        if status is None:
            raise ProgramCrashed(f"the program {ended.how()} at the end of the session")
        self.over = LiveEnded("the session was ended: start a new one", status)
        return status

    def __enter__(self) -> LiveProgram:
        return self

    def __exit__(
        self,
        kind: type[BaseException] | None,
        error: BaseException | None,
        trace: TracebackType | None,
    ) -> None:
        """Ends it where it isn't over, and stops what doesn't end."""
        if kind is None and not self.over:
            self.end()
        self._stop()

    def _exchange(self, line: bytes, has_reply: bool) -> str:
        """The text of the reply to a line. Whatever fails, the talk is over then."""
        if self.over:
            raise self.over
        ends = monotonic() + self.seconds
        left = memoryview(line + b"\n" + FENCE + b"\n")
        try:
            while (size := self._size(has_reply)) is None:
                left = self._serve(left, line, ends)
            reply = bytes(self.rest[:size])
            del self.rest[: size + len(FENCED)]
            return self._decode(reply)
        except BaseException:
            self._stop()
            raise

    def _size(self, has_reply: bool) -> int | None:
        """How many bytes the reply has, where the fence has come behind it. A reply has one line
        at least, which may read as the fence does."""
        if not has_reply:
            return 0 if self.rest.startswith(FENCED) else None
        place = self.rest.find(b"\n" + FENCED, max(0, self.seen - len(FENCED)))
        self.seen = 0 if place >= 0 else len(self.rest)
        return place + 1 if place >= 0 else None

    def _serve(self, left: memoryview, line: bytes, ends: float) -> memoryview:
        """Hands on some bytes, or takes some; what is left to be given."""
        process = self.process
        assert process.stdin is not None and process.stdout is not None
        with selectors.DefaultSelector() as ready:
            ready.register(process.stdout, selectors.EVENT_READ)
            if left:
                ready.register(process.stdin, selectors.EVENT_WRITE)
            found = ready.select(max(0.0, ends - monotonic()))
        if not found:
            raise self._late(line)
        for key, _ in found:
            if key.fileobj is process.stdout:
                self._take(line)
            else:
                left = left[self._give(left) :]
        return left

    def _give(self, left: memoryview) -> int:
        """How many bytes are handed on; all, where the program reads no more."""
        assert self.process.stdin is not None
        try:
            return os.write(self.process.stdin.fileno(), left[:CHUNK])
        except BrokenPipeError:
            return len(left)

    def _take(self, line: bytes) -> None:
        assert self.process.stdout is not None
        found = os.read(self.process.stdout.fileno(), CHUNK)
        self.rest += found
        if len(self.rest) > MOST_BYTES:
            raise ProgramSpoke(
                f"a reply has over {MOST_BYTES >> 20} MiB: is it the program `sketch`?"
            )
        if not found:
            raise self._end_error(line)

    def _end_error(self, line: bytes) -> ProgramError:
        """That the program ended before it answered."""
        try:
            self.process.wait(self.seconds)
        except subprocess.TimeoutExpired:
            return self._late(line)
        ended = self._how_it_ended()
        status, before = _status(ended.code), f"before it answered {_quote(line)}"
        if status is None:
            return ProgramCrashed(f"the program {ended.how()}, {before}")
        last = ended.written.splitlines()[-1:]
        said = "".join(f", and wrote {_quote(it)}" for it in last)
        return LiveEnded(f"the program ended with status {status.value} {before}{said}", status)

    def _how_it_ended(self) -> Ended:
        """How the program ended, which it has, with what it wrote behind its last reply."""
        assert self.process.stderr is not None
        os.set_blocking(self.process.stderr.fileno(), False)
        complaint = self.process.stderr.read() or b""
        return Ended(self.process.returncode, bytes(self.rest), complaint)

    def _late(self, line: bytes) -> ProgramTimedOut:
        return ProgramTimedOut(
            f"the program took over {self.seconds:g} s for {_quote(line)} and was stopped: give it"
            " more seconds, or a smaller sketch"
        )

    def _decode(self, reply: bytes) -> str:
        try:
            return reply.decode("ascii")
        except UnicodeDecodeError:
            raise ProgramSpoke(
                "the program wrote bytes that are no text: is it the program `sketch`?"
            ) from None

    def _stop(self) -> None:
        """Ends the program where it still runs, and all that it started."""
        if self.process.poll() is None:
            stop(self.process)
            self.process.wait()
        for pipe in (self.process.stdin, self.process.stdout, self.process.stderr):
            assert pipe is not None
            with suppress(OSError):
                pipe.close()
        self.over = self.over or LiveEnded("the session is over: start a new one", None)


def _status(code: int) -> Status | None:
    """The status of an exit status that is one of the program's."""
    return Status(code) if code in list(Status) else None


def _quote(line: bytes) -> str:
    """A line as a message shows it."""
    return repr(line[:60].decode("ascii", "replace"))
