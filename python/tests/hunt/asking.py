"""What `./pertxogai judge` says of a text, as anybody would be told it: its exit status and its JSON."""
from __future__ import annotations

import io
import json
import os
import signal
import tempfile
import traceback
from collections.abc import Callable, Iterator
from contextlib import (
    AbstractContextManager, ExitStack, contextmanager, nullcontext, redirect_stderr,
    redirect_stdout)
from dataclasses import dataclass, field
from pathlib import Path
from types import FrameType, ModuleType
from typing import Any
from unittest.mock import patch

from pertxogai.commands import judging, main
from pertxogai.judging import groups, judgement, missing
from pertxogai.program import Solver

SECONDS = float(os.environ.get("HUNT_SECONDS", "60"))
"""An answer takes no more of a processor, or is none: on a machine that does something else besides,
the clock says nothing. The program has a limit of its own."""

UNCOMPARED: tuple[tuple[ModuleType, str, Callable[..., Any]], ...] = (
    (judging, "_proposals", lambda judged, program: ()),
    (judgement, "with_choices", lambda judged, program: judged),
    (missing, "unmet", lambda drawing: None),
    (groups, "groups_of", lambda *_, **__: {}),
)
"""What would complete a drawing, other choices of its steps, what an impossible one would need, and
the groups behind what may go: what these say is compared with nothing. Where they are left out, it
isn't seen either that one of them ends in a traceback, or comes late."""


class Late(BaseException):
    """No answer came in time."""


@dataclass(frozen=True)
class Answer:
    """What was said: the exit status, the object of JSON of the sketch, what was written to standard
    error, and the traceback that came instead of all that."""

    status: int | None
    said: dict[str, Any] = field(default_factory=dict)
    complaint: str = ""
    crash: str = ""
    late: bool = False

    @property
    def verdict(self) -> str:
        """The program's verdict; none where nothing was judged."""
        return str(self.said.get("verdict", "none"))

    def is_good(self) -> bool:
        """Whether the judgement is good."""
        return self.status == 0

    def names(self, key: str) -> list[Any]:
        """A list of what was said."""
        return list(self.said.get(key) or [])


def asked(text: str, seconds: float = SECONDS, search: bool = True,
          solver: Solver | None = None, all_of_it: bool = True) -> Answer:
    """What `judge --json` says of a drawing's text, with or without the search, by the program, or
    by another solver such as the library in C within this process, which is quicker; all of it, or
    what is compared alone, which is quicker still."""
    words = [] if search else ["--no-search"]
    with tempfile.TemporaryDirectory() as room, _by(solver), _whole(all_of_it):
        path = Path(room) / "part.drawing"
        path.write_text(text)
        out, err = io.StringIO(), io.StringIO()
        try:
            with _within(seconds), redirect_stdout(out), redirect_stderr(err):
                status = main(["judge", "--json", *words, str(path)])
        except Late:
            return Answer(None, late=True)
        except Exception:  # Whatever it is, it is a finding.
            return Answer(None, crash=traceback.format_exc())
    said = json.loads(out.getvalue())["sketches"][0] if out.getvalue() else {}
    return Answer(int(status), said, err.getvalue().strip())


def _by(solver: Solver | None) -> AbstractContextManager[Any]:
    """Has `judge` ask a solver in place of the program, where one is named."""
    if solver is None:
        return nullcontext()
    return patch.object(judging, "program_of", lambda _: solver)


@contextmanager
def _whole(all_of_it: bool) -> Iterator[None]:
    """Has `judge` leave out what is compared with nothing, unless all is wanted."""
    with ExitStack() as changed:
        for module, name, instead in () if all_of_it else UNCOMPARED:
            changed.enter_context(patch.object(module, name, instead))
        yield


@contextmanager
def _within(seconds: float) -> Iterator[None]:
    """Raises Late where what is done within takes longer."""
    def late(_: int, __: FrameType | None) -> None:
        raise Late

    before = signal.signal(signal.SIGPROF, late)
    signal.setitimer(signal.ITIMER_PROF, seconds)
    try:
        yield
    finally:
        signal.setitimer(signal.ITIMER_PROF, 0)
        signal.signal(signal.SIGPROF, before)
