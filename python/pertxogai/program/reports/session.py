"""What `session` answers: a reply to each line."""
from __future__ import annotations

from dataclasses import dataclass

from pertxogai.language.refusal import Code, Refusal
from pertxogai.language.sketch import Sketch
from pertxogai.program.reports.check import CheckReport, take_check
from pertxogai.program.reports.faults import Fault, take_fault
from pertxogai.program.reports.plan import Plan, take_plan
from pertxogai.program.reports.refused import code_of
from pertxogai.program.reports.rows import NAME, Rows, whole
from pertxogai.program.reports.solved import Solved, take_solve

_OK = f"ok(?: ({NAME}))?"
_REFUSED = "refused ([ES][1-9][0-9]?) ([a-z-]+)"
_FAULT = "fault .*"
_HEADER = "sketch [12]"
_LINE = "(?!end$).*"
_END = "end"


@dataclass(frozen=True)
class Accepted:
    """A line was accepted: the name of the element, or the `cI` of the constraint, that it made;
    None for an edit that makes none."""

    name: str | None

    def text(self) -> str:
        """The line of the reply, with its line feed."""
        return f"ok {self.name}\n" if self.name else "ok\n"


@dataclass(frozen=True)
class RefusedEdit:
    """A line was rejected, and changed nothing."""

    code: Code

    def text(self) -> str:
        """The line of the reply, with its line feed."""
        return f"refused {self.code.name} {self.code.word}\n"


Reply = Accepted | RefusedEdit | CheckReport | Plan | Solved | Fault | Sketch
"""The reply to a line of a session."""


def read_session(text: str) -> tuple[Reply, ...]:
    """Reads the replies of `session`, in order. Raises NotAReport."""
    replies: list[Reply] = []
    with whole(text, "session") as rows:
        while not rows.is_at_end():
            replies.append(_reply(rows))
    return tuple(replies)


def read_reply(text: str) -> Reply:
    """Reads the reply to one line. Raises NotAReport."""
    with whole(text, "a line of a session") as rows:
        return _reply(rows)


def _reply(rows: Rows) -> Reply:
    if found := rows.take_if(_OK):
        return Accepted(found[1])
    if found := rows.take_if(_REFUSED):
        return RefusedEdit(code_of(rows, found[1], found[2]))
    if rows.has(_FAULT):
        return take_fault(rows)
    if rows.has(_HEADER):
        return _take_sketch(rows)
    return _report(rows)


def _report(rows: Rows) -> CheckReport | Plan | Solved:
    """The report that begins with a verdict, by its second and its fourth line."""
    following = [line.split(" ")[0] for line in rows.lines[rows.next : rows.next + 4]]
    if following[1:2] == ["steps"]:
        return take_solve(rows)
    return take_plan(rows) if following[3:] == ["steps"] else take_check(rows)


def _take_sketch(rows: Rows) -> Sketch:
    start = rows.next
    for _ in rows.take_all(_LINE):
        pass
    rows.take(_END)
    text = "\n".join([*rows.lines[start : rows.next], ""])
    try:
        sketch = Sketch.parse(text)
    except Refusal:
        rows.next = start
        raise rows.fault() from None
    rows.claim(sketch.text() == text)
    return sketch
