"""What the gate said of a commit and its program."""
import re
from dataclasses import dataclass
from pathlib import Path

from .refusal import Refused

RECORD = Path("crates/sketch/out/gate")
"""Where .ci/run leaves its record, which is the end of its output too: the kit, the commit, the program's checksum, its last
line."""
PASSED = re.compile(r"[1-9]\d* passed, 0 failed")
RUN = "pass .ci/run on this commit, or name its output by --gate FILE"


@dataclass(frozen=True)
class Gate:
    """The gate's last line, as `1234 passed, 0 failed`, and what `rt version` said of the kit that it ran with."""

    line: str
    kit: str

    @staticmethod
    def of(path: Path, commit: str, checksum: str) -> "Gate":
        """What a file that holds the gate's output, or its record, says in its last four lines. Raises Refused unless
        nothing failed, and it was this commit and the program of this checksum that passed."""
        try:
            text = path.read_text(errors="replace")
        except OSError as error:
            raise Refused(f"{path} can't be read ({error.strerror}): {RUN}") from None
        lines = [line.strip() for line in text.splitlines() if line.strip()]
        last = "".join(lines[-1:])
        if not PASSED.fullmatch(last):
            raise Refused(f"{path} doesn't end in 'N passed, 0 failed' but in '{last[:60]}': {RUN}")
        if lines[-3:-1] != [f"commit {commit}", f"program {checksum}"]:
            raise Refused(f"{path} doesn't say that this commit and this program passed: {RUN}")
        word, _, kit = "".join(lines[-4:-3]).partition(" ")
        if word != "kit" or not kit:
            raise Refused(f"{path} doesn't say with which kit they passed: {RUN}")
        return Gate(last, kit)

    @staticmethod
    def of_record(top: Path, commit: str, checksum: str) -> "Gate":
        """What .ci/run left behind in the repository at `top`. Raises Refused where it left nothing, and as `of`."""
        path = top / RECORD
        if not path.exists():
            raise Refused(f"no gate is recorded: {RUN}")
        return Gate.of(path, commit, checksum)
