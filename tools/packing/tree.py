"""The repository as it is committed."""
from dataclasses import dataclass
from pathlib import Path

from .refusal import Refused
from .running import said


@dataclass(frozen=True)
class Tree:
    """A repository at `top`, whose files are those of `commit`, made at `time` (seconds since 1970)."""

    top: Path
    commit: str
    time: int

    @staticmethod
    def of(top: Path) -> "Tree":
        """The tree at that folder. Raises Refused where it isn't the top of a repository, or a file isn't as it was
        committed."""
        if Path(said("git", "-C", top, "rev-parse", "--show-toplevel").strip()) != top:
            raise Refused(f"{top} isn't the top of a repository of git: clone it, and release from the clone")
        changed = said("git", "-C", top, "status", "--porcelain", "--untracked-files=normal").splitlines()
        if changed:
            first = changed[0][3:]
            raise Refused(f"the tree is changed, first {first}: commit that or take it away, and pass .ci/run again")
        commit, time = said("git", "-C", top, "log", "-1", "--format=%H %ct").split()
        return Tree(top, commit, int(time))

    def unpack(self, room: Path) -> None:
        """Puts the committed files into a folder, and nothing else."""
        packed = room.parent / (room.name + ".tar")
        said("git", "-C", self.top, "archive", "-o", packed, self.commit)
        room.mkdir()
        said("tar", "-xf", packed, "-C", room)
        packed.unlink()
