"""What is built for a release, before it is put in its places."""
from dataclasses import dataclass
from pathlib import Path

from .checksums import checksum
from .gate import Gate


@dataclass(frozen=True)
class Made:
    """The committed files in the folder `tree`, the program, the folder that c/build made the library in, the wheel,
    the version, the time of the commit (seconds since 1970), and what stands in GATE."""

    tree: Path
    program: Path
    library: Path
    wheel: Path
    version: str
    time: int
    gate: str

    @property
    def shared(self) -> Path:
        """The shared library, under the name in its SONAME."""
        (path,) = self.library.glob("libsketch.so.*")
        return path


def gate_text(version: str, commit: str, gate: Gate, program: Path, library: Path) -> str:
    """What a release says of its gate: a word and its value on each line."""
    checksums = {each.name: checksum(each) for each in (program, library / "libsketch.a", library / "libsketch.so")}
    rows = {"pertxogai": version, "commit": commit, "gate": gate.line, "kit": gate.kit, **checksums}
    return "".join(f"{word} {value}\n" for word, value in rows.items())
