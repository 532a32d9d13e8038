"""Checksums of files, as sha256sum writes them."""
import hashlib
from pathlib import Path


def checksum(path: Path) -> str:
    """The SHA-256 of a file, in hexadecimal."""
    return hashlib.sha256(path.read_bytes()).hexdigest()


def write_checksums(folder: Path, name: str = "SHA256SUMS") -> None:
    """Writes a line for each file below a folder, by name, into a file there, for `sha256sum -c`."""
    files = sorted(each for each in folder.rglob("*") if each.is_file() and not each.is_symlink() and each.name != name)
    (folder / name).write_text("".join(f"{checksum(each)}  {each.relative_to(folder)}\n" for each in files))
