"""Code of others that a release contains, as licences/README.md tells it."""
from dataclasses import dataclass


@dataclass(frozen=True)
class Linked:
    """Something of others in the program and the library: its name, version, licence (an SPDX expression, or
    NOASSERTION where none is stated) and what it is a port of, as a package URL; "" where that isn't known."""

    name: str
    version: str
    licence: str
    origin: str = ""


def linked(kit: str, c_library: str, compiler: str) -> tuple[Linked, ...]:
    """What is linked, with the versions of the kit, of the GNU C Library and of GCC on this machine."""
    return (
        Linked("thiserror (Rattle kit)", "2.0.21", "MIT OR Apache-2.0", "pkg:cargo/thiserror@2.0.21"),
        Linked("indexmap (Rattle kit)", "2.14.2", "Apache-2.0 OR MIT", "pkg:cargo/indexmap@2.14.2"),
        Linked("slab (Rattle kit)", "0.4.12", "MIT", "pkg:cargo/slab@0.4.12"),
        Linked("standard library of the Rattle kit", kit, "NOASSERTION"),
        Linked("glibc start files", c_library, "LGPL-2.1-or-later"),
        Linked("GCC start files and libgcc", compiler, "GPL-3.0-or-later WITH GCC-exception-3.1"),
    )
