"""Names of a package that are imported once they are asked for, so that importing it is quick."""
from __future__ import annotations

import sys
from collections.abc import Callable, Mapping
from importlib import import_module


def handed_on(package: str, names: Mapping[str, str],
              former: Callable[[str], object] | None = None
              ) -> tuple[Callable[[str], object], Callable[[], list[str]]]:
    """A `__getattr__` and a `__dir__` for a package that has names of other modules. names: those
    of each module, with blanks between, by the module's name, `.errors` for one within the package.
    former: finds any other name, or raises AttributeError."""
    homes = {name: module for module, said in names.items() for name in said.split()}

    def find(name: str) -> object:
        if name in homes:
            found: object = getattr(import_module(homes[name], package), name)
            setattr(sys.modules[package], name, found)
            return found
        if former is not None:
            return former(name)
        raise AttributeError(f"module {package!r} has no attribute {name!r}")

    return find, lambda: sorted({*vars(sys.modules[package]), *homes})
