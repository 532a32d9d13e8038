"""How far the dimensions of a case lie off."""
from __future__ import annotations

from collections.abc import Mapping
from fractions import Fraction


class Off(Fraction):
    """How far one dimension lies off, in micrometres or degrees. Its hash is worked out once, since
    that of a fraction takes long: cases are looked up by it again and again."""

    _hash: int | None = None

    def __hash__(self) -> int:
        if self._hash is None:
            self._hash = super().__hash__()
        return self._hash


class Offs(tuple[Fraction, ...]):
    """How far each dimension lies off, in their order. Its hash is worked out once too."""

    _hash: int | None = None

    def __hash__(self) -> int:
        if self._hash is None:
            self._hash = super().__hash__()
        return self._hash

    def replaced(self, others: Mapping[int, Fraction]) -> Offs:
        """The same with the dimensions of some places, from 0, off by these."""
        return Offs(others.get(place, off) for place, off in enumerate(self))
