"""What a call is given: the fields of one object of JSON, each taken as what it has to be."""
from __future__ import annotations

from collections.abc import Iterator, Mapping
from dataclasses import dataclass
from fractions import Fraction

from pertxogai.drawing import um_of_mm

MOST_ITEMS = 10_000
MOST_MM = 10_000_000
"""No number of millimetres is greater: ten times what a drawing may have."""


class FieldRefused(Exception):
    """A field is missing, or isn't what it has to be. The message is one line."""


@dataclass(frozen=True)
class Fields:
    """One object of JSON."""

    values: Mapping[str, object]

    @staticmethod
    def of(value: object) -> Fields:
        """The fields of a value that has to be an object. Raises FieldRefused."""
        if not isinstance(value, dict):
            raise FieldRefused("give an object of JSON")
        return Fields(value)

    def has(self, name: str) -> bool:
        """Whether the field is there, and isn't null."""
        return self.values.get(name) is not None

    def text(self, name: str) -> str:
        """A text. Raises FieldRefused."""
        value = self.values.get(name)
        if not isinstance(value, str):
            raise FieldRefused(f"{name!r} has to be a text")
        return value

    def flag(self, name: str) -> bool:
        """True or false; false where it isn't there. Raises FieldRefused."""
        value = self.values.get(name, False)
        if not isinstance(value, bool):
            raise FieldRefused(f"{name!r} has to be true or false")
        return value

    def whole(self, name: str) -> int:
        """A whole number. Raises FieldRefused."""
        return _whole(name, self.values.get(name))

    def um(self, name: str) -> Fraction:
        """A number of millimetres, in micrometres. Raises FieldRefused."""
        value = self.values.get(name)
        if isinstance(value, bool) or not isinstance(value, (int, float)):
            raise FieldRefused(f"{name!r} has to be a number of millimetres")
        if not -MOST_MM <= value <= MOST_MM:
            raise FieldRefused(f"{name!r} is no number of at most {MOST_MM} millimetres")
        try:
            return um_of_mm(value)
        except ValueError as error:
            raise FieldRefused(f"{name!r}: {error}") from None

    def texts(self, name: str) -> tuple[str, ...]:
        """Several texts; none where the field isn't there. Raises FieldRefused."""
        found = tuple(self._items(name))
        if not all(isinstance(each, str) for each in found):
            raise FieldRefused(f"{name!r} has to be a list of texts")
        return tuple(str(each) for each in found)

    def wholes(self, name: str) -> tuple[int, ...]:
        """Several whole numbers. Raises FieldRefused."""
        return tuple(_whole(name, each) for each in self._items(name))

    def counts(self, name: str) -> dict[str, int]:
        """Whole numbers by names; none where the field isn't there. Raises FieldRefused."""
        given = self.single(name).values if self.has(name) else {}
        return {str(each): _whole(str(each), value) for each, value in given.items()}

    def lines(self, name: str) -> tuple[tuple[str, ...], ...]:
        """Several lists of texts; none where the field isn't there. Raises FieldRefused."""
        return tuple(Fields({name: each}).texts(name) for each in self._items(name))

    def single(self, name: str) -> Fields:
        """An object. Raises FieldRefused."""
        if not self.has(name):
            raise FieldRefused(f"{name!r} has to be an object of JSON")
        return Fields.of(self.values.get(name))

    def objects(self, name: str) -> tuple[Fields, ...]:
        """Several objects. Raises FieldRefused."""
        return tuple(Fields.of(each) for each in self._items(name))

    def _items(self, name: str) -> Iterator[object]:
        value = self.values.get(name) or []
        if not isinstance(value, list) or len(value) > MOST_ITEMS:
            raise FieldRefused(f"{name!r} has to be a list of at most {MOST_ITEMS}")
        yield from value


def _whole(name: str, value: object) -> int:
    if isinstance(value, bool) or not isinstance(value, int):
        raise FieldRefused(f"{name!r} has to be a whole number")
    return value
