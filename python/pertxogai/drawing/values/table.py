"""The named values of a drawing, and what each of them comes to."""

from __future__ import annotations

import re
from collections.abc import Iterable, Mapping
from dataclasses import dataclass
from typing import TYPE_CHECKING

from pertxogai.drawing.names import check_shape_name, nearest
from pertxogai.drawing.refusal import WordFault
from pertxogai.drawing.values.words import NAME, RESERVED

if TYPE_CHECKING:
    from pertxogai.drawing.values.expression import Expression
    from pertxogai.drawing.values.quantity import Quantity

MOST_VALUES = 1_000
"""No text has more values."""


@dataclass(frozen=True)
class Value:
    """A named value, and its text."""

    name: str
    expression: Expression

    def line(self) -> str:
        """Its line in the text."""
        return f"value {self.name} {self.expression.text}"


class ValueFault(WordFault):
    """The value called `name` can't be reckoned: the word at fault stands in its line."""

    def __init__(self, name: str, word: str, what: str) -> None:
        super().__init__(word, what)
        self.name = name


class Values:
    """Values by their names. A value may use others, wherever they stand. faults: what is wrong
    with the line of a name that has no expression."""

    def __init__(self, values: Iterable[Value] = (),
                 faults: Mapping[str, WordFault] | None = None) -> None:
        self._values = {each.name: each for each in values}
        self._faults = dict(faults or {})
        self._known: dict[str, Quantity] = {}

    def has(self, name: str) -> bool:
        """Whether a value has that name."""
        return name in self._values or name in self._faults

    def names(self) -> tuple[str, ...]:
        """All names."""
        return (*self._values, *self._faults)

    def quantity(self, name: str) -> Quantity:
        """What the value of a name comes to. Raises WordFault where none has it, and ValueFault
        where it, or one that it uses, can't be reckoned."""
        if not self.has(name):
            raise WordFault(name, f"is no value: write a line such as `value {name} 40`"
                            + nearest(name, self.names()))
        self._reckon(name)
        return self._known[name]

    def evaluated(self, expression: Expression) -> Quantity:
        """What an expression comes to. Raises as `quantity`, and WordFault at its own parts."""
        return expression.evaluated(self.quantity)

    def _reckon(self, name: str) -> None:
        """Reckons a value, and before it those that it uses."""
        path = [] if name in self._known else [name]
        while path:
            last = path[-1]
            if last in self._faults:
                raise ValueFault(last, self._faults[last].word, self._faults[last].what)
            waiting = next((each for each in self._values[last].expression.names
                            if self.has(each) and each not in self._known), None)
            if waiting is None:
                self._known[last] = self._evaluated(self._values[last])
                path.pop()
            elif waiting in path:
                circle = [*path[path.index(waiting):], waiting]
                raise ValueFault(waiting, waiting, "is defined by itself: "
                                 + " uses ".join(circle))
            else:
                path.append(waiting)

    def _evaluated(self, value: Value) -> Quantity:
        try:
            return value.expression.evaluated(self.quantity)
        except ValueFault:
            raise
        except WordFault as fault:
            raise ValueFault(value.name, fault.word, fault.what) from None


def check_value_name(name: str) -> None:
    """Raises WordFault unless a value may be called so: as a shape, and by no word of
    expressions."""
    check_shape_name(name)
    if not re.fullmatch(NAME, name):
        raise WordFault(name, "is no name of a value: write a letter and then letters, digits or _")
    if name in RESERVED:
        raise WordFault(name, "is a word of expressions: take another name")
