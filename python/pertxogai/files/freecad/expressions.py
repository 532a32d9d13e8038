"""FreeCAD's expressions over the named constraints of a sketch, as values and expressions of a
drawing.

A named constraint that an expression uses becomes a value. An expression that uses anything else (a
spreadsheet, another object, another function, a constraint that is switched off) isn't read: its
constraint has the number that is stored.
"""

from __future__ import annotations

import re
from collections.abc import Iterator, Mapping
from dataclasses import dataclass, field, replace
from fractions import Fraction

from pertxogai.drawing import (
    VALUED, AngleBetween, Constraint, Degrees, Expression, Sense, Value, Valued, WordFault,
    XDistance, YDistance, read_expression)
from pertxogai.drawing.numbers import decimal_text, degrees_of, um_of
from pertxogai.drawing.values.table import Values, check_value_name
from pertxogai.drawing.wording import Sized
from pertxogai.files.contents import NotSayable
from pertxogai.files.freecad.constraints import Kind, name_of
from pertxogai.files.freecad.markup import Kept, Node
from pertxogai.files.freecad.numbers import degrees, length_um, number, whole

NEAR = Fraction(1, 10 ** 6)
"""So many micrometres, or degrees, an expression may be off the number that FreeCAD has stored for
it: that has sixteen digits."""
_PLACE = re.compile(r"\.?Constraints\[([0-9]{1,9})\]\Z")
_NAMED = re.compile(r"\.?Constraints\.(\w+)\Z")
_USED = re.compile(r"(?<![\w.>])(?:(\w+|<<[^<>]*>>))?\.?Constraints\.(\w+)")
_LENGTHS = (Kind.DISTANCE, Kind.DISTANCE_X, Kind.DISTANCE_Y, Kind.RADIUS, Kind.DIAMETER)
_SHAPE = re.compile(r"(?:Line|Circle|Arc|Point|Outer|Shape)[0-9]+\Z")
"""How the reader calls shapes, so that no value is called so."""


@dataclass(frozen=True)
class Bound:
    """What the expressions of a sketch say: the values, and the expression of a constraint by its
    place, from 1."""

    values: tuple[Value, ...] = ()
    expressions: Mapping[int, str] = field(default_factory=dict)

    @staticmethod
    def of(kept: Kept, label: str) -> Bound:
        """What those of a sketch say that are of its own named constraints alone."""
        sketch = _Sketch(kept, label)
        values = tuple(sketch.values())
        try:
            for each in values:
                Values(values).quantity(each.name)
        except WordFault:
            return Bound()
        return Bound(values, sketch.expressions())

    def attached(self, place: int, constraint: Constraint) -> Constraint:
        """The constraint that stands at that place, with its expression, where it has one that
        comes to the number that is stored."""
        text = self.expressions.get(place)
        if text is None or not isinstance(constraint, VALUED):
            return constraint
        if isinstance(constraint, AngleBetween):
            return _with_angle(constraint, text, Values(self.values))
        return _with_length(constraint, text, Values(self.values))


def bound_places(kept: Kept) -> frozenset[int]:
    """The places, from 1, of the constraints that have an expression, whatever that says."""
    return frozenset(_Sketch(kept, "").bound)


def unread_uses(kept: Kept, label: str) -> Mapping[str, str]:
    """The names of a sketch's constraints that expressions use which aren't read, each with what
    FreeCAD calls the constraint that one of these sets."""
    return dict(_Sketch(kept, label).unread_uses())


def _with_length(constraint: Sized | XDistance | YDistance, text: str,
                 values: Values) -> Constraint:
    expression = _signed(constraint, text)
    try:
        value_um = um_of(expression, values)
    except WordFault:
        return constraint
    if abs(value_um - constraint.value_um) > NEAR:
        return constraint
    return replace(constraint, value_um=value_um, expression=expression)


def _with_angle(constraint: AngleBetween, text: str, values: Values) -> AngleBetween:
    """An angle with its expression. FreeCAD may count it from a line's end, or over 180 degrees:
    then the drawing has it by half turns more or less."""
    stored = constraint.value
    for half_turns in ("", " - 180deg", " + 180deg", " - 360deg", " + 360deg"):
        expression = _signed(constraint, text + half_turns)
        try:
            angle = degrees_of(expression, values)
        except WordFault:
            continue
        if isinstance(stored, Degrees) and abs(angle - stored.value) <= NEAR:
            return replace(constraint, value=Degrees(angle), expression=expression)
    return constraint


def _signed(constraint: Valued, text: str) -> Expression:
    """An expression with a sign in front where the constraint's sign is told."""
    if getattr(constraint, "sense", Sense.DRAWN) is not Sense.SIGNED:
        return read_expression(text)
    return read_expression(f"+{text}" if text.isidentifier() else f"+({text})")


class _Sketch:
    """The constraints of a sketch and the expressions that are bound to them. bound: these by the
    places of the constraints; None where one can't be said."""

    def __init__(self, kept: Kept, label: str) -> None:
        self._own = {kept.name, f"<<{label}>>", f"<<{kept.name}>>"}
        self._nodes = kept.list_of("Constraints")
        self._places = {node.get("Name", ""): place for place, node in enumerate(self._nodes, 1)
                        if _is_name(node.get("Name", ""))}
        self._engine = kept.list_of("ExpressionEngine")
        self.bound = dict(self._bound(self._engine))
        self._texts = {place: text for place, text in self.bound.items() if text is not None}
        self._used = {name for text in self._texts.values()
                      for name in read_expression(text).names}

    def values(self) -> Iterator[Value]:
        """A value for each named constraint that an expression uses, in their order."""
        for name, place in self._places.items():
            if name in self._used:
                text = self._texts.get(place) or _stored(self._nodes[place - 1])
                yield Value(name, read_expression(text))

    def expressions(self) -> dict[int, str]:
        """The expression of each constraint that is bound to one, or is a value."""
        named = {place: name for name, place in self._places.items() if name in self._used}
        return {**self._texts, **named}

    def unread_uses(self) -> Iterator[tuple[str, str]]:
        """Each name that an expression uses which isn't read, with the constraint that it sets."""
        for node in self._engine:
            place, text = self._place(node.get("path", "")), node.get("expression", "")
            if place is not None and not (self.bound[place] and _is_dimension(self._node(place))):
                yield from ((found[2], name_of(self._node(place), place))
                            for found in _USED.finditer(text) if self._is_own(found))

    def _node(self, place: int) -> Node:
        return self._nodes[place - 1] if place <= len(self._nodes) else Node("", {}, 0)

    def _bound(self, nodes: list[Node]) -> Iterator[tuple[int, str | None]]:
        for node in nodes:
            place = self._place(node.get("path", ""))
            if place is not None:
                yield place, self._said(node.get("expression", ""))

    def _place(self, path: str) -> int | None:
        """The place of the constraint that a path leads to."""
        if found := _PLACE.match(path):
            return int(found[1]) + 1
        found = _NAMED.match(path)
        return self._places.get(found[1]) if found else None

    def _said(self, text: str) -> str | None:
        """An expression of FreeCAD's in a drawing's words; None where it can't be said."""
        try:
            return read_expression(_USED.sub(self._value, text).replace(";", ",")).text
        except (WordFault, KeyError):
            return None

    def _is_own(self, found: re.Match[str]) -> bool:
        """Whether what an expression uses is of this sketch."""
        return found[1] is None or found[1] in self._own

    def _value(self, found: re.Match[str]) -> str:
        """The name of the value that stands for a constraint, which drives the sketch: no copy has
        another value of one that doesn't. Raises KeyError."""
        name = found[2]
        if not self._is_own(found) or name not in self._places:
            raise KeyError(name)
        node = self._nodes[self._places[name] - 1]
        if "0" in (node.get("IsActive", "1"), node.get("IsDriving", "1")):
            raise KeyError(name)
        _stored(node)
        return name


def _is_name(name: str) -> bool:
    """Whether a value may be called so."""
    try:
        check_value_name(name)
    except WordFault:
        return False
    return not _SHAPE.match(name)


def _stored(node: Node) -> str:
    """The number of a dimension as it is stored, with its unit. Raises KeyError where it is none: a
    distance of nothing and an angle of half turns are read as what they mean, without a number."""
    try:
        kind, value = whole(node, "Type", "0"), number(node, "Value", "0")
        if kind == Kind.ANGLE and degrees(value) % 180:
            return f"{decimal_text(degrees(value))}deg"
        if kind in _LENGTHS and length_um(value):
            return f"{decimal_text(length_um(value) / 1000)}mm"
    except NotSayable:
        pass
    raise KeyError(node.get("Name", ""))


def _is_dimension(node: Node) -> bool:
    """Whether a constraint is read as one with a number."""
    try:
        return bool(_stored(node))
    except KeyError:
        return False
