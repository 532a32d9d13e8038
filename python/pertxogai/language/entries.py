"""The lines of elements and constraints: words to values."""
from __future__ import annotations

from collections.abc import Callable, Sequence

from pertxogai.language.constraints import (
    MOST_PLACES, Angle, Block, BlockPlace, Constraint, Distance, Inside, On, Outside, Tangent)
from pertxogai.language.declared import Declared
from pertxogai.language.elements import Circle, Element, Line, Point
from pertxogai.language.names import is_name
from pertxogai.language.numbers import read_ratio, read_um
from pertxogai.language.refusal import Code, Faulty

_COUNTS = {
    "point": 4,
    "line": 6,
    "circle": 5,
    "distance": 4,
    "on": 3,
    "tangent": 3,
    "outside": 3,
    "inside": 3,
    "angle": 4,
}
_ELEMENTS = ("point", "line", "circle")
_TOUCHES: dict[str, Callable[[str, str], Constraint]] = {
    "on": On,
    "tangent": Tangent,
    "outside": Outside,
    "inside": Inside,
}
_TYPES: dict[str, type[Constraint]] = {
    "distance": Distance,
    "on": On,
    "tangent": Tangent,
    "outside": Outside,
    "inside": Inside,
    "angle": Angle,
    "block": Block,
}


def is_element(words: Sequence[str]) -> bool:
    """Whether words begin as the line of an element does."""
    return words[0] in _ELEMENTS


def check_shape(words: Sequence[str], version: int) -> None:
    """Raises Faulty where no line of the version begins so (E2), or it has another number of
    words (E12, E3)."""
    first = words[0]
    if first not in _COUNTS and (first != "block" or version == 1):
        raise Faulty(Code.E2)
    if first == "circle" and len(words) == 4:
        raise Faulty(Code.E12)
    counts = range(7, 3 * MOST_PLACES + 2, 3) if first == "block" else (_COUNTS[first],)
    if len(words) not in counts:
        raise Faulty(Code.E3)


def read_element(words: Sequence[str], declared: Declared | None) -> Element:
    """The element of words that have the shape of one. Raises Faulty: E4, E5, E8, E9, E11."""
    name = _read_name(words[1])
    if declared and name in declared.elements:
        raise Faulty(Code.E5)
    numbers = [_um(word) for word in words[2:]]
    if words[0] == "point":
        return Point(name, *numbers)
    if words[0] == "circle":
        return Circle(name, numbers[0], numbers[1], _above_zero(numbers[2]))
    if numbers[:2] == numbers[2:]:
        raise Faulty(Code.E11)
    return Line(name, *numbers)


def read_constraint(words: Sequence[str], declared: Declared | None) -> Constraint:
    """The constraint of words that have the shape of one. Raises Faulty: E4, E6, E7, E8, E9."""
    first = words[0]
    names = tuple(_read_name(word) for word in (words[1::3] if first == "block" else words[1:3]))
    if declared:
        declared.check_kinds(_TYPES[first], names)
    if first == "block":
        return _block(names, [_um(word) for at in (2, 3) for word in words[at::3]])
    if first == "distance":
        return Distance(names[0], names[1], read_length(words[3]))
    if first == "angle":
        return Angle(names[0], names[1], *read_tangent(words[3]))
    return _TOUCHES[first](*names)


def read_length(word: str) -> int:
    """The micrometres of a length. Raises Faulty: E8, E9."""
    return _above_zero(_um(word))


def read_tangent(word: str) -> tuple[int, int]:
    """The two numbers of an angle's ratio. Raises Faulty: E8, E9."""
    ratio = read_ratio(word)
    if ratio is None:
        raise Faulty(Code.E8)
    if ratio[0] == 0:
        raise Faulty(Code.E9)
    return ratio


def _block(names: tuple[str, ...], numbers: list[int]) -> Block:
    count = len(names)
    places = tuple(map(BlockPlace, names, numbers[:count], numbers[count:]))
    if len({(place.x_um, place.y_um) for place in places}) < count:
        raise Faulty(Code.E9)
    return Block(places)


def _read_name(word: str) -> str:
    if not is_name(word):
        raise Faulty(Code.E4)
    return word


def _um(word: str) -> int:
    um = read_um(word)
    if um is None:
        raise Faulty(Code.E8)
    return um


def _above_zero(um: int) -> int:
    if um <= 0:
        raise Faulty(Code.E8 if um < 0 else Code.E9)
    return um
