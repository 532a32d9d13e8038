"""Expressions over named values: their parts, and what they come to."""

from __future__ import annotations

from collections.abc import Callable, Iterator
from dataclasses import dataclass, field
from functools import cached_property, partial

from pertxogai.drawing.refusal import WordFault
from pertxogai.drawing.values.quantity import Misfit, Quantity, greatest, least
from pertxogai.drawing.values.words import Function

LookUp = Callable[[str], Quantity]
"""What the value of a name comes to. Raises WordFault where none has that name."""


@dataclass(frozen=True)
class Number:
    """A number with its unit, as it is written."""

    quantity: Quantity
    word: str


@dataclass(frozen=True)
class Name:
    """The value of that name."""

    word: str


@dataclass(frozen=True)
class Negative:
    """The number with the other sign."""

    of: Node
    word: str


@dataclass(frozen=True)
class Sum:
    """Some terms, each added, or taken away where it is Negative."""

    terms: tuple[Node, ...]
    word: str


@dataclass(frozen=True)
class Product:
    """A first factor, and others: each by whether it divides."""

    first: Node
    others: tuple[tuple[bool, Node], ...]
    word: str


@dataclass(frozen=True)
class Call:
    """A function of some arguments."""

    function: Function
    arguments: tuple[Node, ...]
    word: str


Node = Number | Name | Negative | Sum | Product | Call
"""A part of an expression; `word` is its text."""


@dataclass(frozen=True)
class Expression:
    """An expression, and its text as written, with single blanks between words."""

    text: str
    tree: Node = field(compare=False, repr=False)

    @cached_property
    def names(self) -> tuple[str, ...]:
        """The names of the values that it uses, each once."""
        return tuple(dict.fromkeys(_names(self.tree)))

    @property
    def has_sign(self) -> bool:
        """Whether it is written with a sign in front."""
        return self.text[:1] in ("+", "-", "−")

    def evaluated(self, look_up: LookUp) -> Quantity:
        """Its value. Raises WordFault at the part that can't be computed."""
        return _evaluated(self.tree, look_up)


def _names(node: Node) -> Iterator[str]:
    match node:
        case Name(word):
            yield word
        case Negative(of):
            yield from _names(of)
        case Sum(terms):
            for each in terms:
                yield from _names(each)
        case Product(first, others):
            yield from _names(first)
            for _, each in others:
                yield from _names(each)
        case Call(_, arguments):
            for each in arguments:
                yield from _names(each)
        case Number():
            pass


def _evaluated(node: Node, look_up: LookUp) -> Quantity:
    match node:
        case Number(quantity):
            return quantity
        case Name(word):
            return look_up(word)
        case Negative(of):
            return _evaluated(of, look_up).negative()
        case Sum(terms):
            return _sum(terms, look_up)
        case Product(first, others):
            return _product(first, others, look_up)
        case Call():
            return _called(node, look_up)


def _sum(terms: tuple[Node, ...], look_up: LookUp) -> Quantity:
    found = _evaluated(terms[0], look_up)
    for each in terms[1:]:
        term = _evaluated(each, look_up)
        found = _fitting(each, partial(found.plus, term))
    return found


def _product(first: Node, others: tuple[tuple[bool, Node], ...], look_up: LookUp) -> Quantity:
    found = _evaluated(first, look_up)
    for divides, each in others:
        factor = _evaluated(each, look_up)
        if divides:
            factor = _fitting(each, factor.inverse)
        found = _fitting(each, partial(found.times, factor))
    return found


def _called(call: Call, look_up: LookUp) -> Quantity:
    arguments = [_evaluated(each, look_up) for each in call.arguments]
    match call.function:
        case Function.SQRT:
            return _fitting(call.arguments[0], arguments[0].root)
        case Function.MIN:
            return _fitting(call, partial(least, arguments))
        case Function.MAX:
            return _fitting(call, partial(greatest, arguments))


def _fitting(at: Node, act: Callable[[], Quantity]) -> Quantity:
    """What can be reckoned. Raises WordFault at a part where it can't."""
    try:
        return act()
    except Misfit as misfit:
        raise WordFault(at.word, str(misfit)) from None
