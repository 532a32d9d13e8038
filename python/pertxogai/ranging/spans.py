"""Between which numbers the expressions of a drawing lie while one of its values goes from one
number to another, by exact intervals; and whether all go smoothly on the way."""
from __future__ import annotations

from fractions import Fraction
from math import isqrt
from typing import TypeAlias

from pertxogai.drawing import VALUED, AngleBetween, Drawing, Sense
from pertxogai.drawing.constraints import Valued
from pertxogai.drawing.numbers import MOST_MM
from pertxogai.drawing.values.expression import (
    Call, Expression, Name, Negative, Node, Number, Product, Sum)
from pertxogai.drawing.values.words import Function

Span: TypeAlias = tuple[Fraction, Fraction]
"""The least and the greatest number."""

_ROOT_PARTS = 10 ** 9
_HALF_TURN = 180


class NotSmooth(Exception):
    """An expression may divide by 0 or take the root of less than 0; or another argument of a min
    or max may come to be the one."""


def is_smooth(drawing: Drawing, name: str, low: Fraction, high: Fraction) -> bool:
    """Whether each expression of a drawing goes smoothly, and is what its dimension takes, while
    the value of that name goes from one number to another: sure where it is said so."""
    spans = _Spans(drawing, name, (low, high))
    try:
        for value in drawing.values:
            spans.of(value.expression)
        return all(_is_taken(each, spans.of(each.expression)) for each in drawing.constraints
                   if isinstance(each, VALUED) and each.expression is not None)
    except NotSmooth:
        return False


def _is_taken(dimension: Valued, span: Span) -> bool:
    """Whether a dimension takes all numbers of a span: an angle those of one half turn, another
    those of a length, above 0 where it has no sign."""
    low, high = span
    if isinstance(dimension, AngleBetween):
        return low // _HALF_TURN == high // _HALF_TURN and low % _HALF_TURN != 0
    is_signed = getattr(dimension, "sense", Sense.DRAWN) is Sense.SIGNED
    return high <= MOST_MM and low >= -MOST_MM and (is_signed or low > 0)


class _Spans:
    """The spans of expressions, by that of one value."""

    def __init__(self, drawing: Drawing, name: str, span: Span) -> None:
        self._expressions = {each.name: each.expression for each in drawing.values}
        self._known = {name: span}

    def of(self, expression: Expression) -> Span:
        """Raises NotSmooth."""
        return self._node(expression.tree)

    def _value(self, name: str) -> Span:
        if name not in self._known:
            self._known[name] = self.of(self._expressions[name])
        return self._known[name]

    def _node(self, node: Node) -> Span:
        match node:
            case Number(quantity):
                return quantity.number, quantity.number
            case Name(word):
                return self._value(word)
            case Negative(of):
                low, high = self._node(of)
                return -high, -low
            case Sum(terms):
                spans = [self._node(each) for each in terms]
                return sum((low for low, _ in spans), Fraction(0)), sum(
                    (high for _, high in spans), Fraction(0))
            case Product():
                return self._product(node)
            case Call(function, arguments):
                return _called(function, [self._node(each) for each in arguments])

    def _product(self, product: Product) -> Span:
        found = self._node(product.first)
        for divides, each in product.others:
            low, high = self._node(each)
            if divides:
                if low <= 0 <= high:
                    raise NotSmooth
                low, high = 1 / high, 1 / low
            ends = [one * other for one in found for other in (low, high)]
            found = min(ends), max(ends)
        return found


def _called(function: Function, spans: list[Span]) -> Span:
    lows, highs = zip(*spans)
    match function:
        case Function.MIN:
            _check_apart(sorted(spans))
            return min(lows), min(highs)
        case Function.MAX:
            _check_apart(sorted((-high, -low) for low, high in spans))
            return max(lows), max(highs)
        case Function.SQRT:
            (low, high), = spans
            if low < 0:
                raise NotSmooth
            return _root(low), _root(high) + Fraction(1, _ROOT_PARTS)


def _check_apart(spans: list[Span]) -> None:
    """Raises NotSmooth unless one of some spans, from the least on, is the least all the way."""
    high = spans[0][1]
    if any(other[0] < high for other in spans[1:]):
        raise NotSmooth


def _root(number: Fraction) -> Fraction:
    """The greatest of some parts of one that is no greater than the square root."""
    return Fraction(isqrt(int(number * _ROOT_PARTS ** 2)), _ROOT_PARTS)
