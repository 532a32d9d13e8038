"""The text of an expression, read: sums, products, brackets, min, max, sqrt over numbers with units
and names."""

from __future__ import annotations

import re
from collections.abc import Sequence
from dataclasses import dataclass
from fractions import Fraction

from pertxogai.drawing.refusal import WordFault
from pertxogai.drawing.values.expression import (
    Call, Expression, Name, Negative, Node, Number, Product, Sum)
from pertxogai.drawing.values.quantity import Quantity
from pertxogai.drawing.values.words import NAME, RESERVED, UNITS, Function

MOST_DEPTH = 20
"""No brackets stand deeper in one another, and no more signs stand behind one another."""

_FUNCTIONS = {each.value: each for each in Function}
_TOKEN = re.compile(rf"(?P<blank> *)(?:(?P<number>[0-9.][0-9.]*)|(?P<name>{NAME})"
                    r"|(?P<sign>[-+−*/×·÷(),°])|(?P<other>.))")
_NUMBER = re.compile(r"[0-9]{1,7}(?:\.[0-9]{1,20})?\Z")
_PLUS, _MINUS = frozenset("+"), frozenset("-−")
_TIMES, _OVER = frozenset("*×·"), frozenset("/÷")


def read_expression(text: str) -> Expression:
    """Reads an expression from its text. Raises WordFault at the word at fault."""
    text = " ".join(text.split())
    parser = _Parser(text, _tokens(text))
    tree = parser.sum(0)
    parser.end()
    return Expression(text, tree)


@dataclass(frozen=True)
class _Token:
    """A word or a sign, where it stands, and whether a blank stands before it."""

    text: str
    kind: str
    start: int
    behind_blank: bool

    @property
    def end(self) -> int:
        return self.start + len(self.text)


def _tokens(text: str) -> list[_Token]:
    found = []
    for match in _TOKEN.finditer(text):
        kind = match.lastgroup
        assert kind is not None
        if kind == "other":
            raise WordFault(match[kind], "can't stand in an expression: write numbers and "
                                         "values with + - * / ( )")
        found.append(_Token(match[kind], kind, match.start(kind), bool(match["blank"])))
    return found


class _Parser:
    """The tokens of an expression, taken one by one."""

    def __init__(self, text: str, tokens: Sequence[_Token]) -> None:
        self._text = text
        self._tokens = tokens
        self._taken = 0

    def end(self) -> None:
        """Raises WordFault where tokens are left."""
        token = self._peek()
        if token is not None:
            advice = ("closes no bracket: leave it out" if token.text == ")" else
                      "stands behind a whole expression: write + - * or / between them")
            raise WordFault(token.text, advice)

    def sum(self, depth: int) -> Node:
        """Terms with + and - between them."""
        start = self._at()
        terms = [self._product(depth)]
        while sign := self._took(_PLUS | _MINUS):
            term = self._product(depth)
            terms.append(Negative(term, term.word) if sign in _MINUS else term)
        return terms[0] if len(terms) == 1 else Sum(tuple(terms), self._since(start))

    def _product(self, depth: int) -> Node:
        start = self._at()
        first = self._factor(depth)
        others: list[tuple[bool, Node]] = []
        while sign := self._took(_TIMES | _OVER):
            others.append((sign in _OVER, self._factor(depth)))
        return Product(first, tuple(others), self._since(start)) if others else first

    def _factor(self, depth: int) -> Node:
        start = self._at()
        self._check_depth(depth)
        if sign := self._took(_PLUS | _MINUS):
            of = self._factor(depth + 1)
            return Negative(of, self._since(start)) if sign in _MINUS else of
        token = self._next()
        if token.kind == "number":
            return self._number(token)
        if token.text == "(":
            inner = self.sum(depth + 1)
            self._close(token)
            return inner
        if token.kind == "name":
            return self._named(token, depth)
        raise WordFault(token.text, "stands where a number or a value is meant")

    def _number(self, token: _Token) -> Node:
        unit = self._peek()
        if not _NUMBER.match(token.text):
            raise WordFault(token.text, "is no number: write one to seven digits, and up to twenty "
                                        "behind a point")
        one = Quantity(Fraction(1))
        if unit is not None and unit.text in UNITS:
            self._taken += 1
            one = UNITS[unit.text]
        elif unit is not None and unit.kind == "name" and not unit.behind_blank:
            raise WordFault(token.text + unit.text, "has a unit that isn't read: write mm, in or "
                                                    "deg")
        return Number(one.times(Quantity(Fraction(token.text))), self._since(token.start))

    def _named(self, token: _Token, depth: int) -> Node:
        """A value by its name, or a function of arguments."""
        bracket = self._peek()
        if bracket is None or bracket.text != "(":
            if token.text in RESERVED:
                raise WordFault(token.text, "is a word of expressions: write a number in front of "
                                            "a unit, and brackets behind min, max and sqrt")
            return Name(token.text)
        if token.text not in _FUNCTIONS:
            raise WordFault(token.text, "is no function: write " + ", ".join(_FUNCTIONS))
        self._taken += 1
        arguments = [self.sum(depth + 1)]
        while self._took(frozenset(",")):
            arguments.append(self.sum(depth + 1))
        self._close(bracket)
        function = _FUNCTIONS[token.text]
        if (len(arguments) == 1) is not (function is Function.SQRT):
            raise WordFault(self._since(token.start), "has the wrong number of arguments: write "
                            "one for sqrt, and two or more for min and max")
        return Call(function, tuple(arguments), self._since(token.start))

    def _close(self, bracket: _Token) -> None:
        if not self._took(frozenset(")")):
            raise WordFault(self._text[bracket.start:], "opens a bracket that isn't closed")

    def _check_depth(self, depth: int) -> None:
        if depth > MOST_DEPTH:
            raise WordFault(self._text[:20] + "..", f"has more than {MOST_DEPTH} brackets or signs "
                            "in one another: name a part of it as a value")

    def _peek(self) -> _Token | None:
        return self._tokens[self._taken] if self._taken < len(self._tokens) else None

    def _next(self) -> _Token:
        token = self._peek()
        if token is None:
            raise WordFault(self._text, "ends where a number or a value is missing")
        self._taken += 1
        return token

    def _took(self, signs: frozenset[str]) -> str:
        """The next token where it is one of these signs, which is then taken; else nothing."""
        token = self._peek()
        if token is None or token.text not in signs:
            return ""
        self._taken += 1
        return token.text

    def _at(self) -> int:
        """Where the next token begins."""
        token = self._peek()
        return len(self._text) if token is None else token.start

    def _since(self, start: int) -> str:
        """The text from a place to the last token that was taken."""
        return self._text[start:self._tokens[self._taken - 1].end]
