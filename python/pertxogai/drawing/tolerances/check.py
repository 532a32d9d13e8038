"""What must fit: a measure of the placed drawing, and the limits within which it has to lie."""

from __future__ import annotations

from collections.abc import Callable, Iterable
from dataclasses import dataclass, replace
from fractions import Fraction
from typing import TYPE_CHECKING

from pertxogai.drawing.constraint_checks import check_constraint
from pertxogai.drawing.constraint_lines import ConstraintWord, read_constraints
from pertxogai.drawing.constraints import (
    SENSED, VALUED, AngleBetween, Constraint, Sense, Valued)
from pertxogai.drawing.cursor import Cursor
from pertxogai.drawing.mentions import named
from pertxogai.drawing.named_shapes import NamedShapes
from pertxogai.drawing.names import check_shape_name
from pertxogai.drawing.numbers import degrees_of, um_of
from pertxogai.drawing.refusal import WordFault
from pertxogai.drawing.tolerances.iso2768 import GeneralTolerance
from pertxogai.drawing.values.table import Values
from pertxogai.drawing.wording import asked_of

if TYPE_CHECKING:
    from pertxogai.drawing.values.expression import Expression

WORD = "check"
UP_TO = ".."
FORM = f"{WORD} Gap distance P S 2 {UP_TO} 2.5"
MOST_CHECKS = 200
"""No text has more checks."""
WORDS = ("length", "distance", "x", "y", "angle", "radius", "diameter")
"""What is measured."""


@dataclass(frozen=True)
class Check:
    """A measure that must lie between two limits; either may be omitted, and both where it is only
    asked how far it varies. asked: the dimension that is measured; its value is ignored. If a
    limit is written with a sign, a coordinate or a turn is measured with its sign; otherwise it is
    measured as on paper."""

    name: str
    asked: Valued
    low: Expression | None
    high: Expression | None

    @property
    def is_angle(self) -> bool:
        """Whether it measures degrees, and not lengths."""
        return isinstance(self.asked, AngleBetween)

    @property
    def is_signed(self) -> bool:
        """Whether it measures a coordinate or a turn with its sign."""
        return isinstance(self.asked, SENSED) and self.asked.sense is Sense.SIGNED

    @property
    def has_limits(self) -> bool:
        """Whether it has a limit; without one it neither fits nor doesn't."""
        return self.low is not None or self.high is not None

    def words(self) -> str:
        """What is measured, in words, and the limits."""
        low, high = (each.text if each else "" for each in (self.low, self.high))
        return " ".join([*asked_of(self.asked), *filter(None, (low, UP_TO, high))])

    def line(self) -> str:
        """Its line in the text."""
        return f"{WORD} {self.name} {self.words()}"

    def limits(self, values: Values) -> tuple[Fraction | None, Fraction | None]:
        """The limits in micrometres or degrees. Raises WordFault if one can't be computed."""
        reckon = degrees_of if self.is_angle else um_of
        low, high = (reckon(each, values) if each else None for each in (self.low, self.high))
        return low, high


@dataclass(frozen=True)
class Tolerancing:
    """The tolerances of a drawing beside those of its dimensions: the general class, and the checks
    of what must fit."""

    general: GeneralTolerance | None = None
    checks: tuple[Check, ...] = ()

    def without(self, shapes: frozenset[str]) -> Tolerancing:
        """The same without the checks that measure one of these shapes."""
        kept = (each for each in self.checks if shapes.isdisjoint(named(each.asked)))
        return replace(self, checks=tuple(kept))

    def saying(self, other: Callable[[Constraint], Constraint | None]) -> Tolerancing:
        """The same with what each check measures said otherwise; without the checks of which
        `other` leaves nothing."""
        said = ((each, other(each.asked)) for each in self.checks)
        return replace(self, checks=tuple(replace(each, asked=asked) for each, asked in said
                                          if isinstance(asked, VALUED)))

    def lines(self) -> list[str]:
        """The lines in the text."""
        general = [] if self.general is None else [self.general.line()]
        return general + [each.line() for each in self.checks]


def read_check(scene: NamedShapes, words: list[str]) -> Check:
    """The check of a line's words, of shapes that stand. Raises WordFault."""
    if len(words) < 3:
        raise WordFault(words[-1], f"is the last word: write a line such as {FORM}")
    name, word = words[1], words[2]
    check_shape_name(name)
    if word not in WORDS:
        raise WordFault(word, f"can't be checked: write one of {', '.join(WORDS)}, as in {FORM}")
    things, low, high = _parts(scene, words[3:])
    one = "1deg" if word == ConstraintWord.ANGLE.value else "1"
    asked = read_constraints(ConstraintWord(word), Cursor(scene, [word, *things, one]), None)
    if len(asked) != 1 or not isinstance(asked[0], VALUED):
        raise WordFault(word, f"takes one thing here: write a line for each, such as {FORM}")
    check_constraint(scene, asked[0])
    check = Check(name, asked[0], low, high)
    if any(each is not None and each.has_sign for each in (low, high)):
        check = replace(check, asked=_signed(check.asked))
    _check_limits(check, scene.values)
    return check


def _parts(scene: NamedShapes,
           words: list[str]) -> tuple[list[str], Expression | None, Expression | None]:
    """The things that are measured, and the two limits."""
    if words.count(UP_TO) != 1:
        raise WordFault(WORD, f"needs {UP_TO} once, between its limits: write a line such as "
                              f"{FORM}")
    at = words.index(UP_TO)
    cursor = Cursor(scene, ["", *words[:at]])
    things: list[str] = []
    while cursor.left() and not cursor.begins_value():
        things.append(cursor.word("a shape"))
    return things, _limit(words[len(things):at]), _limit(words[at + 1:])


def _limit(words: list[str]) -> Expression | None:
    from pertxogai.drawing.values.parsing import read_expression

    return read_expression(" ".join(words)) if words else None


def _signed(asked: Valued) -> Valued:
    """The same, counted with its sign, where it can have one."""
    return replace(asked, sense=Sense.SIGNED) if isinstance(asked, SENSED) else asked


def _check_limits(check: Check, values: Values) -> None:
    low, high = check.limits(values)
    if low is not None and high is not None and low > high:
        raise WordFault(check.name, "has its greater limit first: write the lesser one first")


def check_check_name(name: str, taken: set[str]) -> None:
    """Takes a check's name. Raises WordFault where it is none, or taken, or one too many."""
    check_shape_name(name)
    if name in taken:
        raise WordFault(name, "is a check already: take another name")
    taken.add(name)
    if len(taken) > MOST_CHECKS:
        raise WordFault(name, f"is one more than {MOST_CHECKS} checks: leave some out")


def check_checks(scene: NamedShapes, checks: Iterable[Check]) -> None:
    """Raises WordFault unless each says what can be measured, and has a name of its own."""
    names: set[str] = set()
    for each in checks:
        check_check_name(each.name, names)
        check_constraint(scene, each.asked)
        _check_limits(each, scene.values)
