"""How far a number may go: to the limit where that is good; else by doubling away from the present
one, and halving between the last that is good and the first that isn't. Some between are tried, and
more where something may cross. Where rounding decides what is good, the border lies before that."""
from __future__ import annotations

from collections.abc import Callable, Iterable, Iterator, Sequence
from dataclasses import dataclass, field
from itertools import islice
from math import isqrt
from typing import Generic, TypeVar

Fault = TypeVar("Fault")

PROBES = 8
"""Numbers that are tried evenly between the present one and each end, as far as the present one
reaches four times."""
FAR = 8
"""How many times further each number is that is tried beyond, up to the end."""
FIRST = 16
"""The first step is a part of the present number: one in so many."""
COARSE = 1000
"""Ends are looked for at multiples of this first, as at whole millimetres."""
ROUGH = 4
"""Numbers without round digits that are tried before an end far from the present one."""
MANY_ROUGH = 16
"""As many are tried before a number up to which rounding is to break nothing."""
BLUNT = 32
"""Where rounding ends a range, its end is found to within this part of its size."""
MOST_ROUNDS = 8
"""So many times a number at which all looks to end may turn out to be good."""
MOST_TRIED = 500
"""No more numbers are tried for an end because something may cross between them."""


@dataclass(frozen=True)
class Border(Generic[Fault]):
    """The last good whole number one way, and what is wrong with the next. is_clear: whether by
    numbers nothing crosses between the numbers that were tried up to it."""

    good: int
    fault: Fault
    is_clear: bool


@dataclass
class Search(Generic[Fault]):
    """Looks for the two borders about a present whole number that is good. fault: what is wrong
    with a number; None where it is good. low, high: the least and the greatest number that may be
    tried. beyond: what is wrong with those beyond. is_clear: whether nothing crosses between some
    good numbers, in their order. at_end: what is wrong with a number at which all looks to end,
    asked by more than `fault` asks; None where it is good. rounding: by what a number that was
    tried is good, or isn't, by the luck of rounding; None where it isn't so."""

    fault: Callable[[int], Fault | None]
    present: int
    low: int
    high: int
    beyond: Callable[[int], Fault]
    is_clear: Callable[[Sequence[int]], bool]
    at_end: Callable[[int], Fault | None]
    rounding: Callable[[int], Fault | None] = lambda number: None
    known: dict[int, Fault | None] = field(default_factory=dict)
    asked: int = 0
    """How many numbers were tried."""
    _asked_before: int = 0

    def __post_init__(self) -> None:
        if not self.low <= self.present <= self.high:
            raise ValueError(f"{self.present} isn't from {self.low} to {self.high}")
        self.known[self.present] = None

    def border(self, up: bool) -> Border[Fault]:
        """The border above, or below."""
        way, rounds, self._asked_before = 1 if up else -1, 0, self.asked
        good, bad = self._apart(self.present, way)
        while True:
            good, bad = self._halved(good, bad)
            is_clear, near = self._way_to(good)
            if near is not None:
                good, bad = self._last_good_before(near), near
                continue
            rounds += 1
            fault = self._at_end(bad) if rounds < MOST_ROUNDS else self._fault(bad)
            if fault is None:
                good, bad = self._apart(bad, way)
                continue
            border = Border(good, fault, is_clear)
            gap = self._gap_before(good) if rounds < MOST_ROUNDS else None
            found = self._before_rounding(border, way) if gap is None else gap
            if isinstance(found, Border):
                return found
            if rounds >= MOST_ROUNDS:
                return border
            good, bad = self._last_good_before(found), found

    def _gap_before(self, good: int) -> int | None:
        """A number without round digits before a good one that isn't good, and not by rounding;
        None where none is found."""
        for each in self._rough(good, ROUGH):
            if self._fault(each) and self._at_end(each) and self.rounding(each) is None:
                return each
        return None

    def _before_rounding(self, border: Border[Fault], way: int) -> Border[Fault] | int:
        """The border; or one nearer to the present number, up to which rounding breaks nothing; or
        a number before it that isn't good, and not by rounding, if one is found."""
        near = [border.good + way, *self._rough(border.good, ROUGH)]
        broken = self._broken(border.good) if any(map(self.rounding, near)) else None
        if broken is None:
            return border
        good, broken = self._whole_before(broken, way)
        fault = self.rounding(broken)
        return broken if fault is None else Border(good, fault, border.is_clear)

    def _whole_before(self, broken: int, way: int) -> tuple[int, int]:
        """About the last number up to which rounding breaks nothing, before one at which it does;
        and the first at which it is found to."""
        good, step, found = broken, 1, self._broken(broken)
        while found is not None:
            broken, step = found, 2 * step
            good = max(broken - way * step, self.present, key=lambda it: way * it)
            found = self._broken(good) if good != self.present else None
        while abs(broken - good) > max(1, min(abs(good), abs(broken)) // BLUNT):
            middle = _middle_by_size(good, broken)
            found = self._broken(middle)
            if found is not None and way * found <= way * good:
                return self._whole_before(found, way)
            good, broken = (middle, broken) if found is None else (good, found)
        rounder = _rounder(good, way, max(abs(broken - good), self._reach(good) // BLUNT))
        if way * rounder <= way * self.present:
            return good, broken
        found = self._broken(rounder)
        return (rounder, broken) if found is None else self._whole_before(found, way)

    def _reach(self, number: int) -> int:
        """How far a number is from the present one, or from 0 if that is less."""
        return min(abs(number), abs(number - self.present))

    def _broken(self, number: int) -> int | None:
        """A number, or one somewhat before it, at which rounding breaks something or nearly does,
        or which isn't good; else None."""
        for each in (number, *self._many_rough(number)):
            if self._fault(each) is not None or self.rounding(each) is not None:
                return each
        return None

    def _rough(self, number: int, count: int) -> list[int]:
        """Some numbers without round digits on the way to a number, most of them near it."""
        return self._before(number, _rough_steps(count))

    def _many_rough(self, number: int) -> list[int]:
        """More of them. Rounding does less at those that are half as far again from 0: in their
        place, before a small number, are more of the nearest."""
        near = [step for step in _rough_steps(MANY_ROUGH) if step <= abs(number) // 2]
        others = (step for step in range(1, 2 * MANY_ROUGH) if step not in near)
        return self._before(number, sorted([*near, *islice(others, MANY_ROUGH - len(near))]))

    def _before(self, number: int, steps: Iterable[int]) -> list[int]:
        """The numbers that lie so many steps before a number, behind the present one."""
        way, room = (1 if number > self.present else -1), abs(number - self.present)
        return [number - way * step for step in steps if step < room]

    def _at_end(self, number: int) -> Fault | None:
        """What is wrong with a number at which all looks to end. Where nothing is, it is good, and
        those that weren't are asked anew."""
        fault = self._fault(number) if self._is_beyond(number) else self.at_end(number)
        if fault is None:
            self.known = {each: None for each, why in self.known.items() if why is None}
            self.known[number] = None
        return fault

    def _is_beyond(self, number: int) -> bool:
        return not self.low <= number <= self.high

    def _fault(self, number: int) -> Fault | None:
        if self._is_beyond(number):
            return self.beyond(number)
        if number not in self.known:
            self.asked += 1
            self.known[number] = self.fault(number)
        return self.known[number]

    def _apart(self, good: int, way: int) -> tuple[int, int]:
        """A number that is good, from one on that is, and one further that isn't."""
        end = self.high if way > 0 else self.low
        if end == good or not self._fault(end):
            return end, end + way
        step = max(1, abs(good) // FIRST)
        while (end - good) * way > step and not self._fault(good + way * step):
            good, step = good + way * step, 2 * step
        return good, min(good + way * step, end, key=lambda it: it * way)

    def _halved(self, good: int, bad: int) -> tuple[int, int]:
        """Two numbers next to each other between them, of which one is good: at multiples of what
        is coarse first, since most ends lie by one."""
        while abs(bad - good) > COARSE:
            good, bad = self._nearer(good, bad, _coarse_middle(good, bad))
        way = 1 if bad > good else -1
        for near in (bad - way, good + way):
            if abs(bad - good) > 1:
                good, bad = self._nearer(good, bad, near)
        while abs(bad - good) > 1:
            good, bad = self._nearer(good, bad, (good + bad) // 2)
        return good, bad

    def _nearer(self, good: int, bad: int, between: int) -> tuple[int, int]:
        """The two with a number between them in the place of one."""
        return (good, between) if self._fault(between) else (between, bad)

    def _way_to(self, good: int) -> tuple[bool, int | None]:
        """Whether the way to a good number is clear; else a number on it that isn't good, where
        one is found."""
        for each in self._probes(good):
            if self._fault(each):
                return False, each
        return self._between(self.present, good)

    def _probes(self, good: int) -> Iterator[int]:
        """Some numbers between the present one and a good one, the nearest first."""
        way, room = (1 if good > self.present else -1), abs(good - self.present)
        near = min(room, 4 * abs(self.present) + 4)
        steps = [near * each // (PROBES + 1) for each in range(1, PROBES + 1)]
        while near < room:
            steps.append(near)
            near *= FAR
        return (self.present + way * step for step in steps if 0 < step < room)

    def _between(self, near: int, far: int) -> tuple[bool, int | None]:
        """The same of the way between two good numbers: more are tried where it isn't clear."""
        if abs(far - near) < 2:
            return True, None
        middle = self._middle(near, far)
        for each in (middle, self._middle(near, middle), self._middle(middle, far)):
            if each not in self.known and self.asked - self._asked_before >= MOST_TRIED:
                return False, None
            if self._fault(each):
                return False, each
        if self.is_clear([near, *self._tried_between(near, far), far]):
            return True, None
        is_near_clear, found = self._between(near, middle)
        if found is not None:
            return False, found
        is_far_clear, found = self._between(middle, far)
        return is_near_clear and is_far_clear, found

    def _tried_between(self, near: int, far: int) -> list[int]:
        """The good numbers that were tried between two others, in the order of these."""
        low, high = sorted((near, far))
        found = sorted(each for each, fault in self.known.items()
                       if low < each < high and fault is None)
        return found if near == low else found[::-1]

    def _middle(self, near: int, far: int) -> int:
        """A number between two others to try next: one that was, if it lies well between them."""
        middle = (near + far) // 2
        tried = self._tried_between(near, far)
        nearest = min(tried, key=lambda each: abs(each - middle), default=middle)
        return nearest if abs(nearest - middle) <= abs(far - near) // 4 else middle

    def _last_good_before(self, number: int) -> int:
        """The nearest good number between the present one and another."""
        return [self.present, *self._tried_between(self.present, number)][-1]


def _rough_steps(count: int) -> list[int]:
    """Steps that lead from a number with round digits to some without."""
    return [2 ** each + each for each in range(count)]


def _middle_by_size(good: int, bad: int) -> int:
    """A number between two that aren't neighbours: by their sizes, where both are on one side of
    0."""
    low, high = sorted((good, bad))
    middle = (low + high) // 2
    if low > 0:
        middle = isqrt(low * high)
    elif high < 0:
        middle = -isqrt(low * high)
    return _coarse(min(max(middle, low + 1), high - 1), low, high)


def _rounder(number: int, way: int, room: int) -> int:
    """A number with fewer digits next to another, nearer than some room, on the side that the way
    comes from."""
    part: int = 10 ** (len(str(room)) - 1)
    return way * (way * number // part * part)


def _coarse_middle(good: int, bad: int) -> int:
    """A number in the middle between two: a multiple of what is coarse, where one lies there."""
    low, high = sorted((good, bad))
    return _coarse((low + high) // 2, low, high)


def _coarse(number: int, low: int, high: int) -> int:
    """A number, or the multiple of what is coarse next to it, if it lies between two others."""
    coarse = round(number / COARSE) * COARSE
    return coarse if low < coarse < high else number
