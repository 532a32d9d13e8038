"""What a hand holds of a drawing follows it, while all rows stay met and the rest moves least.

A step begins along the tangent that brings what is held nearest to where it is pulled, and is then
mended. Where it can't come there, it comes as near as it may: how much shorter, or longer, than the
tangent says a step has to be for that, is learnt from one step for the next.

A drawing with one degree of freedom has two ways to go on from a dead point or a change point, and
another solution nearby would be a flip. So a step counts only where it runs along the tangents at
both of its ends, and what is held moves on and not back there; else it is halved. Where the last
step leads elsewhere, that is tried too, and of two branches the one is taken that goes on so: thus
a linkage runs through its change points as it came. It stays a little before a dead point, where
the rest would move ever more for ever less of what is held."""
from __future__ import annotations

from dataclasses import dataclass
from enum import Enum
from functools import cached_property
from itertools import product

import numpy as np

from pertxogai.search.arrays import Array, Indices, Matrix, columns_times, row_squares
from pertxogai.search.budget import Budget
from pertxogai.search.descent import descend
from pertxogai.search.equations import System
from pertxogai.search.following import Following
from pertxogai.search.least_steps import Steps, damped_steps

HEAVY, FIRM = 1e-2, 1e-4
"""How easily a held unknown moves from where it is pulled, against the others; and from its place,
while the rest turns to the other shape."""
EASY = 300.0
"""The same for what gives way rather than others."""
THERE_NM, NEAR_NM = 1000.0, 10.0
"""What is held this near to where it is pulled is there; and so near that it isn't pulled on."""
ENOUGH = 1e-5
"""What could come nearer by less than this part of the drawing's size is as near as it comes."""
STRIDE = 0.1
"""No step is longer than this part of the drawing's size."""
CHASE, LEAST_CHASE = 4.0, 0.02
"""The farthest that what is held goes: this many times as far as the hand does, or this part of the
drawing's size. So it glides where the hand had left it behind."""
LEAP = 12.0
"""The farthest that anything moves: this many times as far as what is held is pulled."""
ALONG = 0.9
"""A step runs along a tangent where this part of it does."""
CLOSE = 0.3
"""Two steps are close that differ by less than this part of them."""
NEARLY_FREE, NOT_FREE = 1e-7, 1e-13
"""Times the greatest square of a row: what changes all rows by less is free at a change point, or
counts as free at all."""
LEAST_SHARE = 2e-3
"""At a dead point what is held moves by less than this part of what moves most."""
LEAST_BEND, MOST_BEND = 0.3, 8.0
"""Between these a step may be shorter than the tangent says."""
TURNS = (5e-4, 1e-3, 2e-3, 5e-3, 1e-2, 2e-2, 5e-2, 0.1)
"""By how much of the drawing's size all else is moved on to find the other shape."""
TURN_STEPS, TURN_SECONDS = 600, 0.5
"""The most steps and seconds of a turn."""
LEAST_MOTION = 1e-12
"""What moves by less doesn't move, in motions of length 1."""
HALVES = 5
"""How often the steps of a frame are halved."""
LEAST_PART = 0.5 ** HALVES
"""No step is a smaller part of what it might be."""
STEPS, STEP_SECONDS = 25, 0.5
"""The most steps of one descent, and the seconds of a processor after which it is given up."""
FRAME_STEPS, FRAME_SECONDS = 60, 0.04
"""The most steps of a frame, and the seconds of a processor after which no more are begun."""


class Reach(Enum):
    """How far what is held came; the values are for JSON."""

    THERE = "there"
    """It is where it is pulled."""
    BESIDE = "beside"
    """It is as near as its constraints let it come."""
    COMES = "comes"
    """It is on its way, and goes on once it is pulled again."""
    STAYS = "stays"
    """It can't go on the way that it went: a dead point, or the end of its way."""


@dataclass(frozen=True)
class Pulled:
    """Where all lies once a hand has pulled: the unknowns of the part, by how much what is held is
    left behind, and how far it came."""

    x: Array
    left_nm: float
    reach: Reach


@dataclass(frozen=True)
class _Here:
    """Somewhere that all rows are met, and how all may move from there. What is reckoned there is
    kept: of each step the end is where the next begins. ease: how easily each unknown moves."""

    system: System
    ease: Array
    x: Array

    @cached_property
    def _jacobian(self) -> Matrix:
        return self.system.tangents(self.x).jacobian

    @cached_property
    def _mends(self) -> Steps:
        """By how much less each unknown moves, by its ease, so that all rows change as wanted."""
        eased = columns_times(self._jacobian, self.ease)
        return damped_steps(eased, _damping(eased, NOT_FREE))

    @cached_property
    def _changes(self) -> Steps:
        """The least step that changes all rows as wanted."""
        return damped_steps(self._jacobian, _damping(self._jacobian, NEARLY_FREE))

    def towards(self, pull: Array) -> Array:
        """The tangent step that comes nearest to a pull."""
        if not self.system.rows:
            return pull
        tangent: Array = pull - self.ease * self._mends(self._jacobian @ pull)
        return tangent

    def along(self, step: Array) -> Array:
        """The part of a step along which no row changes. Near a change point more ways are free
        than elsewhere: what changes rows by next to nothing counts as free."""
        if not self.system.rows:
            return step
        tangent: Array = step - self._changes(self._jacobian @ step)
        return tangent


@dataclass(frozen=True)
class _Step:
    """Where a step ends, and the way that it goes on there."""

    end: _Here
    way: Array

    @property
    def x(self) -> Array:
        return self.end.x


class Pull:
    """A part of a drawing, met where it begins, that is held by some of its unknowns. easy: those
    that give way rather than others."""

    def __init__(self, part: Following, held: Indices, easy: Indices) -> None:
        self._system, self._first_radius = part.system, part.first_radius
        self._held = held
        self._ease = np.ones(part.system.count)
        self._ease[held] = HEAVY
        self._ease[easy] = EASY
        self._here = self._at(part.system.drawn)
        self._pulled = self.x[held]
        self._way = np.zeros(len(self.x))
        self._bend, self._part = 1.0, 1.0

    @property
    def x(self) -> Array:
        """Where all lies: the unknowns of the part."""
        return self._here.x

    def _at(self, x: Array) -> _Here:
        return _Here(self._system, self._ease, x)

    def to(self, place: Array) -> Pulled:
        """The hand pulls what is held to a place: the wanted value of each held unknown."""
        moved_nm = float(np.linalg.norm(place - self._pulled))
        most_nm = max(CHASE * moved_nm, LEAST_CHASE * self._system.size_nm)
        self._pulled = place
        reach = self._go(place, most_nm, Budget(FRAME_STEPS, FRAME_SECONDS))
        if reach is not Reach.COMES:
            self._part = 1.0
        left_nm = self._left_nm(place)
        return Pulled(self.x, left_nm, Reach.THERE if left_nm <= THERE_NM else reach)

    def turn(self) -> bool:
        """Goes through a dead point to the other shape that has what is held in its place, and in
        which it goes on the other way for the same motion of the rest. Gives whether there is one
        near."""
        ease = np.ones(len(self.x))
        ease[self._held] = FIRM
        here, motion = self.x[self._held], self._motion()
        budget = Budget(TURN_STEPS, TURN_SECONDS)
        for part, sign in product(TURNS, (1.0, -1.0)):
            start = self.x + motion * (sign * part * self._system.size_nm)
            start[self._held] = here
            end = descend(self._system, start, budget, ease=ease)
            there = self._at(end.x)
            other = there.along(motion)
            if end.is_met() and self._left_nm_at(end.x, here) <= THERE_NM and (
                    motion[self._held] @ other[self._held] < 0):
                self._here, self._way = there, np.zeros(len(self.x))
                return True
        return False

    def _motion(self) -> Array:
        """How all moves on from here, by 1 what moves most."""
        motion = self._here.along(np.random.default_rng(1).uniform(-1, 1, len(self.x)))
        found: Array = motion / max(float(np.abs(motion).max()), LEAST_MOTION)
        return found

    def _go(self, goal: Array, most_nm: float, budget: Budget) -> Reach:
        """Goes to a goal step by step, so far at most. A step is tried however late it is, and the
        next frame goes on with steps of the same part."""
        halves, tangent = 0, self._towards(goal)
        while not self._is_near(goal, tangent):
            if halves > HALVES or self._part < LEAST_PART or self._is_dead(tangent):
                return Reach.STAYS
            if most_nm <= 0:
                return Reach.COMES
            budget.spend()
            length = self._part * self._length(goal, tangent, most_nm)
            step = self._step(goal, length * tangent)
            if step is None:
                self._part, halves = self._part / 2, halves + 1
            else:
                most_nm -= float(np.linalg.norm((step.x - self.x)[self._held]))
                tangent = self._taken(step, goal, tangent, length)
            if budget.is_spent():
                return Reach.COMES
        is_held = self._left_nm(goal) > THERE_NM and self._share(self._motion()) < LEAST_SHARE
        return Reach.STAYS if is_held else Reach.BESIDE

    def _taken(self, step: _Step, goal: Array, tangent: Array, length: float) -> Array:
        """Takes a step of that length along a tangent; gives the tangent from there."""
        self._here, self._way = step.end, step.way
        after = self._towards(goal)
        self._learn(tangent[self._held], after[self._held], length)
        self._part = min(1.0, 2 * self._part)
        return after

    def _left_nm(self, goal: Array) -> float:
        return self._left_nm_at(self.x, goal)

    def _left_nm_at(self, x: Array, goal: Array) -> float:
        return float(np.linalg.norm(goal - x[self._held]))

    def _is_dead(self, tangent: Array) -> bool:
        """Whether the way on leads into a dead point, and that is reached all but for a little."""
        return float(tangent @ self._way) > 0 and self._share(tangent) < 1.5 * LEAST_SHARE

    # -- a step

    def _towards(self, goal: Array) -> Array:
        """The tangent step that brings what is held nearest to a goal."""
        pull = np.zeros(len(self.x))
        pull[self._held] = goal - self.x[self._held]
        return self._here.towards(pull)

    def _is_near(self, goal: Array, tangent: Array) -> bool:
        nearer_nm = float(np.linalg.norm(tangent[self._held]))
        return self._left_nm(goal) <= NEAR_NM or nearer_nm <= ENOUGH * self._system.size_nm

    def _length(self, goal: Array, tangent: Array, most_nm: float) -> float:
        """How far a step goes along a tangent."""
        pull_nm = float(np.abs(goal - self.x[self._held]).max())
        held_nm, all_nm = (float(np.abs(each).max()) for each in (tangent[self._held], tangent))
        return min(1.0 / self._bend, most_nm / held_nm, STRIDE * self._system.size_nm / held_nm,
                   LEAP / 2 * pull_nm / all_nm)

    def _learn(self, before: Array, after: Array, length: float) -> None:
        """Learns how much shorter than a tangent a step has to be, from what is left of one."""
        left = float(before @ after) / float(before @ before)
        self._bend = min(max((1.0 - left) / length, LEAST_BEND), MOST_BEND)

    def _step(self, goal: Array, tangent: Array) -> _Step | None:
        """A step along a tangent; None where it doesn't come nearer to the goal, leaps, or turns.
        One that the last leads to is looked at where that ends elsewhere: of two branches it is
        taken which goes on as the last did."""
        plain, led = self._mended(goal, tangent), self._led(tangent)
        if led is None or plain and _is_close(plain.x - self.x, led):
            return plain
        other = self._mended(goal, led)
        if plain is None or other is None:
            return plain or other
        apart = other.x - plain.x
        along = plain.end.along(apart)
        if np.linalg.norm(along) >= ALONG * np.linalg.norm(apart):
            return plain
        return max(plain, other, key=lambda each: _cosine(each.x - self.x, self._way))

    def _mended(self, goal: Array, start: Array) -> _Step | None:
        """Where a step ends that begins so."""
        before_nm = self._left_nm(goal)
        budget = Budget(STEPS, STEP_SECONDS)
        end = descend(self._system, self.x + start, budget, steps=STEPS, ease=self._ease)
        if not end.is_met() or float(np.linalg.norm(goal - end.x[self._held])) >= before_nm:
            return None
        there = self._at(end.x)
        way = self._smooth_way(there, before_nm)
        return None if way is None else _Step(there, way)

    def _led(self, tangent: Array) -> Array | None:
        """A step as the last one leads on, as far as a tangent leads what is held along it."""
        held = self._way[self._held]
        square = float(held @ held)
        if square == 0.0:
            return None
        led: Array = self._way * (float(held @ tangent[self._held]) / square)
        far, most = float(np.abs(led).max()), 2 * float(np.abs(tangent).max())
        led = led * (most / far) if far > most else led
        led[self._held] = tangent[self._held]
        return led

    def _smooth_way(self, there: _Here, pulled_nm: float) -> Array | None:
        """The way that a step goes on where it ends; None where the step leaps, or turns."""
        step, radii = there.x - self.x, there.x[self._first_radius:]
        if np.abs(step).max() > LEAP * pulled_nm or (radii <= NEAR_NM).any():
            return None
        before, after = self._here.along(step), there.along(step)
        least = ALONG * float(np.linalg.norm(step))
        is_smooth = min(np.linalg.norm(before), np.linalg.norm(after)) >= least
        is_on = before[self._held] @ after[self._held] >= 0
        is_alive = self._share(after) >= min(LEAST_SHARE, self._share(before))
        return after if is_smooth and is_on and is_alive else None

    def _share(self, way: Array) -> float:
        """How far what is held moves by a way, against what moves most."""
        return float(np.abs(way[self._held]).max() / max(np.abs(way).max(), LEAST_MOTION))


def _damping(jacobian: Matrix, part: float) -> float:
    return part * float(row_squares(jacobian).max(initial=0.0)) or 1.0


def _is_close(one: Array, other: Array) -> bool:
    """Whether two steps are one but for what mending changes."""
    return bool(np.linalg.norm(one - other) <= CLOSE * np.linalg.norm(one))


def _cosine(one: Array, other: Array) -> float:
    return float(one @ other) / float(np.linalg.norm(one) * np.linalg.norm(other))
