"""A drawing placed by the program with dimensions that lie off."""
from __future__ import annotations

from collections.abc import Collection, Iterable, Mapping, Sequence
from dataclasses import dataclass
from fractions import Fraction

from pertxogai.drawing import Drawing, DrawingUnsound
from pertxogai.fitting.ahead import Ahead
from pertxogai.fitting.asking import Asking, NotPlaced
from pertxogai.fitting.gauges import Gauge, NoLength, Way
from pertxogai.fitting.offs import Offs
from pertxogai.fitting.rounding import NOISE
from pertxogai.fitting.toleranced import Toleranced
from pertxogai.fitting.tries import AskBy, Lying, Tries
from pertxogai.judging import DrawingRefused
from pertxogai.judging.measure import Limit
from pertxogai.language import NotHeld, Refusal
from pertxogai.program import Solver

BESIDE = Fraction(1, 1000)
"""Where a case between the ends of a dimension can't be placed, cases are tried this part of its
tolerance to either side."""
MOST_NAMED = 2
"""A case names at most this number of dimensions."""


class Unplaced(Exception):
    """With dimensions that lie off within their tolerances a drawing isn't placed, a constraint
    isn't met, or a check can't be measured. The message says which dimensions, and why."""


@dataclass(frozen=True)
class Case:
    """A drawing as it is placed. values: what each gauge measures, in millionths of a millimetre or
    a degree. ways: the way of each that measures the distance of two points; None of each other.
    off_nm: how far that constraint is off which is off most."""

    values: tuple[int, ...]
    ways: tuple[Way | None, ...]
    off_nm: int


class Placer:
    """Places a drawing with its dimensions off, and measures the checks there. What was tried is
    kept. jobs: how many of the cases that are expected are placed at a time."""

    def __init__(self, drawing: Drawing, program: Solver, limit: Limit, jobs: int = 1) -> None:
        self._drawing, self._asking = drawing, Asking(drawing, program, limit)
        self._ahead = Ahead(self._tries, jobs)
        self.nominal = self._asking.nominal
        self._known: dict[Offs, Case] = {}
        self._within: dict[Offs, Case] = {}
        self._unplaced: dict[Offs, str] = {}
        self._between: set[Offs] = set()
        self._dimensions: Sequence[Toleranced] = ()
        self._base = Offs()
        self._gauges: Sequence[Gauge] = ()

    def begin(self, dimensions: Sequence[Toleranced], gauges: Sequence[Gauge]) -> None:
        """Says which dimensions may lie off, and what is measured."""
        self._dimensions, self._gauges = dimensions, gauges
        self._base = Offs(each.base for each in dimensions)
        self._asking.begin([each.number for each in dimensions if not each.is_angle],
                           [each.number for each in dimensions if each.is_angle])

    @property
    def cases(self) -> Mapping[Offs, Case]:
        """All that was placed and measured."""
        return self._known

    @property
    def tried(self) -> int:
        """How many cases were tried."""
        return len(self._known) + len(self._unplaced)

    @property
    def within(self) -> Mapping[Offs, Case]:
        """The cases in which each dimension lies within its tolerance. As a drawing is given it
        may not, where both deviations lie on one side."""
        return self._within

    @property
    def unplaced(self) -> tuple[str, ...]:
        """Which cases couldn't be placed, and why, each once; without those between two that
        could."""
        return tuple(dict.fromkeys(self._unplaced[offs] for offs in self._gaps()))

    @property
    def between(self) -> tuple[str, ...]:
        """Which cases couldn't be placed though both beside them could, and why, each once."""
        return tuple(dict.fromkeys(why for offs, why in self._unplaced.items()
                                   if offs in self._between))

    def _gaps(self) -> list[Offs]:
        return [offs for offs in self._unplaced if offs not in self._between]

    def has_gap(self, moving: Collection[int]) -> bool:
        """Whether a part within tolerance can't be placed, with all dimensions held at the base but
        for those of some places, from 0. Raises ProgramError."""
        held = (Offs(off if place in moving else base for place, (off, base)
                     in enumerate(zip(offs, self._base))) for offs in self._gaps())
        return not all(map(self.is_placed, held))

    @property
    def loose_nm(self) -> int:
        """By how much that constraint is off in any case which is off most; 0 where that is the
        rounding of places."""
        most = max((case.off_nm for case in self._known.values()), default=0)
        return most if most > NOISE else 0

    def as_given(self) -> Case:
        """The case in which nothing lies off. Raises Unplaced and ProgramError."""
        return self.case(Offs((Fraction(0),) * len(self._dimensions)))

    def base(self) -> Case:
        """The case next to that in which each dimension lies within its tolerance. Raises Unplaced
        and ProgramError."""
        return self.case(self._base)

    def alone(self, place: int, off: Fraction) -> Case:
        """The case next to the base in which one dimension is off, by its place from 0. Raises
        Unplaced and ProgramError."""
        return self.case(self.offs_alone(place, off))

    def offs_alone(self, place: int, off: Fraction) -> Offs:
        """How far off all are where one dimension is off, and the others are as at the base."""
        return self._base.replaced({place: off})

    def case(self, offs: Offs) -> Case:
        """The case with the dimensions so far off. Raises Unplaced and ProgramError."""
        return self._known.get(offs) or self._tried(offs)

    def _tried(self, offs: Offs) -> Case:
        """A case that isn't known yet. Raises Unplaced and ProgramError."""
        if offs in self._unplaced:
            raise Unplaced(self._unplaced[offs])
        try:
            case = self._known[offs] = self._placed(offs)
        except Unplaced as why:
            self._unplaced[offs] = str(why)
            raise
        if all(each.has(off) for each, off in zip(self._dimensions, offs)):
            self._within[offs] = case
        return case

    def is_placed(self, offs: Offs) -> bool:
        """Whether a case can be placed. Raises ProgramError."""
        try:
            self.case(offs)
        except Unplaced:
            return False
        return True

    def expect(self, cases: Iterable[Offs]) -> None:
        """Says which cases are asked for next, so that they may be placed side by side. What comes
        of them is the same without that."""
        if self._ahead.jobs == 1:
            return
        anew = {offs: self._by_number(offs) for offs in cases
                if offs not in self._known and offs not in self._unplaced}
        self._ahead.want(dict(zip(anew, self._asking.expected(list(anew.values())))))

    def close(self) -> None:
        """Ends the processes that place cases side by side."""
        self._ahead.close()

    def around(self, offs: Offs, place: int) -> list[Offs]:
        """A case with the dimension of that place, from 0, between its ends, where it can be
        placed. Else those of the two cases that can with that dimension a little less and a little
        more: bars that lie in one line have no places, and beside that they have. Raises
        ProgramError."""
        if self.is_placed(offs):
            return [offs]
        dimension, off = self._dimensions[place], offs[place]
        little = dimension.width() * BESIDE
        ends = max(off - little, -dimension.below), min(off + little, dimension.above)
        both = [beside for end in ends if end != off
                and self.is_placed(beside := offs.replaced({place: end}))]
        if len(both) == 2:
            self._between.add(offs)
        return both

    def tilts(self, numbers: Sequence[int]) -> bool:
        """Whether of two segments more was measured at one end than at the other. numbers: the
        places of the gauges of one check, from 0."""
        noise = self.noise(numbers[0])
        return any(max(there) - min(there) > noise for there in (
            [case.values[number] for number in numbers] for case in self._known.values()))

    def noise(self, number: int) -> int:
        """The rounding of what the gauge of that place, from 0, measures, in millionths."""
        return self._gauges[number].noise

    def _placed(self, offs: Offs) -> Case:
        by_number = self._by_number(offs)
        try:
            return self._measured(self._asking.lying(by_number, self._ahead.taken(offs)))
        except (DrawingRefused, DrawingUnsound, NoLength, NotHeld, NotPlaced, Refusal) as why:
            raise Unplaced(f"{self._told(by_number)}: {why}") from None

    def _measured(self, there: Lying) -> Case:
        """What the gauges measure where the drawing lies. Raises NoLength."""
        return Case(tuple(gauge.measured(there.solution) for gauge in self._gauges),
                    tuple(gauge.way(there.solution) for gauge in self._gauges), there.off_nm)

    def _by_number(self, offs: Offs) -> dict[int, Fraction]:
        """How far the dimensions that lie off do so, by the numbers of their constraints."""
        return {each.number: off for each, off in zip(self._dimensions, offs) if off}

    def _tries(self, offs: Offs, ways: Sequence[AskBy]) -> Tries:
        """What comes of ways to ask for a case."""
        return self._asking.tries(self._by_number(offs), ways)

    def _told(self, by_number: dict[int, Fraction]) -> str:
        """Which dimensions lie off."""
        if len(by_number) > MOST_NAMED:
            return f"with {len(by_number)} dimensions off their nominal values"
        angles = {each.number for each in self._dimensions if each.is_angle}
        called = self._drawing.called
        told = (f"{called(number)} off by {_off_text(off, number in angles)}"
                for number, off in by_number.items())
        return f"with {' and '.join(told) or 'nominal dimensions'}"


def _off_text(off: Fraction, is_angle: bool) -> str:
    """How far a dimension is off, in four digits."""
    return f"{float(off):.4g} degrees" if is_angle else f"{float(off / 1000):.4g} mm"
