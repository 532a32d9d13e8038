"""The command Repair: which constraints may go, which of them are redundant and which conflict, and
by how much."""
from __future__ import annotations

from collections.abc import Iterator
from dataclasses import dataclass, replace
from enum import Enum

from pertxogai.judging import Surplus, Then, judge_at_once
from pertxogai.judging.naming import listed
from pertxogai.judging.surplus import without
from pertxogai.program.reports import Verdict
from pertxogai_freecad import changes
from pertxogai_freecad.following import followers
from pertxogai_freecad.judging import JudgedSketch, Standing, of_surplus, surplus_by_index
from pertxogai_freecad.translating import QT_TRANSLATE_NOOP
from pertxogai_freecad.trouble import Trouble, troubles

REST = {
    None: "", Then.WELL: "fully constrained", Then.OPEN: "under-constrained",
    Then.NOT_GOOD: "fully constrained, but not good",
    Then.NO_PLACES: "fully constrained, but has no places", Then.OVER: "still over-constrained",
}
"""What the program says of the rest, in the trade's words."""
OPENS = ", and under-constrained once enough is removed"
NOTHING = QT_TRANSLATE_NOOP("Pertxogai", "nothing is redundant")
NOT_COUNTED = QT_TRANSLATE_NOOP(
    "Pertxogai", "the program finds nothing redundant; the rank wasn't counted")


class By(Enum):
    """Who says that a constraint may go; the values are shown."""

    TRIED = "by rank, and tried by the program"
    RANK = "by rank"
    PROGRAM = "named by the program"


def stays_for(following: tuple[str, ...]) -> str:
    """Why a constraint can't be removed that these follow from; empty where none does."""
    if not following:
        return ""
    verb = "follows" if len(following) == 1 else "follow"
    return f"it can't be removed while {', '.join(following)} {verb} from it"


@dataclass(frozen=True)
class Candidate:
    """A constraint of FreeCAD's that may go. index: its number, from 0. off: how far it is off
    where the rest is placed, empty where that isn't known. rest: what the rest is without it, empty
    where that wasn't tried. others: the constraints that it follows from or contradicts. by: who
    says that it may go. followers: what follows from it by FreeCAD's expressions: it stays as long
    as there is any."""

    index: int
    name: str
    standing: Standing
    off: str = ""
    rest: str = ""
    others: tuple[str, ...] = ()
    by: By = By.RANK
    followers: tuple[str, ...] = ()

    def stays(self) -> str:
        """Why it can't be removed; empty where it can."""
        return stays_for(self.followers)

    def line(self) -> str:
        """All of it, to read."""
        stays = f"; {self.stays()}" if self.followers else ""
        off = f", off by {self.off}" if self.off else ""
        with_others = f", with {listed(self.others)}" if self.others else ""
        rest = f"; the rest is {self.rest} without it" if self.rest else ""
        return (f"{self.name}: {self.standing.value}{off}{with_others}{rest} "
                f"({self.by.value}){stays}")


@dataclass(frozen=True)
class Repair:
    """What may go of a judged sketch."""

    judged: JudgedSketch
    candidates: tuple[Candidate, ...]

    @staticmethod
    def of(judged: JudgedSketch) -> Repair:
        """Contradictions first; where it isn't over, what repeats others all the same."""
        found: dict[int, Candidate] = {}
        for each in (*_surplus(judged), *_repeats(judged), *_by_rank(judged)):
            if each.index not in found:
                found[each.index] = replace(
                    each, followers=followers(judged.read.sketch, each.index))
        return Repair(judged, tuple(found.values()))

    def lines(self) -> Iterator[str]:
        """What may go, in lines to read."""
        yield self.judged.headline()
        yield from (f"  {each.line()}" for each in self.candidates)
        if not self.candidates:
            yield f"  {self.nothing()}"
        elif len(self.candidates) > 1:
            yield "  remove one, and ask again"

    def nothing(self) -> str:
        """What is said where there is none."""
        return NOTHING if self.judged.judged.judgement.free is not None else NOT_COUNTED

    def take_away(self, index: int) -> None:
        """Takes one of these away, which FreeCAD's undo brings back. Raises Trouble where it is
        none of these, something follows from it, or the sketch was changed since."""
        chosen = next((each for each in self.candidates if each.index == index), None)
        if chosen is None:
            raise Trouble(f"constraint {index + 1} isn't removable")
        self.judged.read.check_constraints()
        stays = stays_for(followers(self.judged.read.sketch, index))
        if stays:
            raise Trouble(f"{chosen.name}: {stays}: give that a number first, or remove another")
        changes.remove(self.judged.read, index)


def _surplus(judged: JudgedSketch) -> Iterator[Candidate]:
    """What may go of what is over; last that without which the rest is open once enough is
    removed."""
    untried = By.PROGRAM if judged.judged.judgement.free is None else By.RANK
    found = surplus_by_index(judged).items()
    for index, each in sorted(found, key=lambda pair: pair[1].opens()):
        off, standing = of_surplus(judged.read, each)
        if standing is Standing.IN_PART:
            yield _in_part(judged, index)
        else:
            yield Candidate(index, each.name, standing, off, _rest(each), each.others,
                            untried if each.then is None else By.TRIED)


def _rest(each: Surplus) -> str:
    """What the rest is without a constraint; empty where that wasn't tried."""
    opens = OPENS if each.then is Then.OVER and each.opens() else ""
    return REST[each.then] + opens


def _without(judged: JudgedSketch, index: int) -> Then:
    """What the program says of the rest, where all goes that a constraint of FreeCAD's says. Raises
    Trouble."""
    rest = without(judged.read.drawing, judged.read.numbers(index))
    with troubles():
        found = judge_at_once(rest, judged.program, limit=judged.judged.limit)
    if found.verdict is Verdict.WELL:
        if found.solution is None:
            return Then.NO_PLACES
        return Then.NOT_GOOD if any(found.limit.beyond(found.deviations)) else Then.WELL
    return Then.OPEN if found.verdict is Verdict.OPEN else Then.OVER


def _repeats(judged: JudgedSketch) -> Iterator[Candidate]:
    """What says again what follows already, and is no line of the program's sketch."""
    for name in judged.judged.judgement.repeats:
        if name in judged.read.indices:
            yield _known_of_one(judged, judged.read.indices[name], name, Standing.REDUNDANT)


def _known_of_one(judged: JudgedSketch, index: int, name: str, standing: Standing,
                  others: tuple[str, ...] = ()) -> Candidate:
    """A constraint of which it is known of one thing that it says how that stands; where it says
    several, it is tried as a whole."""
    if len(judged.read.numbers(index)) == 1:
        return Candidate(index, name, standing, others=others)
    return _in_part(judged, index, others)


def _in_part(judged: JudgedSketch, index: int, others: tuple[str, ...] = ()) -> Candidate:
    """A constraint that says several things, of which one is too many, tried as a whole."""
    return Candidate(index, judged.read.drawing.called(judged.read.numbers(index)[0]),
                     Standing.IN_PART, rest=REST[_without(judged, index)], others=others,
                     by=By.TRIED)


def _by_rank(judged: JudgedSketch) -> Iterator[Candidate]:
    """Of what isn't over, groups of which one is too many all the same."""
    for group in judged.judged.judgement.too_many:
        for name in group:
            if name in judged.read.indices:
                others = tuple(each for each in group if each != name)
                yield _known_of_one(judged, judged.read.indices[name], name, Standing.MAY_GO,
                                    others)
