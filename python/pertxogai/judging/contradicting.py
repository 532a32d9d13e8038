"""What couldn't be spelled, and isn't so where the program has placed the rest: it contradicts the
rest, and is told to the program as that."""
from __future__ import annotations

from collections.abc import Iterator
from dataclasses import replace
from fractions import Fraction

from pertxogai.drawing import Drawing
from pertxogai.drawing.places import NM_PER_UM
from pertxogai.judging.freedoms import Freedoms, freedoms
from pertxogai.judging.from_parts import distance, forms_of_parts
from pertxogai.judging.measure.limit import Limit
from pertxogai.judging.printed import PrintedPlaces
from pertxogai.program.reports import PartsReport, Solved
from pertxogai.spelling.facts import Middle, Owner
from pertxogai.spelling.linear import Form, LinearSystem, Number
from pertxogai.spelling.rails import Rails, Span
from pertxogai.spelling.writing import Contradiction, Spelled


def contradictions(rails: Rails, spelled: Spelled, report: PartsReport,
                   limit: Limit) -> tuple[Contradiction, ...]:
    """What couldn't be spelled, and is off by the parts that are placed; what is off within the
    limit repeats the others."""
    repeats_um = Fraction(limit.amount, NM_PER_UM)
    known = LinearSystem()
    for number, form in enumerate(forms_of_parts(rails, spelled, report)):
        known.add(form, number)
    said = spelled.left_out.union(*spelled.owners)
    found = []
    for form, owners in _unspelled_forms(rails):
        rest = known.reduced(form)
        if rest.terms:
            known.add(form, -1)
        elif not -repeats_um <= rest.number <= repeats_um and owners & spelled.left_out:
            found.append(Contradiction(rest.number, owners, said - owners))
    told = frozenset[Owner]().union(*(each.owners for each in found))
    return (*found, *(Contradiction(off, frozenset({owner}), said - {owner})
                      for owner, off in _middles(rails, spelled, report)
                      if off > repeats_um and owner in spelled.left_out - told))


def too_many(drawing: Drawing, spelled: Spelled) -> Iterator[Contradiction]:
    """Each constraint, and each arc of which the ends couldn't be spelled, though the rest is just
    enough, and one is too many of those by rank: nothing tells how far it is off. An arc's ends may
    stand for another that is too many, since they tell its radius; so does what holds a shape in
    itself. Else it may say where the whole lies, as a mirror in an axis that nothing else is told
    from."""
    said = spelled.left_out.union(*spelled.owners)
    free = freedoms(drawing)
    if free is None or not free.excess:
        return
    among = free.among()
    for owner in sorted(spelled.left_out):
        if owner.number and (owner.shape or owner in among or _holds(drawing, owner.number, free)):
            yield Contradiction(None, frozenset({owner}), said - {owner})


def _holds(drawing: Drawing, number: int, free: Freedoms) -> bool:
    """Whether without a constraint more of a drawing moves in itself, and not only the whole."""
    constraints = drawing.constraints[:number - 1] + drawing.constraints[number:]
    rest = freedoms(replace(drawing, constraints=constraints))
    return rest is not None and rest.lacks > free.lacks


def _middles(rails: Rails, spelled: Spelled,
             report: PartsReport) -> Iterator[tuple[Owner, Number]]:
    """How far each middle is off where it is placed with its points: whatever way these lie, which
    no line of the part may tell."""
    plates = [PrintedPlaces.of(part.shape.places, spelled.scale).points for part in report.parts
              if isinstance(part.shape, Solved)]
    for fact in rails.axes.facts.facts:
        if isinstance(fact, Middle):
            names = [spelled.points.get(each, "") for each in (fact.middle, fact.first,
                                                                fact.second)]
            for plate in plates:
                if set(names) <= plate.keys():
                    (x, y), (a, b), (u, v) = (plate[name] for name in names)
                    middle = Fraction(a + u) / 2, Fraction(b + v) / 2
                    yield fact.owner, distance(middle, (x, y))


def _unspelled_forms(rails: Rails) -> Iterator[tuple[Form, frozenset[Owner]]]:
    """What neither rails nor sizes say, as forms that are 0, and who says so."""
    for pending in rails.pending:
        yield pending.form, rails.axes.equations[pending.number].owners
    for fact in rails.axes.loose:
        if rails.number(fact.value) is None:
            form = rails.symbols(fact.value) - Form.of(Span(*fact.ends()))
            yield form, frozenset({fact.owner})
