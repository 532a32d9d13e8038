"""Exact fractions: what is linear, solved and told twice."""
from __future__ import annotations

from fractions import Fraction

from pertxogai.spelling.linear import Form, LinearSystem, Redundant


def form(number=0, **terms):
    return Form({key: Fraction(value) for key, value in terms.items() if value}, Fraction(number))


def test_forms_are_added_and_what_cancels_is_gone():
    assert form(1, x=2) + form(2, x=-2, y=1) == form(3, y=1)
    assert form(1, x=2) - form(1, x=2) == Form()
    assert form(1, x=2).times(Fraction(1, 2)) == form(Fraction(1, 2), x=1)
    assert form(1, x=2).times(0) == Form()


def test_equations_fix_values_by_fractions():
    system = LinearSystem()
    assert system.add(form(-1, x=3), 0) is None
    assert system.add(form(0, x=1, y=-7), 1) is None
    assert system.reduced(form(y=1)) == form(Fraction(1, 21))


def test_what_is_free_stays():
    system = LinearSystem()
    system.add(form(-5, x=1, y=-1), 0)
    rest = system.reduced(form(x=1, y=-1))
    assert rest == form(5)
    assert len(system.reduced(form(x=1)).terms) == 1


def test_a_repeat_names_what_it_follows_from():
    system = LinearSystem()
    system.add(form(-2, x=1, y=-1), 0)
    system.add(form(-3, y=1, z=-1), 1)
    system.add(form(-9, w=1), 2)
    assert system.add(form(-5, x=1, z=-1), 3) == Redundant(frozenset({0, 1, 3}), Fraction(0))


def test_a_contradiction_tells_by_how_much():
    system = LinearSystem()
    system.add(form(-2, x=1), 0)
    assert system.add(form(-7, x=1), 1) == Redundant(frozenset({0, 1}), Fraction(-5))


def test_sources_are_the_equations_that_fix_a_value():
    system = LinearSystem()
    system.add(form(-2, x=1), 0)
    system.add(form(0, y=1, x=-1), 1)
    system.add(form(-4, z=1), 2)
    assert system.sources(form(y=1)) == {0, 1}


def test_the_least_rank_is_solved_for():
    system = LinearSystem(lambda key: 0 if key == "size" else 1)
    system.add(form(0, x=1, size=-1), 0)
    assert system.reduced(form(size=1)) == form(x=1)
    assert system.reduced(form(x=1)) == form(x=1)


def test_sources_are_told_also_of_what_was_told_later():
    system = LinearSystem()
    system.add(form(0, y=1, x=-1), 0)
    assert system.sources(form(y=1)) == {0}
    system.add(form(-2, x=1), 1)
    assert system.sources(form(y=1)) == {0, 1}


def test_numbers_are_whole_while_they_can_be():
    system = LinearSystem()
    system.add(form(-6, x=3, y=Fraction(3, 2)), 0)
    system.add(form(-1, y=Fraction(1, 2)), 1)
    found = system.reduced(form(x=1))
    assert found == form(1) and isinstance(found.number, int)


def test_what_has_changed_is_told_once():
    system = LinearSystem()
    system.add(form(0, x=1, y=-1), 0)
    assert system.changed() == {"x"}
    assert system.changed() == set()
    system.add(form(-3, y=1), 1)
    assert system.changed() == {"x", "y"}
