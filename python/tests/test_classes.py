"""Classes that are joined two at a time."""
from __future__ import annotations

from pertxogai.classes import Classes


def test_a_thing_that_was_joined_to_none_leads_itself() -> None:
    classes: Classes[str] = Classes()
    assert classes.leader("a") == "a" and classes.are_one("a", "a") and not classes.are_one("a", "b")
    assert classes.led() == []


def test_what_leads_the_first_leads_both() -> None:
    classes: Classes[str] = Classes()
    assert classes.join("a", "b") and classes.join("c", "d") and classes.join("d", "b")
    assert [classes.leader(each) for each in "abcde"] == ["c", "c", "c", "c", "e"]
    assert classes.led() == ["b", "d", "a"]


def test_what_is_one_already_is_told() -> None:
    classes: Classes[str] = Classes()
    assert classes.join("a", "b") and classes.join("b", "c")
    assert not classes.join("c", "a") and not classes.join("a", "a")
    assert classes.leader("c") == "a"
