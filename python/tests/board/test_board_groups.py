"""The board in a real browser: the group of a dimension that repeats or contradicts others."""
from __future__ import annotations

from contextlib import suppress

import pytest

from boards import wait_for
from browsing import Page
from selenium.common.exceptions import StaleElementReferenceException
from selenium.webdriver.common.action_chains import ActionChains
from selenium.webdriver.common.by import By

PLATE = """rectangle R 0 0 100 60
circle H 40 30 5
coincident RBottom.start Origin
length RBottom 100
length RRight 60
x H 40
y H 30
diameter H 10
"""
"""Its levels are constraints 1 to 4; 5 ties it; 6 and 7 are its lengths, 8 to 10 the hole's."""
WEIGHED = "return document.getElementById('verdict').textContent.includes('of these instead')"
"""Once it is weighed, the list says so behind what is left out."""


def grouped(page: Page) -> set[str]:
    """The constraints that stand out as a group, by their numbers."""
    return set(page.driver.execute_script(
        "return [...document.querySelectorAll('.marks .grouped')].map("
        "(each) => each.dataset.constraint)"))


def rest_on(page: Page, selector: str) -> None:
    """Rests the mouse on a node; on the new one where it is drawn anew meanwhile."""
    for _ in range(10):
        with suppress(StaleElementReferenceException):
            node = page.driver.find_element(By.CSS_SELECTOR, selector)
            ActionChains(page.driver, duration=30).move_to_element(node).perform()
            return
    raise AssertionError(f"{selector} is drawn anew again and again")


@pytest.mark.parametrize("away", ["60", "55"], ids=["repeats", "contradicts"])
def test_its_group_stands_out_while_it_is_pointed_at_or_chosen(page: Page, away: str) -> None:
    """The hole's distance from the right side follows from the width, its x, and that this side is
    vertical, and from nothing of the height or the sizes."""
    page.begin(f"{PLATE}distance H RRight {away}\n", "over")
    page.wait("it is weighed", WEIGHED)
    assert grouped(page) == set()
    group = {"2", "6", "8"}
    wait_for("its group, once the list stands", lambda: (
        rest_on(page, "#verdict [data-spare='11']"), grouped(page) == group)[1])
    rest_on(page, "#name")
    wait_for("nothing", lambda: grouped(page) == set())
    page.click("#tab-asked")
    rest_on(page, "#asked [data-selects='11']")
    wait_for("its group by the other list", lambda: grouped(page) == group)
    page.click("#asked [data-selects='11']")
    rest_on(page, "#name")
    page.settled()
    assert grouped(page) == group
    page.click("#tab-text")
    assert page.faults() == []


def test_the_group_is_all_that_is_named_in_the_answer(page: Page) -> None:
    """Each of the names behind follows_from stands out, and no other constraint."""
    page.begin(f"{PLATE}distance H RRight 60\n", "over")
    page.wait("it is weighed", WEIGHED)
    told = page.driver.execute_async_script(
        "const done = arguments[1]; fetch('call/weigh', { method: 'POST',"
        " headers: { 'Content-Type': 'application/json' },"
        " body: JSON.stringify({ text: arguments[0] }) }).then((each) => each.json()).then(done);",
        page.text())
    (mine,) = [each for each in told["spare"] if each["number"] == 11]
    called = page.driver.execute_async_script(
        "const done = arguments[1]; fetch('call/judge', { method: 'POST',"
        " headers: { 'Content-Type': 'application/json' },"
        " body: JSON.stringify({ text: arguments[0] }) }).then((each) => each.json()).then(done);",
        page.text())["drawing"]["constraints"]
    numbers = {str(each["number"]) for each in called if each["called"] in mine["follows_from"]}
    assert len(numbers) == len(mine["follows_from"]) >= 2
    rest_on(page, "#verdict [data-spare='11']")
    wait_for("all of them", lambda: grouped(page) == numbers)


def test_the_group_of_what_is_chosen_stands_out_once_it_is_weighed(page: Page) -> None:
    """What it follows from is told a moment after the verdict, while it is chosen already."""
    page.driver.execute_script(
        "const { fetch } = window; window.fetch = (path, options) => path === 'call/weigh' ?"
        " new Promise((done) => { window.weighs = () => { window.fetch = fetch;"
        " done(fetch(path, options)); }; }) : fetch(path, options);")
    page.begin(f"{PLATE}distance H RRight 60\n", "over")
    page.click("#tab-asked")
    page.click("#asked [data-selects='11']")
    page.wait("a call", "return Boolean(window.weighs)")
    page.settled()
    assert grouped(page) == set()
    page.driver.execute_script("window.weighs()")
    wait_for("its group", lambda: {"6", "8"} <= grouped(page))
    page.click("#tab-text")
