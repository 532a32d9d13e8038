"""The index of docs/PROOFS.md: each message stands in the section that it leads to."""
from __future__ import annotations

import re

import pytest

from conftest import TOP

PAGE = (TOP / "docs/PROOFS.md").read_text()
INDEX = re.findall(r"^- \[`(.+)`\]\(#(.+)\)$", PAGE, re.MULTILINE)


def anchor(heading: str) -> str:
    """The name of a heading, as links have it."""
    return re.sub(r"[^\w\- ]", "", heading.lower()).strip().replace(" ", "-")


def sections() -> dict[str, str]:
    """The text below each heading, by the heading's name."""
    parts = re.split(r"^## ", PAGE, flags=re.MULTILINE)[1:]
    return {anchor(it.partition("\n")[0]): it for it in parts}


def test_the_index_is_there() -> None:
    """It has messages, in the order of the alphabet."""
    messages = [message.lower() for message, _ in INDEX]
    assert len(messages) > 20 and messages == sorted(messages)


@pytest.mark.parametrize(("message", "section"), INDEX)
def test_each_message_is_found(message: str, section: str) -> None:
    """A table of the section has it."""
    assert message in sections()[section]
