"""The web page that docs/site makes of the repository's pages: each link and picture leads to something in it."""
from __future__ import annotations

import re
import subprocess
from html.parser import HTMLParser
from pathlib import Path

import pytest
from conftest import TOP

pytest.importorskip("markdown", reason="Debian's python3-markdown is missing")


class References(HTMLParser):
    """Where the links and pictures of a page lead to, and the names in it that links may lead to."""

    def __init__(self, page: Path) -> None:
        super().__init__()
        self.led: list[str] = []
        self.names: set[str] = set()
        self.feed(page.read_text(encoding="utf-8"))

    def handle_starttag(self, tag: str, attrs: list[tuple[str, str | None]]) -> None:
        told = dict(attrs)
        self.led += [it for it in (told.get("href"), told.get("src")) if it]
        self.names.add(told.get("id") or "")


@pytest.fixture(scope="module")
def site(tmp_path_factory: pytest.TempPathFactory) -> Path:
    folder = tmp_path_factory.mktemp("site")
    made = subprocess.run([TOP / "docs/site", folder], capture_output=True, text=True)
    assert made.returncode == 0, made.stdout + made.stderr
    return folder


def test_every_reference_leads_somewhere(site: Path) -> None:
    pages = {it: References(it) for it in site.rglob("*.html") if "static" not in it.parts}
    assert len(pages) > 70
    for page, told in pages.items():
        for led in told.led:
            if re.match(r"[a-z]+:", led):
                continue
            path, _, name = led.partition("#")
            to = (page.parent / path).resolve() if path else page
            assert to.is_file(), f"{page.relative_to(site)}: {led}"
            assert not name or name in pages[to].names, f"{page.relative_to(site)}: {led}"


def test_pages_keep_what_they_show(site: Path) -> None:
    """A table, a block of code and the first picture, as they stand in the README."""
    first = (site / "index.html").read_text(encoding="utf-8")
    assert '<img alt="one dimension too many, on the drawing board"' in first
    assert "<th>SolveSpace 3.1</th>" in first
    assert "length tolerance 0 nm at c1\n" in first and "<script" not in first
