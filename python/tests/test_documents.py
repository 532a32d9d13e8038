"""The pages: every link leads somewhere, tables name what is there, and the first page is short."""
from __future__ import annotations

import re
import shutil
import signal
import subprocess
from pathlib import Path

import pytest
from conftest import TOP

PAGES = [
    page
    for form in ("*.md", "crates/*/*.md", "python/**/*.md", "docs/*.md", "*s/README.md",
                 "checker/*.md", "freecad/*.md")
    for page in sorted(TOP.glob(form))
]
CRATES = sorted(it.parent for it in TOP.glob("crates/*/src"))
LINK = re.compile(r"!?\[(?:[^\[\]]|!\[[^\]]*\]\([^)]*\))*\]\(([^()\s]+)\)")
PICTURE = re.compile(r"!\[[^\]]*\]\(([^()\s]+)\)")


def prose(page: Path) -> str:
    """A page without what stands in its fenced blocks."""
    lines, fence = [], ""
    for line in page.read_text().splitlines():
        mark = re.match(r"\s*(```+)", line)
        if mark and fence in ("", mark[1]):
            fence = "" if fence else mark[1]
        elif not fence:
            lines.append(line)
    return "\n".join(lines)


def links(page: Path) -> list[str]:
    """Where a page leads to: its links and its pictures, without what stands in `code`."""
    text = re.sub(r"``[^`]+``|`[^`\n]*`", "``", prose(page))
    return LINK.findall(text) + PICTURE.findall(text)


def anchors(page: Path) -> set[str]:
    """The names of a page's headings, as a reader of pages makes them."""
    found: set[str] = set()
    for heading in re.findall(r"^#+ +(.*)$", prose(page), re.MULTILINE):
        plain = re.sub(r"\[([^\]]*)\]\([^)]*\)", r"\1", heading).lower()
        name = re.sub(r"[^\w\- ]", "", plain).strip().replace(" ", "-")
        again = sum(it == name or re.fullmatch(re.escape(name) + r"-\d+", it) is not None for it in found)
        found.add(f"{name}-{again}" if again else name)
    return found


@pytest.mark.parametrize("page", PAGES, ids=lambda it: str(it.relative_to(TOP)))
def test_every_link_leads_somewhere(page: Path) -> None:
    for link in links(page):
        if re.match(r"https?:|mailto:", link):
            continue
        path, _, anchor = link.partition("#")
        to = (page.parent / path).resolve() if path else page
        assert to.exists(), f"{link}: there is no such file"
        assert not anchor or anchor in anchors(to), f"{link}: there is no such heading"


def modules(crate: Path) -> list[str]:
    """The modules of a crate, by the first file of its sources."""
    [first] = [it for it in (crate / "src" / "lib.rt", crate / "src" / "main.rt") if it.exists()]
    return re.findall(r"^(?:pub )?mod (\w+);", first.read_text(), re.MULTILINE)


@pytest.mark.parametrize("crate", CRATES, ids=lambda it: it.name)
def test_a_table_names_the_modules_of_a_crate(crate: Path) -> None:
    page = (crate / "README.md").read_text()
    tables = re.findall(r"^\| module \|.*\n\|[-|]+\n((?:\|.*\n)+)", page, re.MULTILINE)
    cells = [line.split("|")[1] for table in tables for line in table.splitlines()]
    assert sorted(re.findall(r"`(\w+)`", " ".join(cells))) == sorted(modules(crate))


def calls(crate: Path) -> list[str]:
    """The functions that a crate shows, but for those of its types."""
    shown = re.findall(r"^pub use [\w:]+?::(\w+|\{[^}]*\});", (crate / "src" / "lib.rt").read_text(), re.MULTILINE)
    return [name for names in shown for name in re.findall(r"\w+", names) if name.islower()]


@pytest.mark.parametrize("crate", [it for it in CRATES if (it / "src" / "lib.rt").exists()], ids=lambda it: it.name)
def test_each_call_that_a_crate_shows_is_on_its_page(crate: Path) -> None:
    named = re.findall(r"`([^`\n]+)`", (crate / "README.md").read_text())
    assert set(calls(crate)) <= {word for it in named for word in re.findall(r"\w+", it)}


def test_the_first_page_is_short() -> None:
    assert len((TOP / "README.md").read_text().splitlines()) <= 200


@pytest.mark.skipif(shutil.which("rt") is None, reason="there is no kit here")
@pytest.mark.parametrize("page", ["README.md", "CONTRIBUTING.md"])
def test_a_page_names_the_kit_that_is_here(page: str) -> None:
    """By its name, or by the checksum of its logic, on which a verdict rests."""
    said = subprocess.run(["rt", "version"], capture_output=True, text=True, check=True).stdout
    kit, _, logic = said.split()
    text = (TOP / page).read_text()
    assert f"`{kit}`" in text or f"`{logic}`" in text


def test_no_page_is_hidden() -> None:
    """From the first page every page of docs/ is reached by links."""
    reached, left = set(), [TOP / "README.md"]
    while left:
        page = left.pop()
        reached.add(page)
        ends = {(page.parent / it.partition("#")[0]).resolve() for it in links(page) if it[0] != "#"}
        left += [it for it in ends if it.suffix == ".md" and it.exists() and it not in reached]
    assert reached >= {*TOP.glob("*.md"), *TOP.glob("docs/*.md"), *TOP.glob("python/*.md")}


SHOWN = re.compile(r"^<!-- (crates/\S+) -->\n```\n(.*?)^```$", re.MULTILINE | re.DOTALL)


@pytest.mark.parametrize(("page", "count"), [("docs/DEFINITIONS.md", 4), ("docs/PROOFS.md", 1)])
def test_what_a_page_shows_of_the_crates_stands_there(page: str, count: int) -> None:
    shown = SHOWN.findall((TOP / page).read_text())
    assert len(shown) >= count
    for path, text in shown:
        assert text in (TOP / path).read_text(), path


def test_how_much_a_reader_of_the_headline_has_to_read() -> None:
    """The definitions are those that the clauses cite, and none that only a proof cites."""
    asked = [TOP / "tools/definitions", "sk_verdict", "src/judgement.rt"]
    listed = subprocess.run(asked, capture_output=True, text=True, check=True).stdout.splitlines()
    files = [line.split()[1] for line in listed[:-1]]
    assert "crates/sk_verdict/specs/Judging.antt" in files
    assert "crates/sk_rules/specs/Reach.antt" in files
    assert not [it for it in files if "/proofs/" in it or "sk_lang" in it]
    lines = sum(int(line.split()[0]) for line in listed[:-1])
    assert listed[-1].startswith(f"{len(files)} files of definitions, {lines} lines, ")


def definitions_of(*asked: str) -> set[str]:
    """The words that the tool prints: files, numbers of lines, and those of its last line."""
    told = subprocess.run([str(TOP / "tools/definitions"), *asked], capture_output=True, text=True, check=True)
    return set(told.stdout.split())


def test_a_theorem_is_counted_with_its_premises_and_a_file_with_itself() -> None:
    conclusion = "crates/sk_laws/specs/Headline.antt"
    premises = {"crates/sk_cli/specs/Outcome.antt", "crates/sk_request/specs/Asking.antt"}
    assert {conclusion, *premises} <= definitions_of("sk_laws", "src/law.rt", "headline")
    alone = definitions_of("sk_laws", "specs/Headline.antt")
    assert conclusion in alone and not premises & alone


def test_the_definitions_of_an_unknown_function_are_refused() -> None:
    asked = [str(TOP / "tools/definitions"), "sk_laws", "src/law.rt", "nothing"]
    told = subprocess.run(asked, capture_output=True, text=True, check=False)
    refusal = "tools/definitions: crates/sk_laws/src/law.rt has no function nothing\n"
    assert (told.returncode, told.stdout, told.stderr) == (1, "", refusal)


def test_what_the_claims_rest_on_is_counted() -> None:
    """Those of the headline are counted, and those of a theorem that the page of claims alone links;
    the page says how many."""
    count = subprocess.run(TOP / "tools/definitions", capture_output=True, text=True, check=True).stdout
    assert {"crates/sk_laws/specs/Headline.antt", "crates/sk_plan/specs/Sparse.antt"} <= set(count.split())
    assert f"\n{count.splitlines()[-1]}\n" in (TOP / "docs/DEFINITIONS.md").read_text()


def test_the_definitions_end_with_their_reader() -> None:
    """Where nobody reads on, as behind `head`, nothing is said."""
    asked = [TOP / "tools/definitions"]
    with subprocess.Popen(asked, stdout=subprocess.PIPE, stderr=subprocess.PIPE, text=True) as left:
        assert left.stdout is not None and left.stderr is not None
        left.stdout.close()
        assert left.stderr.read() == ""
    assert left.returncode == -signal.SIGPIPE


def test_the_mutants_are_counted() -> None:
    """The pages that say how many mutants there are, and in how many crates, say it right."""
    mutants = [*TOP.glob("crates/*/must-fail/*.edit")]
    crates = {it.parent.parent for it in mutants}
    for page in ("README.md", "docs/CLAIMS.md", "docs/RELIABILITY.md"):
        text = (TOP / page).read_text()
        assert f"{len(mutants)} mutants" in text and f"{len(crates)} crates" in text, page


LAW = re.compile(r"\[`(\w+)\(\)`\]\(\.\./(crates/\w+/src/\w+\.rt)\)((?:,? `\w+`)*)")
"""In a page, a theorem, the file that it stands in, and which of its clauses are meant."""


def clauses(path: Path, name: str) -> set[str]:
    """The names of a public function's postconditions."""
    found = re.search(rf"^pub fn {name}\b(.*?)^{{", path.read_text(), re.MULTILINE | re.DOTALL)
    assert found is not None, f"{path} has no function {name}"
    return set(re.findall(r"^    ensures (\w*)", found[1], re.MULTILINE))


def test_each_claim_leads_to_its_clause() -> None:
    """Every theorem that the page of claims names stands in the file that it leads to, with the
    clauses that are named behind it; and so does what is said of the top call."""
    text = (TOP / "docs/CLAIMS.md").read_text()
    laws = LAW.findall(text)
    assert len({name for name, _, _ in laws}) >= 17
    for name, path, named in laws:
        stand = clauses(TOP / path, name)
        assert stand and set(re.findall(r"`(\w+)`", named)) <= stand, f"{name}: {named}"
    bare = re.findall(r"(?<!\[)`(\w+)\(\)`", text)
    assert not bare, f"{bare} have no link"
    top = clauses(TOP / "crates/sk_cli/src/top.rt", "run")
    assert set(re.findall(r"`(\w+)` of \[`run`\]", text)) <= top
    table = text[text.index("## When each status comes"):text.index("## Which calls keep it")]
    of_run = set(re.findall(r"`(untouched|sure_\w+|\w+_fault|live_taken)`", table))
    assert of_run - {"step_fault"} <= top
