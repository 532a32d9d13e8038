"""docs/CRATES.md, made from the head of each crate's README: its first sentence, and its first table."""
from __future__ import annotations

import re
from dataclasses import dataclass
from pathlib import Path

CRATES = Path(__file__).resolve().parent.parent / "crates"
READING = {
    "Texts": "sk_base sk_io sk_text sk_lines sk_entry sk_lang sk_live_lines",
    "The graph, and clusters that merge": "sk_orient sk_graph sk_family sk_rules sk_triangles sk_neighbours"
    " sk_open_triples sk_close_by_order sk_close_any_order sk_close_by_angles sk_verdict sk_offers",
    "Plans": "sk_tree sk_plan",
    "Places": "sk_root sk_interval sk_steps sk_place sk_frame sk_measure sk_tolerance sk_flips sk_solve",
    "Redundant and missing constraints": "sk_parts sk_spare sk_excess sk_why sk_drawn sk_rigid sk_complete",
    "Claims": "sk_claims sk_verify",
    "Sessions": "sk_edits sk_session",
    "Output": "sk_report sk_dxf sk_gen",
    "The program": "sk_request sk_answers sk_cli sk_laws sketch sk_c",
    "Tests": "sk_test_units sk_test_tables sk_test_runs",
}
"""The crates in the order of reading, by what they are about."""
BEFORE = """\
# The crates, in the order of reading

For programmers who look for the crate that does something: what each does, which terms it defines, and what it
proves. `tools/pages` makes this page from the first sentence and the first table of each crate's README, so change it
there. [The architecture](ARCHITECTURE.md) says how the crates depend on each other.
"""


@dataclass(frozen=True)
class Head:
    """What the head of a README says of its crate; `defines` may be empty."""

    does: str
    defines: str
    proves: str


def head_of(crate: str) -> Head:
    """The head of the crate's README. Raises ValueError where it isn't of the form."""
    title, first, table = (CRATES / crate / "README.md").read_text().split("\n\n")[:3]
    sentence = re.match(r".*?\.(?=\s|$)", first.replace("\n", " "))
    rows = dict(re.findall(r"^\| (defines|proves) \| (.*) \|$", table, re.MULTILINE))
    if not title.startswith("# ") or sentence is None or "proves" not in rows:
        raise ValueError(f"crates/{crate}/README.md: no first sentence, or no table of what it proves")
    return Head(sentence[0], rows.get("defines", ""), rows["proves"])


def row(crate: str) -> str:
    """The row of a crate."""
    head = head_of(crate)
    return f"| [`{crate}`](../crates/{crate}/README.md) | {head.does} | {head.defines} | {head.proves} |"


def page() -> str:
    """The page. Raises ValueError where READING hasn't each crate just once, or a head isn't of the form."""
    read = " ".join(READING.values()).split()
    if sorted(read) != sorted(it.name for it in CRATES.iterdir() if (it / "src").is_dir()):
        raise ValueError("tools/crates_page.py: READING hasn't each crate just once")
    parts = [BEFORE]
    for title, crates in READING.items():
        rows = "\n".join(row(it) for it in crates.split())
        head = "| crate | does | defines | proves, by the contract of |\n|---|---|---|---|"
        parts.append(f"## {title}\n\n{head}\n{rows}\n")
    return "\n".join(parts)
