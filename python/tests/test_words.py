"""The table of words agrees with the program and its pages, and what is made of it works."""
from __future__ import annotations

import importlib.machinery
import importlib.util
import json
import re
import shutil
import subprocess
import sys
from pathlib import Path
from types import ModuleType

import pytest

from conftest import TOP
from pertxogai.language.refusal import Code
from pertxogai.program import Program, Status

sys.path.insert(0, str(TOP / "tools"))
import crates_page  # noqa: E402
from words import table  # noqa: E402

LANGUAGE = (TOP / "docs" / "LANGUAGE.md").read_text()
MANUAL = sorted((TOP / "man").glob("*.[1-9]"))


def script(name: str) -> ModuleType:
    """A script of tools/, as a module."""
    loader = importlib.machinery.SourceFileLoader(f"tools_{name}", str(TOP / "tools" / name))
    spec = importlib.util.spec_from_loader(loader.name, loader)
    assert spec is not None
    module = importlib.util.module_from_spec(spec)
    loader.exec_module(module)
    return module


def rows(text: str, head: str) -> list[list[str]]:
    """The rows of the table that begins with that line, each in its cells."""
    _, found, behind = text.partition(f"\n{head}\n")
    assert found, head
    lines = behind.split("\n\n")[0].splitlines()[1:]
    return [[cell.strip() for cell in line.strip("|").split(" | ")] for line in lines]


def usage(program: Program) -> str:
    answer = program.ask([], "")
    assert answer.status is Status.USAGE
    return answer.text


def test_the_commands_are_those_of_the_usage_line(program: Program) -> None:
    said = usage(program).split()[2].split("|")
    assert sorted(said) == sorted(it.word for it in table.COMMANDS)


def test_the_keys_are_those_of_the_usage_line(program: Program) -> None:
    said = re.findall(r"\[(\w+)=([^\]]*)\]", usage(program))
    assert said == [(it.word, it.usage) for it in table.KEYS]


@pytest.mark.parametrize("command", table.COMMANDS, ids=lambda it: it.word)
def test_each_command_takes_its_keys(command: table.Command, program: Program) -> None:
    needed = ["n=3"] if "n" in command.keys else []
    for key in table.KEYS:
        words = [command.word, *(it for it in needed if key.word != "n")]
        value = re.split(r"\||\.\.", key.usage)[0]
        status = program.ask([*words, f"{key.word}={value}"], "").status
        assert (status is not Status.USAGE) == (key.word in command.keys), key.word


def test_the_commands_are_told_alike_in_the_readme_or_the_language() -> None:
    said = rows((TOP / "README.md").read_text() + LANGUAGE, "| command | reads | answers |")
    assert said == [[f"`{it.word}`", it.reads, it.answers] for it in table.COMMANDS]


def test_the_lines_are_told_alike_in_the_language() -> None:
    asked = [*table.ELEMENTS, *table.CONSTRAINTS]
    assert rows(LANGUAGE, "| line | meaning |") == [[f"`{it.form}`", it.means] for it in asked]
    session = rows(LANGUAGE, "| line | does | reply |")
    edits = [[f"`{it.form}`", it.means, it.reply] for it in table.EDITS]
    assert [it for it in session if it in edits] == edits
    assert {f"`{it}`" for it in table.QUESTIONS} <= set(re.findall(r"`\w+`", str(session)))


def test_keys_statuses_and_codes_are_told_alike_in_the_language() -> None:
    keys = rows(LANGUAGE, "| key | values | default | commands |")
    assert [it[:3] for it in keys] == [
        [f"`{it.word}`", it.values, it.default] for it in table.KEYS
    ]
    statuses = rows(LANGUAGE, "| status | means | written |")
    assert statuses == [[str(it.number), it.means, it.written] for it in table.STATUSES]
    codes = re.findall(r"^\| ([ES]\d+) \| ([a-z-]+) \| (.*) \|$", LANGUAGE, re.MULTILINE)
    assert sorted(codes) == sorted((it.code, it.word, it.where) for it in table.CODES)


def test_codes_and_statuses_are_those_of_the_package() -> None:
    assert [(it.name, it.value) for it in Code] == [(it.code, it.word) for it in table.CODES]
    assert [it.value for it in Status] == [it.number for it in table.STATUSES]


@pytest.mark.parametrize("line", [*table.ELEMENTS, *table.CONSTRAINTS], ids=lambda it: it.word)
def test_each_word_of_a_line_is_one_of_the_language(
    line: table.Line, program: Program
) -> None:
    """The word alone is refused for what it lacks, another word for what it is."""
    assert program.ask(["check"], f"sketch 2\n{line.word}\n").text == "refused line 2 E3 shape\n"
    other = program.ask(["check"], f"sketch 2\n{line.word}s\n").text
    assert other == "refused line 2 E2 word\n"


def test_what_is_made_of_the_table_is_up_to_date() -> None:
    for name, text in script("pages").pages().items():
        assert (TOP / name).read_text() == text, f"{name}: run tools/pages"


HEADS = [
    "# a\n\nNo table.\n\n## Next\n",
    "# a\n\nNo end of a sentence\n\n| | |\n|---|---|\n| proves | nothing |\n",
    "# a\n\nNothing of proofs.\n\n| | |\n|---|---|\n| defines | words |\n",
]


@pytest.mark.parametrize("text", HEADS)
def test_a_head_of_another_form_is_refused_by_name(
    text: str, tmp_path: Path, monkeypatch: pytest.MonkeyPatch
) -> None:
    (tmp_path / "a").mkdir()
    (tmp_path / "a" / "README.md").write_text(text)
    monkeypatch.setattr(crates_page, "CRATES", tmp_path)
    with pytest.raises(ValueError, match=r"crates/a/README\.md"):
        crates_page.head_of("a")


@pytest.mark.skipif(shutil.which("man") is None, reason="Debian's man-db is missing")
@pytest.mark.parametrize("path", MANUAL, ids=lambda it: it.name)
def test_a_manual_page_is_shown_whole(path: Path) -> None:
    words = ["man", "--warnings", "-E", "UTF-8", "-l", str(path)]
    shown = subprocess.run(words, capture_output=True, text=True)
    assert (shown.returncode, shown.stderr) == (0, "")
    assert "NAME\n" in shown.stdout and "SEE ALSO\n" in shown.stdout
    assert not re.search(r"\\\w|`", shown.stdout)


COMPLETED = [
    ("sketch", "", [it.word for it in table.COMMANDS]),
    ("sketch", "so", ["solve"]),
    ("sketch solve", "pl", ["place=boxes", "place=points"]),
    ("sketch solve place =", "po", ["points"]),
    ("sketch check", "b", []),
    ("sketch spare", "", []),
    ("sketch excess", "pl", ["place=boxes", "place=points"]),
    ("sketch live", "f", ["frame=base", "frame=drawn"]),
    ("sketch grow", "n", ["n="]),
    ("pertxogai", "", ["judge", "watch", "draw", "complete", "range", "family", "fit", "certify", "page", "--help",
                       "--version"]),
    ("pertxogai judge", "--w", ["--within", "--write"]),
    ("pertxogai page", "--p", ["--port", "--program"]),
]
BASH_COMPLETION = Path("/usr/share/bash-completion/bash_completion")


@pytest.mark.skipif(not BASH_COMPLETION.exists(), reason="Debian's bash-completion is missing")
@pytest.mark.parametrize("before, begun, wanted", COMPLETED)
def test_what_bash_offers(before: str, begun: str, wanted: list[str]) -> None:
    typed = [*before.split(), begun]
    asked = f"""
        source {BASH_COMPLETION}; source {TOP}/editors/bash/{typed[0]}
        COMP_WORDS=("$@"); COMP_CWORD=$(($# - 1)); COMP_LINE=$(echo "$*" | sed 's/ = /=/')
        COMP_POINT=${{#COMP_LINE}}; _{typed[0]} 2>/dev/null; printf '%s\\n' "${{COMPREPLY[@]}}"
    """
    done = subprocess.run(["bash", "-c", asked, "bash", *typed], capture_output=True, text=True)
    assert [it for it in done.stdout.splitlines() if it] == wanted


COLOURED = {
    "sketch": [
        ("sketch 2", [("Frame", "sketch"), ("Number", "2")]),
        ("point at 0 -1.5 # note", [("Element", "point"), ("Number", "0"), ("Number", "-1.5"),
                                    ("Comment", "# note")]),
        ("angle L M 2911/5042", [("Constraint", "angle"), ("Number", "2911/5042")]),
        ("drop 3", [("Edit", "drop"), ("Number", "3")]),
        ("step s1 joins c3 c2 c1 at C A B keeps c1 turn +",
         [("Tail", "step"), ("Row", "joins"), ("Row", "at"), ("Row", "keeps"), ("Row", "turn")]),
    ],
    "drawing": [
        ("construction segment Axis 0 0 40 0",
         [("Flag", "construction"), ("Shape", "segment"), *[("Number", it) for it in
                                                             ("0", "0", "40", "0")]]),
        ("value Width 120", [("Value", "value"), ("Number", "120")]),
        ("tolerances ISO2768-m # general", [("Tolerancing", "tolerances"),
                                            ("Comment", "# general")]),
        ("check Gap distance A.end B.start 0.1 .. 0.5",
         [("Tolerancing", "check"), ("Number", "0.1"), ("Number", "0.5")]),
        ("Left width: length Bottom 120mm", [("Constraint", "length"), ("Number", "120mm")]),
        ("coincident PlateBottom.start Origin", [("Constraint", "coincident"),
                                                 ("Datum", "Origin")]),
    ],
}
PROBE = """set nocompatible
set runtimepath^={editors}/vim
filetype on
syntax on
edit {path}
let found = []
for row in range(1, line('$'))
  for column in range(1, col([row, '$']) - 1)
    call add(found, synIDattr(synID(row, column, 1), 'name'))
  endfor
endfor
call writefile(found, '{path}.found')
qall!
"""


def pieces(text: str, groups: list[str]) -> list[tuple[str, str]]:
    """The words of a line that stand out, each with its group."""
    found = [("", "")]
    for letter, group in zip(text, groups, strict=True):
        if group == found[-1][0]:
            found[-1] = (group, found[-1][1] + letter)
        else:
            found.append((group, letter))
    return [it for it in found if it[0]]


@pytest.mark.skipif(shutil.which("vim") is None, reason="Debian's vim is missing")
@pytest.mark.parametrize("name", COLOURED)
def test_what_vim_colours(name: str, tmp_path: Path) -> None:
    path = tmp_path / f"probe.{name}"
    path.write_text("".join(text + "\n" for text, _ in COLOURED[name]))
    probe = tmp_path / "probe.vim"
    probe.write_text(PROBE.format(editors=TOP / "editors", path=path))
    words = ["vim", "-u", str(probe), "-N", "-es", "-n"]
    subprocess.run(words, stdin=subprocess.DEVNULL, timeout=60)
    groups = iter((tmp_path / f"probe.{name}.found").read_text().split("\n"))
    for text, wanted in COLOURED[name]:
        found = pieces(text, [next(groups).removeprefix(name) for _ in text])
        assert found == wanted, text


@pytest.mark.parametrize("name", COLOURED)
def test_the_grammar_has_each_word(name: str) -> None:
    """Each pattern is one that Python reads too; each first word of the lines above is matched."""
    text = (TOP / "editors" / "textmate" / f"{name}.tmLanguage.json").read_text()
    found = json.loads(text)
    assert found["fileTypes"] == [name]
    patterns = [re.compile(it.get("match") or it["begin"]) for it in found["patterns"]]
    for line, wanted in COLOURED[name]:
        matched = [hit for it in patterns for hit in it.findall(line)]
        said = {word for hit in matched for word in ([hit] if isinstance(hit, str) else hit)}
        for group, word in wanted:
            assert group in ("Row", "Number", "Comment", "Flag") or word in said, line
