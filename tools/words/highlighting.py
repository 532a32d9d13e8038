"""Highlighting: syntax files of Vim, and grammars of TextMate, which many editors read."""
import json
from typing import Any, TypeAlias

from .colours import DRAWING, SKETCH, Language, Words

Pattern: TypeAlias = dict[str, Any]
"""A pattern of a grammar, as its format has it."""
LANGUAGES = (SKETCH, DRAWING)
NUMBER = r"[-+]?[0-9]+(\.[0-9]+)?(/[0-9]+)?"
"""A number or a ratio, as both kinds of patterns have it."""
COMMENT = "#.*$"


def _any(words: tuple[str, ...]) -> str:
    return "|".join(words)


def _number(language: Language) -> str:
    return NUMBER + (f"({_any(language.units)})?" if language.units else "")


def vim_detection(language: Language) -> str:
    """The file by which Vim knows the ending of a text's name."""
    return f'" made by tools/pages\nautocmd BufNewFile,BufRead *.{language.name} setfiletype {language.name}\n'


def vim_syntax(language: Language) -> str:
    """The file by which Vim colours a text."""
    found = [(kind.name, kind.group, f"({kind.lead})@<=({_any(kind.words)})>") for kind in language.kinds]
    if language.rows:
        found.append(("Row", "Special", rf"(^\s*{language.rows}\s.*)@<=<({_any(language.row_words)})>"))
    number = rf"\s@<={_number(language)}(\s|$)@=".replace("/", r"\/")
    found += [("Number", "Number", number), ("Comment", "Comment", COMMENT)]
    lines = ['" made by tools/pages', 'if exists("b:current_syntax")', "  finish", "endif", "", "syntax case match"]
    lines += [rf"syntax match {language.name}{name} /\v{match}/" for name, _, match in found]
    lines += [f"highlight default link {language.name}{name} {group}" for name, group, _ in found]
    return "\n".join([*lines, "", f'let b:current_syntax = "{language.name}"', ""])


def grammar(language: Language) -> str:
    """The grammar of TextMate, in JSON."""
    number: Pattern = {"name": f"constant.numeric.{language.name}", "match": rf"(?<=\s){_number(language)}(?=\s|$)"}
    comment: Pattern = {"name": f"comment.line.number-sign.{language.name}", "match": COMMENT}
    patterns = [comment, *_rows(language, [comment, number]), *(_pattern(kind, language) for kind in language.kinds), number]
    names = {"name": language.title, "scopeName": f"source.{language.name}", "fileTypes": [language.name]}
    return json.dumps({**names, "patterns": patterns}, indent=2, ensure_ascii=False) + "\n"


def _pattern(kind: Words, language: Language) -> Pattern:
    """The words of a kind behind their lead; TextMate has no look back of any length, so the lead is taken too."""
    captures = {"2": {"name": f"{kind.scope}.{language.name}"}}
    if kind.lead_scope:
        captures["1"] = {"name": f"{kind.lead_scope}.{language.name}"}
    lead = kind.lead.replace("(", "(?:")
    return {"match": rf"({lead})({_any(kind.words)})(?=\s|$)", "captures": captures}


def _rows(language: Language, others: list[Pattern]) -> list[Pattern]:
    """Lines that have their own words in any place, from their first word to their end."""
    if not language.rows:
        return []
    words = {"name": f"support.constant.{language.name}", "match": rf"(?<=\s)({_any(language.row_words)})(?=\s|$)"}
    first = {"1": {"name": f"keyword.other.tail.{language.name}"}}
    return [{"begin": rf"^\s*({language.rows})(?=\s)", "beginCaptures": first, "end": "$", "patterns": [*others, words]}]
