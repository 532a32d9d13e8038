"""Text in the man macros of roff."""
import re

LETTERS = {"\\": "\\e", "-": "\\-", "'": "\\(aq", "−": "\\-", "⁹": "\\(ha9", "°": "\\(de", "·": "\\(pc", "²": "\\(S2"}


def escaped(text: str) -> str:
    """A text as roff takes it: nothing in it is a request, and what is marked `so` is set in bold."""
    text = "".join(LETTERS.get(letter, letter) for letter in text)
    text = re.sub(r"`([^`]*)`", r"\\fB\1\\fR", text)
    return re.sub(r"(?m)^\.", r"\\&.", text)


def head(name: str, section: int, about: str, version: str, date: str) -> list[str]:
    """The beginning of a page; the date is as 2026-11-28."""
    title = f'.TH {name.upper()} {section} {date} "pertxogai {version}" "Pertxogai"'
    return [title, ".SH NAME", f"{name} \\- {escaped(about)}"]


def chapter(title: str, *paragraphs: str | list[str]) -> list[str]:
    """A chapter of paragraphs, each a text, or lines that are roff already."""
    lines = [f".SH {title}"]
    for number, each in enumerate(paragraphs):
        lines += [".PP"] * (number > 0 and isinstance(each, str))
        lines += [escaped(each)] if isinstance(each, str) else each
    return lines


LICENCE = chapter("COPYRIGHT", "Copyright 2026 The Pertxogai authors. MIT OR Apache-2.0, as you choose; it comes without"
                  " any warranty.")
"""The last chapter of each page."""


def terms(*pairs: tuple[str, str]) -> list[str]:
    """A list of things that are typed, each with what it means."""
    return [line for term, means in pairs for line in (".TP", f"\\fB{escaped(term)}\\fR", escaped(means))]


def shown(text: str) -> list[str]:
    """Lines as they stand: a sketch, or a command and its output."""
    return [".PP", ".nf", ".RS 4", *escaped(text.rstrip()).splitlines(), ".RE", ".fi"]
