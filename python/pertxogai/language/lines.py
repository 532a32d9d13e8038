"""A text as its lines, and a line as its words."""
from __future__ import annotations

from collections.abc import Callable, Container, Iterator, Mapping, Sequence
from typing import NamedTuple

from pertxogai.language.encoding import as_bytes
from pertxogai.language.refusal import Code, Faulty, Refusal, Refused

MOST_TEXT = 1_048_576
MOST_LINE = 200


class Row(NamedTuple):
    """A line of a text: its number, from 1, and its bytes without the line feed and one
    carriage return."""

    number: int
    bytes: bytes

    def fault(self) -> Code | None:
        """Why the line is none of any text: E15, E19."""
        if len(self.bytes) > MOST_LINE:
            return Code.E15
        if any(not 0x20 <= byte <= 0x7E and byte != 0x09 for byte in self.bytes):
            return Code.E19
        return None

    def words(self, has_comments: bool) -> list[str]:
        """Its words, without those behind a `#` where comments are allowed."""
        text = self.bytes.decode("latin-1")
        if has_comments:
            text = text.split("#", 1)[0]
        return [word for word in text.replace("\t", " ").split(" ") if word]

    def refusal(self, code: Code) -> Refusal:
        """That the line is refused by a code."""
        return Refusal(Refused(self.number, code))


def rows_of(text: str) -> list[Row]:
    """The lines of a text. Raises Refusal where it has too many bytes (E20)."""
    given = as_bytes(text)
    if len(given) > MOST_TEXT:
        raise Refusal(Refused(0, Code.E20))
    pieces = given.split(b"\n")
    if not pieces[-1]:
        pieces.pop()
    return [Row(number, piece.removesuffix(b"\r")) for number, piece in enumerate(pieces, 1)]


def has_word(rows: list[Row]) -> bool:
    """Whether any line has a word, or is none of any text."""
    return any(row.fault() or row.words(False) for row in rows)


def sound_rows(rows: list[Row]) -> Iterator[Row]:
    """The lines in turn. Raises Refusal at the first that is none of any text."""
    for row in rows:
        code = row.fault()
        if code:
            raise row.refusal(code)
        yield row


def check_words(words: Sequence[str], counts: Mapping[str, Container[int]]) -> None:
    """That a line begins with one of some words, and is as long as that allows. counts: how many
    words a line may have, by its first. Raises Faulty: E2, E3."""
    if words[0] not in counts:
        raise Faulty(Code.E2)
    if len(words) not in counts[words[0]]:
        raise Faulty(Code.E3)


def read_lines_behind(rows: list[Row], take: Callable[[Sequence[str]], bool], lines: int) -> None:
    """Hands the words of each line to `take`, until it says that it has all, and sees that only
    blank lines follow. There are no comments. lines: how many the whole text has. Raises
    Refusal (E15, E17, E19, E16, and as `take`)."""
    is_ended = False
    for row in sound_rows(rows):
        words = row.words(False)
        if not words:
            continue
        if is_ended:
            raise row.refusal(Code.E17)
        try:
            is_ended = take(words)
        except Faulty as fault:
            raise row.refusal(fault.code) from None
    if not is_ended:
        raise Refusal(Refused(lines + 1, Code.E16))
