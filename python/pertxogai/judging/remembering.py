"""A program that isn't asked the same twice while one drawing is judged."""
from __future__ import annotations

from collections.abc import Sequence

from pertxogai.program import Answer, Solver


class Remembering:
    """What a program answered so far, by the words and the text: it answers the same to the
    same, and several spellings of a drawing may be one text."""

    def __init__(self, program: Solver) -> None:
        self._program = program
        self._known: dict[tuple[tuple[str, ...], str], Answer] = {}

    def ask(self, words: Sequence[str], text: str) -> Answer:
        """The answer, which is known where it was asked for before. Raises ProgramError."""
        asked = tuple(words), text
        if asked not in self._known:
            self._known[asked] = self._program.ask(words, text)
        return self._known[asked]
