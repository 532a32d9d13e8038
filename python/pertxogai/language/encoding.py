"""Texts as the bytes that the program reads."""
from __future__ import annotations


def as_bytes(text: str) -> bytes:
    """The bytes of a text: UTF-8, where bytes that were read by `surrogateescape` are those
    bytes again. Any text has some, since what isn't ASCII is for the program to refuse."""
    try:
        return text.encode("utf-8", "surrogateescape")
    except UnicodeEncodeError:
        return text.encode("utf-8", "surrogatepass")
