"""Whether a value of JSON is of a type of the board's protocol, field by field."""
from __future__ import annotations

import types
import typing
from collections.abc import Iterator
from functools import cache


def unlike(value: object, hint: object, where: str = "it") -> Iterator[str]:
    """Each place at which a value isn't as a type says; none where it is of that type."""
    origin, parts = typing.get_origin(hint), typing.get_args(hint)
    if typing.is_typeddict(hint):
        yield from _unlike_message(value, hint, where)
    elif origin is typing.NotRequired:
        yield from unlike(value, parts[0], where)
    elif origin in (typing.Union, types.UnionType):
        if all(any(unlike(value, part)) for part in parts):
            yield f"{where} is none of {hint}: {value!r}"
    elif origin is typing.Literal:
        if value not in parts:
            yield f"{where} is none of {parts}: {value!r}"
    elif origin in (list, tuple):
        yield from _unlike_list(value, hint, where)
    elif origin is dict:
        if not isinstance(value, dict):
            yield f"{where} is no object: {value!r}"
            return
        for name, each in value.items():
            yield from unlike(each, parts[1], f"{where}[{name!r}]")
    elif not _is_plain(value, hint):
        yield f"{where} is no {hint}: {value!r}"


def _unlike_message(value: object, hint: object, where: str) -> Iterator[str]:
    if not isinstance(value, dict):
        yield f"{where} is no object: {value!r}"
        return
    hints, needed = _fields(hint)
    for name in sorted(needed - value.keys()):
        yield f"{where} lacks {name}"
    for name, each in value.items():
        if name not in hints:
            yield f"{where} has {name} besides: {each!r}"
        else:
            yield from unlike(each, hints[name], f"{where}.{name}")


@cache
def _fields(message: object) -> tuple[dict[str, object], set[str]]:
    """The types of a message's fields by their names, and the names of those that it needs."""
    hints = typing.get_type_hints(message, include_extras=True)
    optional = getattr(message, "__optional_keys__")
    needed = {name for name, each in hints.items()
              if name not in optional and typing.get_origin(each) is not typing.NotRequired}
    return hints, needed


def _unlike_list(value: object, hint: object, where: str) -> Iterator[str]:
    parts = typing.get_args(hint)
    is_pair = typing.get_origin(hint) is tuple and parts[-1] is not Ellipsis
    if not isinstance(value, list) or (is_pair and len(value) != len(parts)):
        yield f"{where} is no list of {hint}: {value!r}"
        return
    for place, each in enumerate(value):
        yield from unlike(each, parts[place] if is_pair else parts[0], f"{where}[{place}]")


def _is_plain(value: object, hint: object) -> bool:
    """Whether a value is a text, a number, true or false, or null, as its type says."""
    if hint is float:
        return isinstance(value, (int, float)) and not isinstance(value, bool)
    if hint is int:
        return isinstance(value, int) and not isinstance(value, bool)
    assert isinstance(hint, type), hint
    return isinstance(value, hint)
