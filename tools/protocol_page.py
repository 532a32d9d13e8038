"""The types of the board's protocol for its page: those of python/pertxogai/board/protocol.py, in TypeScript's words."""
import inspect
import types
import typing

from pertxogai.board import protocol

HEAD = """/**
 * What the page and its server tell each other. Places and lengths are millimetres.
 * Made of board/protocol.py by tools/pages: change that.
 */
"""
PLAIN = {str: "string", int: "number", float: "number", bool: "boolean", type(None): "null"}
WIDTH = 100


def page():
    """The text of the page's types."""
    found = list(reached())
    messages = [message(each) for each in found]
    names = {each.__name__ for each in found}
    assert len(names) == len(found), "two types of one name"
    return HEAD + "\n".join([*messages, *aliases(), calls()]) + "\n"


def aliases():
    """The types that are one of several, by their names."""
    for name, what in vars(protocol).items():
        if isinstance(what, types.UnionType):
            yield "\n".join([*wrapped(f"export type {name} = {word(what)};"), ""])


def reached():
    """Each message that a call is given or gives, each once, those first that others have."""
    seen = []
    for pair in [*protocol.CALLS.values(), (protocol.Gallery, protocol.Answer)]:
        for each in pair:
            yield from below(each, seen)


def below(what, seen):
    """The messages within a type, and itself where it is one."""
    for part in typing.get_args(what):
        yield from below(part, seen)
    if typing.is_typeddict(what) and what not in seen:
        seen.append(what)
        for hint in hints(what).values():
            yield from below(hint, seen)
        yield what


def hints(message):
    """The fields of a message with their types."""
    return typing.get_type_hints(message, include_extras=True)


def message(each):
    """A message, with what is said of it."""
    fields = [field(each, name, hint) for name, hint in hints(each).items()]
    return "\n".join([*said(inspect.getdoc(each)), f"export interface {each.__name__} {{", *fields, "}", ""])


def said(text):
    """A docstring as a comment."""
    lines = text.splitlines()
    return [f"/** {text} */"] if len(lines) == 1 else ["/**", *(f" * {line}" for line in lines), " */"]


def field(owner, name, hint):
    """A field; with a mark where it may be missing."""
    is_optional = name in owner.__optional_keys__ or typing.get_origin(hint) is typing.NotRequired
    return "\n".join(wrapped(f"  {name}{'?' if is_optional else ''}: {word(hint)};"))


def wrapped(line):
    """A line, broken where it is too long."""
    if len(line) <= WIDTH:
        return [line]
    place = line.rindex(" ", 0, WIDTH)
    return [line[:place], *wrapped(f"    {line[place + 1:]}")]


def word(hint):
    """A type in TypeScript's words."""
    origin, parts = typing.get_origin(hint), typing.get_args(hint)
    if hint in PLAIN:
        return PLAIN[hint]
    if origin is typing.NotRequired:
        return word(parts[0])
    if origin is typing.Literal:
        return " | ".join(f"'{each}'" for each in parts)
    if origin in (typing.Union, types.UnionType):
        return " | ".join(word(each) for each in parts)
    if origin is tuple and parts[-1] is not Ellipsis:
        return f"[{', '.join(word(each) for each in parts)}]"
    if origin in (list, tuple):
        inner = word(parts[0])
        return f"({inner})[]" if " | " in inner else f"{inner}[]"
    if origin is dict:
        return f"Record<string, {word(parts[1])}>"
    return hint.__name__


def calls():
    """What each call is given and gives."""
    rows = [f"  '{name}': {{ given: {given.__name__}; gives: {gives.__name__} }};"
            for name, (given, gives) in protocol.CALLS.items()]
    return "\n".join(["/** Each call: what it is given, and what it gives. */", "export interface Calls {", *rows, "}"])
