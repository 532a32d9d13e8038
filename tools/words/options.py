"""What ./pertxogai takes, as its own reader of words has it."""
import argparse

from pertxogai.commands import command_line


def commands() -> list[tuple[str, str, argparse.ArgumentParser]]:
    """Each command: its word, what it does, and the reader of what stands behind it."""
    (action,) = (it for it in command_line()._actions if isinstance(it, argparse._SubParsersAction))
    helps = {it.dest: it.help or "" for it in action._choices_actions}
    return [(name, helps[name], parser) for name, parser in action.choices.items()]


def options(parser: argparse.ArgumentParser) -> list[tuple[str, str]]:
    """Each option of a command, as it is typed, and what it does."""
    told = []
    for action in parser._actions:
        if isinstance(action, argparse._HelpAction) or not action.option_strings:
            continue
        told.append((", ".join(action.option_strings) + _value(action), (action.help or "") % vars(action) + "."))
    return told


def _value(action: argparse.Action) -> str:
    """What stands behind an option: nothing, its choices, or a word in capitals."""
    if action.nargs == 0:
        return ""
    choices = action.choices or [action.metavar or action.dest.upper()]
    return " " + "|".join(map(str, choices))


def flags(parser: argparse.ArgumentParser) -> list[str]:
    """The options of a command that begin with two dashes."""
    return [word for action in parser._actions for word in action.option_strings if word.startswith("--")]
