"""The edits of named values."""
from __future__ import annotations

from dataclasses import dataclass, replace

from pertxogai.board.head_lines import with_head
from pertxogai.drawing import VALUED, Drawing, Value, WordFault
from pertxogai.drawing.names import nearest
from pertxogai.drawing.values.lines import read_value_expression
from pertxogai.drawing.values.reckoning import reckoned
from pertxogai.drawing.values.table import check_value_name


@dataclass(frozen=True)
class SetValue:
    """Gives the value of a name an expression, as it is typed; names one where none has it."""

    name: str
    expression: str

    def on(self, drawing: Drawing) -> Drawing:
        """The drawing with it. Raises WordFault, and DrawingUnsound where something that uses it
        takes no such value."""
        value = Value(self.name, read_value_expression(self.expression))
        if any(each.name == self.name for each in drawing.values):
            values = (value if each.name == self.name else each for each in drawing.values)
            return reckoned(replace(drawing, values=tuple(values)))
        check_value_name(self.name)
        if drawing.has(self.name):
            raise WordFault(self.name, "is drawn already: take another name")
        return reckoned(with_head(drawing, values=(*drawing.values, value)))


@dataclass(frozen=True)
class DropValue:
    """Takes a value away that nothing uses."""

    name: str

    def on(self, drawing: Drawing) -> Drawing:
        """The drawing without it. Raises WordFault where it doesn't stand, or is used."""
        names = [each.name for each in drawing.values]
        if self.name not in names:
            raise WordFault(self.name, "is no value" + nearest(self.name, names))
        user = _user(drawing, self.name)
        if user is not None:
            raise WordFault(self.name, f"is used by {user}: write a number there first")
        return with_head(drawing,
                         values=tuple(it for it in drawing.values if it.name != self.name))


def _user(drawing: Drawing, name: str) -> str | None:
    """The first value or constraint that uses a value."""
    for each in drawing.values:
        if name in each.expression.names:
            return f"value {each.name}"
    for number, constraint in enumerate(drawing.constraints, 1):
        if isinstance(constraint, VALUED) and constraint.expression is not None:
            if name in constraint.expression.names:
                return drawing.called(number)
    return None
