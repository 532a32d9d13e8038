"""How far a dimension or a value of the board's drawing can go, as the page is told it."""
from __future__ import annotations

from typing import TYPE_CHECKING

from pertxogai.board.board_drawing import BoardDrawing
from pertxogai.board.protocol import Ranged, RangeShown
from pertxogai.drawing import VALUED, Dimension, Drawing, Parameter, Unit, asked_of
from pertxogai.drawing.constraints import AngleBetween, Ratio, Sense
from pertxogai.program import ProgramTimedOut
from pertxogai.program.called import COMMAND
from pertxogai.search import check_libraries

if TYPE_CHECKING:  # It takes numpy, without which the board has no ranges.
    from pertxogai.ranging import Range

FOLLOWS = "it follows from named values, and has no range of its own"
NO_VALUE = "nothing of the drawing has that name or number and a value"
TOO_LONG = f"finding its range took too long for the board: {COMMAND} range FILE finds it"


def range_shown(judged: BoardDrawing, number: int | None, name: str | None,
                left_out: tuple[str, ...] = ()) -> Ranged:
    """How far the constraint at a place, from 1, or the value of a name can go; or why that can't
    be told. left_out: what the file has and the drawing can't say. Raises MissingLibrary,
    ProgramError, Refusal and NotHeld."""
    check_libraries()
    from pertxogai.ranging import NoRange

    try:
        of = _parameter(judged.ranging(left_out).parameters(), number, name)
        if of is not None:
            return {"range": _shown(judged.drawing, of, judged.range_of(of, left_out))}
    except NoRange as why:
        return {"why": str(why)}
    except ProgramTimedOut:
        return {"why": TOO_LONG}
    values = _values_behind(judged.drawing, _used(judged.drawing, number, name))
    return {"why": FOLLOWS, "values": values} if values else {"why": NO_VALUE}


def _parameter(parameters: tuple[Parameter, ...], number: int | None,
               name: str | None) -> Parameter | None:
    """What has a range of its own by that number or name."""
    return next((each for each in parameters
                 if (each.number == number if isinstance(each, Dimension) else each.name == name)),
                None)


def _used(drawing: Drawing, number: int | None, name: str | None) -> tuple[str, ...]:
    """The values that a constraint, or a value, uses."""
    for each in drawing.values:
        if each.name == name:
            return each.expression.names
    for place, constraint in enumerate(drawing.constraints, 1):
        if place == number and isinstance(constraint, VALUED) and constraint.expression:
            return constraint.expression.names
    return ()


def _values_behind(drawing: Drawing, names: tuple[str, ...]) -> list[str]:
    """The values that follow from no other, among those of some names and those behind them."""
    used = {each.name: each.expression.names for each in drawing.values}
    found = list(names)
    for name in found:
        found += [each for each in used[name] if each not in found]
    return [name for name in found if not used[name]]


def _shown(drawing: Drawing, of: Parameter, found: Range) -> RangeShown:
    from pertxogai.output.ranges_text import sampled_text

    return {"called": _called(drawing, of), "sign": _is_signed(drawing, of),
            "number": of.number if isinstance(of, Dimension) else None,
            "name": None if isinstance(of, Dimension) else of.name,
            "present": float(of.present), "unit": of.unit.value, "typed": _typed(of),
            "told": sampled_text(found),
            "low": float(found.low.at), "low_why": found.low.fault.text,
            "high": float(found.high.at), "high_why": found.high.fault.text}


def _called(drawing: Drawing, of: Parameter) -> str:
    """Its name, or its words without the value."""
    if not isinstance(of, Dimension):
        return of.name
    constraint = drawing.constraints[of.number - 1]
    assert isinstance(constraint, VALUED)
    return constraint.name or " ".join(asked_of(constraint))


def _typed(of: Parameter) -> str:
    """The unit behind a number that is typed for it."""
    return "" if isinstance(of, Dimension) and of.unit is Unit.MM else of.unit.value


def _is_signed(drawing: Drawing, of: Parameter) -> bool:
    """Whether a number for it is typed with its sign."""
    if not isinstance(of, Dimension):
        return False
    constraint = drawing.constraints[of.number - 1]
    if isinstance(constraint, AngleBetween) and isinstance(constraint.value, Ratio):
        return True
    return getattr(constraint, "sense", Sense.DRAWN) is Sense.SIGNED
