"""How far off the places are that a drawing was stored with: lines to read, and JSON."""
from __future__ import annotations

from collections.abc import Iterable, Iterator

from pertxogai.drawing import Drawing
from pertxogai.judging.as_stored import StoredOff, StoredOffs
from pertxogai.judging.measure import Deviation, Unit, amount_text
from pertxogai.judging.measure.limit import units_text
from pertxogai.judging.naming import quoted


def stored_lines(stored: StoredOffs, drawing: Drawing) -> Iterator[str]:
    """What the program measured, constraint by constraint, and behind it what was measured
    here."""
    if stored.length_nm is None or stored.angle_ppb is None:
        yield "  as stored: no constraint can be passed to the program unchanged"
    else:
        yield ("  as stored, measured by the program: within "
               f"{units_text(stored.length_nm, Unit.NM)} and "
               f"{units_text(stored.angle_ppb, Unit.PPB)}")
        yield from _each((" with ".join(map(quoted, each.names)), _off_text(each))
                         for each in stored.by_program)
        if stored.first:
            first = " with ".join(map(quoted, stored.first.names)) or "construction lines"
            yield f"    the first beyond the limit: {first}, {_off_text(stored.first)}"
    if stored.others:
        yield "  as stored, not passed to the program unchanged, measured by pertxogai:"
        yield from _each((quoted(each.called(drawing)), _deviation_text(each))
                         for each in stored.others)


def _each(told: Iterable[tuple[str, str]]) -> Iterator[str]:
    """A line for each that is off, and one for all that hold, of which nothing is told."""
    off: dict[str, None] = {}
    holding: dict[str, None] = {}
    for name, text in told:
        if text:
            yield f"    {name}: {text}"
        (off if text else holding)[name] = None
    names = [name for name in holding if name not in off]
    if names:
        yield f"    hold exactly: {', '.join(names)}"


def _off_text(off: StoredOff) -> str:
    """How far the places are off what some words say together; nothing where it holds."""
    less = "less than it says" if off.amount < 0 else "more than it says"
    told = [f"off by {units_text(abs(off.amount), off.unit)}, {less}"] if off.amount else []
    return ", ".join(told + (["flipped against the drawing"] if off.turned else []))


def _deviation_text(deviation: Deviation) -> str:
    return f"off by {amount_text(deviation)}" if deviation.amount else ""


def stored_json(stored: StoredOffs, drawing: Drawing) -> dict[str, object]:
    """All of it, in whole nm and ppb: of what the program measured less than nothing where the
    places give less than is said."""
    return {
        "by_program": list(map(_off_json, stored.by_program)),
        "length_tolerance_nm": stored.length_nm,
        "angle_tolerance_ppb": stored.angle_ppb,
        "first_beyond": _off_json(stored.first) if stored.first else None,
        "measured": [{"of": each.called(drawing), "off": each.amount, "unit": each.unit.value}
                     for each in stored.others],
    }


def _off_json(off: StoredOff) -> dict[str, object]:
    return {"of": list(off.names), "off": off.amount, "unit": off.unit.value, "turned": off.turned}
