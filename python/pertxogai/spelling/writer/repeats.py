"""What is told twice: that again, so that the program says what is spare."""
from __future__ import annotations

from fractions import Fraction
from math import cos, sin

from pertxogai.spelling.axes import Coordinate, Equation
from pertxogai.spelling.drafts import Draft, said_by
from pertxogai.spelling.facts import Leans, Owner
from pertxogai.spelling.lean import SQUARE, Lean
from pertxogai.spelling.linear import Form, Redundant
from pertxogai.spelling.writer.heights import Heights
from pertxogai.spelling.writer.layout import LEVEL, Layout

HALF_SQUARE = Lean(Fraction(45))


class Repeats:
    """Tells again what a layout says already."""

    def __init__(self, layout: Layout, heights: Heights) -> None:
        self.layout = layout
        self.heights = heights

    def write_repeats(self) -> None:
        """Spells each dimension again that follows from others: as a height over a rail, else
        between two points."""
        layout = self.layout
        for leans in layout.axes.conflicts():
            self._angle(leans)
        for number, (equation, told) in enumerate(layout.axes.surplus()):
            circuit = frozenset(owner for mark in told.marks
                                for owner in layout.axes.equations[mark].owners)
            if not self._height(equation, told, circuit):
                self._size(number, equation, told, circuit)

    def write_contradictions(self) -> None:
        """Spells each contradiction as a distance of two points of its own, told twice: as it
        would be, and as much off."""
        layout = self.layout
        for number, each in enumerate(layout.care.off):
            names = f"A{number}", f"B{number}"
            amount = each.amount_um or 0
            value = 1000 + max(amount, -amount)
            for name, x in zip(names, (0, value)):
                layout.sheet.points[name] = x, 0
            layout.say(*names, said_by(each.others), value)
            layout.say(*names, said_by(each.owners), value + amount)
            if each.amount_um is None:
                layout.unmeasured.add(names)

    def _angle(self, leans: Leans) -> None:
        """An angle that isn't as others say: as theirs and its own, of two lines of help. Where
        one of these is that of parallels, which is no angle of the language, both are turned."""
        layout = self.layout
        known = layout.axes.directions.between(leans.first, leans.second)
        assert known is not None
        turn = next(each for each in (LEVEL, SQUARE, HALF_SQUARE)
                    if not (known + each).level() and not (leans.lean + each).level())
        names = f"V{len(layout.sheet.lines)}", f"W{len(layout.sheet.lines)}"
        radians = (known + turn).radians()
        layout.sheet.lines[names[0]] = ((0, 0), (1000, 0))
        layout.sheet.lines[names[1]] = ((0, 0), (Fraction(cos(radians)) * 1000,
                                                 Fraction(sin(radians)) * 1000))
        owners = layout.axes.directions.owners(leans.first, leans.second)
        for lean, said in ((known, owners), (leans.lean, {leans.owner})):
            layout.sheet.drafts.append(Draft(*names, said_by(said), ratio=(lean + turn).ratio()))

    def _height(self, equation: Equation, told: Redundant, circuit: frozenset[Owner]) -> bool:
        """An equation that follows from others, as a second height over a rail; False where none of
        its points has one."""
        layout = self.layout
        for key, factor in equation.form.terms.items():
            rail = layout.rails.rail(key) if isinstance(key, Coordinate) else None
            if rail is None or not isinstance(key, Coordinate):
                continue
            pair = layout.points.get(key.knot, ""), layout.names.get(rail, "")
            place = next((place for place, each in enumerate(layout.sheet.drafts)
                          if each.names() == pair), None)
            if place is not None:
                height = layout.rails.members[rail][key] - layout.rails.offset(rail)
                layout.sheet.drafts[place] = layout.sheet.drafts[place]._replace(
                    said=said_by(circuit - equation.owners))
                self.heights.say_height(key.knot, rail, said_by(equation.owners),
                                        height - Fraction(told.amount) / factor)
                return True
        return False

    def _size(self, number: int, equation: Equation, told: Redundant,
              circuit: frozenset[Owner]) -> None:
        """A length or radius that is told twice, as a distance of two points of its own, told
        twice; as much longer both times as is needed where one of them is no length. So is a
        distance of a point from itself, which is none."""
        layout = self.layout
        size, factor = next(iter(equation.form.terms.items()), (None, 1))
        value = layout.rails.number(Form.of(size)) or 1000 if size is not None else 1000
        again = value - Fraction(told.amount) / factor
        more = max(0, 1000 - int(min(value, again))) if min(value, again) <= 0 else 0
        names = f"T{number}", f"U{number}"
        for name, x in zip(names, (0, value + more)):
            layout.sheet.points[name] = x, 0
        layout.say(*names, said_by(circuit), value + more)
        layout.say(*names, said_by(equation.owners), again + more)
