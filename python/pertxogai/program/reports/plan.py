"""What `plan` answers: the constraints as leaves, and the steps that join them."""
from __future__ import annotations

import re
from dataclasses import dataclass

from pertxogai.language.clusters import Choice, ClusterName, Step
from pertxogai.language.constraints import Constraint
from pertxogai.language.entries import check_shape, read_constraint
from pertxogai.language.refusal import Faulty
from pertxogai.program.reports.check import Verdict, take_counts, take_verdict
from pertxogai.program.reports.rows import CLUSTER, COUNT, NAME, Rows, cluster, whole

_STEPS = f"steps ({COUNT})"
_LEAF = f"leaf c({COUNT}) : (.*)"
_CHOICES = "|".join(re.escape(choice.value) for choice in Choice)
_STEP = (
    f"step s({COUNT}) joins ({CLUSTER}) ({CLUSTER}) ({CLUSTER}) at ({NAME}) ({NAME}) ({NAME})"
    f" keeps ({CLUSTER}) ({_CHOICES})"
)


@dataclass(frozen=True)
class Leaf:
    """A constraint by its number, with which a plan begins."""

    number: int
    constraint: Constraint

    def text(self) -> str:
        """The line of the report."""
        return f"leaf c{self.number} : {self.constraint.text()}"


@dataclass(frozen=True)
class Branch:
    """A cluster in the tree of a plan: the step that made it and the three clusters that the step
    joined, or a leaf."""

    made_by: Step | Leaf
    joined: tuple[Branch, ...]


@dataclass(frozen=True)
class Plan:
    """How a fully constrained sketch is constructed: a leaf for each constraint, and the steps in
    order."""

    elements: int
    constraints: int
    leaves: tuple[Leaf, ...]
    steps: tuple[Step, ...]

    def text(self) -> str:
        """The report as the program writes it."""
        head = [
            "verdict well",
            f"elements {self.elements}",
            f"constraints {self.constraints}",
            f"steps {len(self.steps)}",
        ]
        return "\n".join(
            [*head, *(leaf.text() for leaf in self.leaves), *(it.text() for it in self.steps), ""]
        )

    def tree(self) -> Branch | None:
        """The cluster of the last step with everything that it joins; None for a sketch without
        constraints."""
        made: dict[ClusterName, Branch] = {}
        for leaf in self.leaves:
            made[ClusterName(False, leaf.number)] = Branch(leaf, ())
        for step in self.steps:
            made[ClusterName(True, step.number)] = Branch(
                step, tuple(made[name] for name in step.joins)
            )
        return list(made.values())[-1] if made else None

    def frame(self) -> Leaf | None:
        """The constraint in whose coordinates the positions are given: following `keeps` from the
        last step down leads to it. None for a sketch without constraints."""
        leaves = {ClusterName(False, leaf.number): leaf for leaf in self.leaves}
        keeps = {ClusterName(True, step.number): step.keeps for step in self.steps}
        name = next(reversed([*leaves, *keeps]), None)
        while name in keeps:
            name = keeps[name]
        return leaves[name] if name else None


def read_plan(text: str) -> Plan:
    """Reads the report of `plan` about a fully constrained sketch. Raises NotAReport."""
    with whole(text, "plan") as rows:
        return take_plan(rows)


def take_plan(rows: Rows) -> Plan:
    """The lines of `plan`, from the next on. Raises NotAReport."""
    rows.claim(take_verdict(rows) is Verdict.WELL)
    elements, constraints = take_counts(rows)
    steps = int(rows.take(_STEPS)[1])
    leaves = tuple(_leaf(rows) for _ in range(constraints))
    numbers = [leaf.number for leaf in leaves]
    rows.claim(numbers == sorted(set(numbers)))
    made = {ClusterName(False, number) for number in numbers}
    plan = Plan(
        elements,
        constraints,
        leaves,
        tuple(_step(rows, number, made) for number in range(1, steps + 1)),
    )
    rows.claim(len(made) == (1 if leaves else 0))
    return plan


def take_step(rows: Rows) -> Step | None:
    """The line of a step, where the next is one."""
    found = rows.take_if(_STEP)
    if found is None:
        return None
    joins = cluster(found[2]), cluster(found[3]), cluster(found[4])
    return Step(
        int(found[1]), joins, (found[5], found[6], found[7]), cluster(found[8]), Choice(found[9])
    )


def _step(rows: Rows, number: int, live: set[ClusterName]) -> Step:
    """The line of the step of that number, which joins three clusters that are live then, and
    keeps one of them."""
    step = take_step(rows)
    if step is None:
        raise rows.fault()
    rows.claim(
        step.number == number
        and len(live.intersection(step.joins)) == 3
        and step.keeps in step.joins
    )
    live.difference_update(step.joins)
    live.add(ClusterName(True, number))
    return step


def _leaf(rows: Rows) -> Leaf:
    found = rows.take(_LEAF)
    return Leaf(int(found[1]), take_constraint(rows, found[2]))


def take_constraint(rows: Rows, text: str) -> Constraint:
    """The constraint of a text in canonical spelling, which the line before has. Raises
    NotAReport."""
    words = text.split(" ")
    try:
        check_shape(words, 2)
        constraint = read_constraint(words, None)
    except (Faulty, KeyError):
        rows.next -= 1
        raise rows.fault() from None
    rows.claim(constraint.text() == text)
    return constraint
