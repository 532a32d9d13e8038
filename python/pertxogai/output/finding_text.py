"""What was found of a drawing that isn't well: lines to read, and keys for JSON. Each line that no
program certifies says so."""
from __future__ import annotations

from collections.abc import Iterable, Iterator
from itertools import groupby

from pertxogai.judging.finding import Finding, Group, PlacesBy, PointMove
from pertxogai.judging.judged_drawing import JudgedDrawing
from pertxogai.judging.measure import amount_text
from pertxogai.judging.naming import listed, quoted
from pertxogai.program.reports import Verdict

MOST_MOVES = 8
"""The most points for which it is told that they can still move."""


def freedoms_text(finding: Finding) -> str:
    """How many degrees of freedom there are, and who says so."""
    plural = "" if finding.freedoms == 1 else "s"
    doubt = ", doubtful" if finding.is_doubtful else ""
    return f"{finding.freedoms} degree{plural} of freedom (by numbers{doubt})"


def finding_lines(judged: JudgedDrawing) -> Iterator[str]:
    """What was found, without the count of freedoms."""
    if judged.not_searched:
        yield ("  not told: degrees of freedom, what can still move, and what is redundant or "
               "conflicting by numbers")
        yield f"    {judged.not_searched}"
    finding = judged.finding
    if finding is None:
        return
    if judged.judgement.verdict is Verdict.OPEN:
        yield from _placed_lines(judged, finding)
    if finding.of_the_whole:
        moves = "moves" if finding.of_the_whole == 1 else "move"
        yield (f"  of the degrees of freedom {finding.of_the_whole} {moves} the whole sketch "
               "(by numbers)")
    yield from _move_lines(finding)
    told = [*finding.groups_of(judged.judgement.repeats).values()]
    yield from (f"  redundant (by numbers): {_group_text(each)}" for each in finding.repeats
                if each not in told)
    yield from (f"  can't all be met (by numbers): {listed(each)}"
                for each in finding.contradictions)
    yield from (f"  in doubt, redundant or conflicting (by numbers): {listed(each)}"
                for each in finding.in_doubt)


def finding_json(judged: JudgedDrawing) -> dict[str, object]:
    """The same for JSON. Without a search nothing is counted, and what repeats are the single words
    that are told again."""
    finding, by = judged.finding, judged.places_by()
    names = judged.judgement.repeats
    return {
        "freedoms": _freedoms_json(finding) if finding else None,
        "moves": [_move_json(each) for each in finding.moves] if finding else [],
        "free_radii": list(finding.free_radii) if finding else [],
        "chosen": list(finding.chosen) if finding else [],
        "only_measured": list(finding.only_measured) if finding else [],
        "repeats": [list(each) for each in _repeats(finding, names)],
        "contradictions": [list(each) for each in finding.contradictions] if finding else [],
        "in_doubt": [list(each) for each in finding.in_doubt] if finding else [],
        "places_by": by.value if by else None,
    }


def _repeats(finding: Finding | None, names: Iterable[str]) -> Iterator[Group]:
    """The groups that were found, and what repeats others without being in one."""
    groups = finding.repeats if finding else ()
    told = {name for group in groups for name in group}
    yield from groups
    yield from ((name,) for name in names if name not in told)


def _freedoms_json(finding: Finding) -> dict[str, object]:
    return {"count": finding.freedoms, "of_the_whole": finding.of_the_whole,
            "doubtful": finding.is_doubtful}


def _move_json(move: PointMove) -> dict[str, object]:
    return {"point": str(move.point), "dx": round(move.dx, 6), "dy": round(move.dy, 6)}


def _placed_lines(judged: JudgedDrawing, finding: Finding) -> Iterator[str]:
    """Who places it, by which values, and how far each word is off there."""
    if finding.places_by is PlacesBy.PROGRAM:
        values = f" with chosen values: {', '.join(finding.chosen)}" if finding.chosen else ""
        yield f"  constructed by the program{values}"
        if finding.only_measured:
            yield f"  not passed to the program, only measured: {', '.join(finding.only_measured)}"
    elif finding.places_by is PlacesBy.NUMBERS:
        yield "  placed by numbers, not constructed"
    elif not (finding.contradictions or finding.in_doubt):
        exactly = " exactly" if finding.repeats else ""  # These hold within the limit.
        yield f"  no positions were found that meet all of it{exactly} (by numbers)"
    if finding.solution is not None:
        off = [each for each in judged.worst() if each.amount]
        yield from (f"  measured: at most {amount_text(each)} off, "
                    f"{quoted(each.called(judged.drawing))}" for each in off)
        if not off:
            yield "  measured: each constraint holds exactly"


def _move_lines(finding: Finding) -> Iterator[str]:
    """Which points still move, and where to."""
    moving = [(point, list(moves))
              for point, moves in groupby(finding.moves, lambda each: each.point)]
    for point, moves in moving[:MOST_MOVES]:
        yield f"  can still move (by numbers): {point}{_along_text(moves)}"
    if len(moving) > MOST_MOVES:
        more = len(moving) - MOST_MOVES
        yield f"  and {more} more point{'s' if more > 1 else ''}"
    if finding.free_radii:
        yield f"  free radius (by numbers): {', '.join(finding.free_radii)}"


def _along_text(moves: list[PointMove]) -> str:
    """Along which direction; nothing of a point that moves everywhere."""
    if len(moves) > 1:
        return ""
    dx, dy = (round(each, 3) + 0.0 for each in (moves[0].dx, moves[0].dy))
    return " along x" if dy == 0 else " along y" if dx == 0 else f" along {dx:g} {dy:g}"


def _group_text(group: Group) -> str:
    """What is redundant, and from which others it follows."""
    latest, *others = group
    return f"{quoted(latest)}, given {listed(others)}" if others else quoted(latest)
