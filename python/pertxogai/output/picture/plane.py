"""Plane geometry for pictures, in floating point: nothing that is told as a number comes from
here."""
from __future__ import annotations

import math

from pertxogai.output.picture.marks import PointMm

Box = tuple[float, float, float, float]


def unit(x: float, y: float) -> PointMm:
    """The direction of a way; upwards where it has none."""
    length = math.hypot(x, y)
    return (x / length, y / length) if length else (0.0, 1.0)


def between(one: PointMm, two: PointMm, share: float) -> PointMm:
    """The place at a share of the way from one to two."""
    return one[0] + (two[0] - one[0]) * share, one[1] + (two[1] - one[1]) * share


def foot(place: PointMm, start: PointMm, end: PointMm) -> PointMm:
    """The nearest place to `place` on the line through two places; these themselves where they are
    one, as the ends of an edge that has come to nothing."""
    dx, dy = end[0] - start[0], end[1] - start[1]
    along = (place[0] - start[0]) * dx + (place[1] - start[1]) * dy
    return between(start, end, along / (dx * dx + dy * dy)) if dx or dy else start


def crossing(one: tuple[PointMm, PointMm], two: tuple[PointMm, PointMm]) -> PointMm | None:
    """Where the lines through two segments cross, or None where they are parallel."""
    (ax, ay), (bx, by) = one
    (cx, cy), (dx, dy) = two
    ux, uy, vx, vy = bx - ax, by - ay, dx - cx, dy - cy
    det = ux * vy - uy * vx
    if abs(det) <= 1e-9 * math.hypot(ux, uy) * math.hypot(vx, vy):
        return None
    return between(one[0], one[1], ((cx - ax) * vy - (cy - ay) * vx) / det)


def crosses(one: PointMm, two: PointMm, box: Box) -> bool:
    """Whether a segment meets a box (left, top, right, bottom)."""
    first, last = 0.0, 1.0
    for axis in (0, 1):
        start, way = one[axis], two[axis] - one[axis]
        low, high = box[axis] - start, box[axis + 2] - start
        if way == 0:
            if low > 0 or high < 0:
                return False
            continue
        near, far = sorted((low / way, high / way))
        first, last = max(first, near), min(last, far)
    return first <= last


def reach(place: PointMm, box: Box) -> tuple[float, float]:
    """The least and the greatest distance from a place to a box."""
    x, y = place
    dx, dy = max(box[0] - x, 0, x - box[2]), max(box[1] - y, 0, y - box[3])
    return math.hypot(dx, dy), math.hypot(max(x - box[0], box[2] - x), max(y - box[1], box[3] - y))


def overlaps(one: Box, two: Box) -> bool:
    """Whether two boxes have a place in common."""
    return one[0] < two[2] and two[0] < one[2] and one[1] < two[3] and two[1] < one[3]


def sweep(centre: PointMm, start: PointMm, end: PointMm) -> tuple[float, float]:
    """The angle at which an arc starts, and how far it goes counter-clockwise, in radians,
    above 0."""
    first = math.atan2(start[1] - centre[1], start[0] - centre[0])
    turn = (math.atan2(end[1] - centre[1], end[0] - centre[0]) - first) % math.tau
    return first, turn or math.tau
