"""Drawings as large as one likes: a strip of triangles, most of which hangs on little of it, and a
ring of equal sides."""

from __future__ import annotations

from math import cos, pi, sin


def strip(count: int, without: int | None = None) -> str:
    """A strip of equilateral triangles of 20 on the x axis: its points by turns below and above,
    each tied to the next two; without the bar from one point to the next but one."""
    lines = [f"point P{n} {10 * n} {17.32 * (n % 2)}" for n in range(count)]
    bars = [(n, n + by) for n in range(count) for by in (1, 2)
            if n + by < count and (by, n) != (2, without)]
    return "\n".join([*lines, "coincident P0 Origin", "on P2 XAxis",
                      *(f"distance P{one} P{other} 20" for one, other in bars)])


def equal_sides(count: int) -> str:
    """A closed ring of edges of one length, 20, drawn as a regular polygon, that begins at the
    origin; it may bend in every corner."""
    radius = 10 / sin(pi / count)
    spots = [(radius * sin(2 * pi * n / count), radius * (1 - cos(2 * pi * n / count)))
             for n in range(count)]
    lines = [f"segment S0 {spots[0][0]:.6f} {spots[0][1]:.6f} {spots[1][0]:.6f} {spots[1][1]:.6f}"]
    lines += [f"segment S{n} S{n - 1}.end {spots[(n + 1) % count][0]:.6f} "
              f"{spots[(n + 1) % count][1]:.6f}" for n in range(1, count - 1)]
    lines.append(f"segment S{count - 1} S{count - 2}.end S0.start")
    return "\n".join([*lines, "coincident S0.start Origin", "length S0 20",
                      *(f"equal S0 S{n}" for n in range(1, count))])
