"""Which edges of a graph close up, beside what removing each single point says."""
from __future__ import annotations

import random
from collections.abc import Sequence
from itertools import combinations

import pytest

from pertxogai.judging.blocks import blocks

Edges = Sequence[tuple[int, int]]


def test_two_triangles_in_one_point_are_two_blocks():
    bow = [(0, 1), (1, 2), (2, 0), (0, 3), (3, 4), (4, 0), (4, 5)]
    assert sorted(map(sorted, blocks(bow))) == [[0, 1, 2], [3, 4, 5], [6]]


@pytest.mark.parametrize("seed", range(300))
def test_no_point_is_the_only_one_between_two_edges_of_a_block(seed):
    chance = random.Random(seed)
    points = chance.randint(1, 7)
    edges = [(chance.randrange(points), chance.randrange(points))
             for _ in range(chance.randint(0, 11))]
    block_of = {place: number for number, block in enumerate(blocks(edges)) for place in block}
    assert set(block_of) == {place for place, (one, other) in enumerate(edges) if one != other}
    for one, other in combinations(block_of, 2):
        assert (block_of[one] == block_of[other]) == hang_together(edges, one, other)


def hang_together(edges: Edges, one: int, other: int) -> bool:
    """Whether two edges do, and without any single point too."""
    return all(joined(edges, one, other, gone) for gone in (-1, *range(7)))


def joined(edges: Edges, one: int, other: int, gone: int) -> bool:
    """Whether a way leads from one edge to another, not through a point."""
    reached = set(edges[one]) - {gone}
    while more := {end for edge in edges if reached & set(edge) for end in edge} - reached - {gone}:
        reached |= more
    return bool(reached & set(edges[other]) - {gone})
