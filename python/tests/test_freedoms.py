"""How many dimensions a drawing lacks, and how the whole may still be moved, by rank: each worked
out by hand."""
from __future__ import annotations

from decimal import Decimal

import pytest

from pertxogai.drawing import read_drawing
from pertxogai.judging.freedoms import Freedoms, Whole, freedoms
from pertxogai.judging.jets import EXACT
from pertxogai.spelling.facts import Owner

TRIANGLE = ("segment A 0 0 40 2/segment B A.end 38 30/segment C B.end A.start/"
            "length A 40/length B 30/length C 45")


@pytest.mark.parametrize("words, lacks, whole", [
    # One point has two freedoms and no direction, and so has a circle beside its size.
    ("point P 10 10", 0, "moved"),
    ("point P 10 10/x P 10", 0, "moved along y"),
    ("point P 10 10/x P 10/y P 10", 0, ""),
    ("point P 30 0/on P XAxis", 0, "moved along x"),
    ("circle H 30 0 5/on H XAxis/radius H 5", 0, "moved along x"),
    ("circle C 10 10 5/coincident C Origin/radius C 5", 0, ""),
    ("circle C 10 10 5/coincident C Origin", 1, ""),
    ("circle C 10 10 5", 1, "moved"),
    # A distance from the origin leaves its point on a circle about the origin.
    ("point P 10 10/distance P Origin 14", 0, "turned"),
    ("point P 10 10/point Q 20 10/distance P Origin 10/distance P Q 10/distance Q Origin 18",
     0, "turned"),
    # Four freedoms less one: Q turns about P, P with Q about the origin, and Q's way from P is lacking.
    ("point P 10 10/point Q 20 10/distance P Origin 10", 1, "moved and turned"),
    # A segment of one length is rigid, with all three freedoms of the whole.
    ("segment A 0 0 40 2/length A 40", 0, "moved and turned"),
    ("segment L Origin 40 40/length L 45", 0, "turned"),
    ("segment L Origin 40 40/angle L 45deg", 1, ""),
    ("segment S 10 0 10 10/on S.start XAxis/vertical S/length S 10", 0, "moved along x"),
    # It slides along its own direction, as far from the origin as before.
    ("segment L 5 5 40 30/angle L 30deg/length L 40/distance Origin L 10", 0, "moved"),
    (TRIANGLE, 0, "moved and turned"),
    (TRIANGLE + "/x A.start B.end -3", 0, "moved"),
    (TRIANGLE + "/coincident A.start Origin", 0, "turned"),
    (TRIANGLE + "/coincident A.start Origin/y B.end -3", 0, ""),
])
def test_what_is_free(words, lacks, whole):
    found = freedoms(read_drawing(words.replace("/", "\n") + "\n"))
    assert (found.lacks, found.whole.text()) == (lacks, whole)


def test_what_cancels_but_for_rounding_follows_from_nothing():
    """Of constraint 1 the second equation follows from 2, and the first from 4, with 2 or with 3. Without 4 it follows
    from neither: it isn't in thrice the first set less the second, but for the rounding of a third."""
    one, owners = Decimal(1), (Owner(4), Owner(1), Owner(1), Owner(2), Owner(3))
    circuits = ({0: one, 1: EXACT.divide(one, Decimal(3)), 3: one}, {0: Decimal(3), 1: one, 4: one}, {2: one, 3: one})
    free = Freedoms(0, Whole(False, False, 0, False), (), owners, circuits, None)
    assert free.follows(1, {Owner(2), Owner(3), Owner(4)})
    assert not free.follows(1, {Owner(2), Owner(3)})
