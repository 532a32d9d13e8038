"""Lines and claims that were worked out by hand, from the pages on lines, refusals and claims."""
from __future__ import annotations

SKETCH = """sketch 2
point A 0 0
point B 4 0
circle H 9 9 2
circle K 20 9 2
line L 0 0 1 0
line M 0 0 0 1
"""
"""A sketch without its end: what follows it is line 8."""

LINES = {
    "point A234567890123456 1000000 -1000000.000": "line 9 E16 no-end",
    "point A2345678901234567 0 0": "line 8 E4 name",
    "point C 1000000.001 0": "line 8 E8 number",
    "point A 1x 0": "line 8 E5 name-taken",
    "circle C 0 0": "line 8 E12 variable-radius",
    "circle 9 0 0": "line 8 E12 variable-radius",
    "circle C 0 0 0": "line 8 E9 zero",
    "circle C 0 0 -1": "line 8 E8 number",
    "line N 1 1 1.0 1.000": "line 8 E11 drawn-flat",
    "distance Z 9 1": "line 8 E4 name",
    "distance A Z 1": "line 8 E6 unknown",
    "distance L M 1": "line 8 E7 kind",
    "distance A A 0": "line 8 E9 zero",
    "distance A A -0": "line 8 E9 zero",
    "distance A A -1": "line 8 E8 number",
    "distance A A 5": "line 8 E10 same",
    "on A A": "line 8 E7 kind",
    "on H K": "line 8 E7 kind",
    "on L A": "line 8 E7 kind",
    "on H L": "line 9 E16 no-end",
    "tangent H H": "line 8 E7 kind",
    "tangent L H": "line 9 E16 no-end",
    "outside H H": "line 8 E10 same",
    "inside H H": "line 8 E9 zero",
    "inside H K": "line 8 E9 zero",
    "angle L L 0/1": "line 8 E9 zero",
    "angle L L 1/1": "line 8 E10 same",
    "angle L M -10000/10000": "line 9 E16 no-end",
    "angle L M 1/10001": "line 8 E8 number",
    "angle L M 10001/1": "line 8 E8 number",
    "angle L A 1/1": "line 8 E7 kind",
    "block A 0 0": "line 8 E3 shape",
    "block A 0 0 L 1 0": "line 8 E7 kind",
    "block A 0 0 A 0 0": "line 8 E9 zero",
    "block A 0 0 A 1 0": "line 8 E10 same",
    "end x": "line 8 E3 shape",
    "blocks": "line 8 E2 word",
}
"""A line behind that sketch, and what is refused then."""

TRIANGLE = """sketch 1
point A 0 0
point B 4 0
point C 4 3
distance A B 4
distance A C 5
distance B C 3
end
{step}
point A 0 0
point B 4000000 0
point C 4000000 3000000
tolerance 0 0
"""

ON_THE_LINE = """sketch 1
line L 0 0 10 0
point P 5 0
distance P L 3
end
line L 0 1000000000 0
point P 0 {y}
tolerance 0 0
"""

TWO_SHARED = """sketch 2
point A 0 0
point B 1 0
point C 0 1
point D 1 1
block A 0 0 B 1 0 C 0 1
block B 1 0 C 0 1 D 1 1
distance A D 1
end
step s1 joins c3 c2 c1 at D B A keeps c1 turn +
tolerance 0 0
"""

THREE_LINES = """sketch 1
line L 0 0 1 0
line M 0 0 1 1
line N 0 0 0 1
angle L M 1/1
angle M N 1/1
angle N L 1/0
end
step s1 joins c3 c2 c1 at N M L keeps c1 {choice}
tolerance 0 0
"""

STRAIGHT = TRIANGLE.replace("point C 4 3", "point C 8 0")

LEFT_ALONE = """sketch 1
point A 0 0
point B 4 0
point C 4 3
distance A B 4
end
tolerance 0 0
"""

TWICE = """sketch 1
point A 0 0
point B 4 0
distance A B 4
distance A B 4
end
tolerance 0 0
"""

ALONE = """sketch 1
point A 0 0
end
point A 1 2
tolerance -0 007
"""

STEP = "step s1 joins c3 c2 c1 at C A B keeps c1 turn +"
VERIFIED = "verified steps 1 length 0 nm angle 0 ppb"

CLAIMS = [
    (TRIANGLE.format(step=STEP), VERIFIED),
    (TRIANGLE.format(step=STEP.replace("c3 c2 c1 at C A B", "c3 c1 c2 at B A C")), "fails s1"),
    (TRIANGLE.format(step="step s1 joins c3 c1 c2 at B A C keeps c2 turn +"), "fails s1"),
    (TRIANGLE.format(step="step s1 joins c3 c2 c999999 at C A B keeps c1 turn +"), "fails s1"),
    (TRIANGLE.format(step=STEP + "\n" + STEP.replace("s1", "s2")), "fails s2"),
    (ON_THE_LINE.format(y="3000000"), "verified steps 0 length 0 nm angle 0 ppb"),
    (ON_THE_LINE.format(y="-3000000"), "fails c1"),
    (TWO_SHARED, "fails s1"),
    (THREE_LINES.format(choice="none"), "fails s1"),
    (THREE_LINES.format(choice="advance +"), "fails s1"),
    (THREE_LINES.format(choice="turn +"), "fails s1"),
    (STRAIGHT.format(step=STEP), VERIFIED),
    (STRAIGHT.format(step=STEP.replace("turn +", "turn -")), "fails s1"),
    (LEFT_ALONE, "fails parts"),
    (TWICE, "fails parts"),
    (ALONE, "verified steps 0 length 0 nm angle 7 ppb"),
]
"""A claim, and how the answer to it ends."""
