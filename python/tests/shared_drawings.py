"""Drawings that several files of tests look at."""
from __future__ import annotations

LINK = """segment Lower 0 -10 62 -9
arc East 60 0.5 Lower.end 61 11
segment Upper East.end 1 9
arc West 0 0.3 Upper.end Lower.start
circle Hole 59 1 4
tangent Lower East
tangent East Upper
tangent Upper West
tangent West Lower
coincident West Origin
horizontal West East
distance West East 60
radius East 10
equal East West
diameter Hole 8
"""
"""A link, rounded by 10 about two centres 60 apart, with a hole of radius 4, of which nothing says
where it lies."""

ROUNDED_BRACKET = """segment Low 0 0 60 0
segment Right Low.end 60 15
segment In Right.end 25 15
arc Round 25 25 15 25 25 15
segment Up 15 25 15 50
segment Top Up.end 0 50
segment Left Top.end Low.start
coincident Low.start Origin
coincident Round.end In.end
coincident Round.start Up.start
tangent Round In
tangent Round Up
horizontal Low
horizontal In
horizontal Top
vertical Right
vertical Up
vertical Left
length Low 60
length Right 15
length Top 15
length Left 50
"""
"""A bracket with legs of 15, rounded within, by a radius that nothing gives."""

SHRUNKEN_TRIANGLE = """segment A 0 0 10 0
segment B A.end 5 8
segment C B.end A.start
equal A B C
on B.end A
segment D 30 0 40 5
"""
"""A triangle of three equal sides that has a corner on the line of the side across, so that its
corners are one point; and an edge that is loose. In a damaged file the search found six edges so,
and constructions and proposals were tried for many seconds."""
