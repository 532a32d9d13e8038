"""How far dimensions may lie off, and what must fit all the same."""
