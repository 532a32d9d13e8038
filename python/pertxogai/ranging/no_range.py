"""That something has no range."""


class NoRange(Exception):
    """A drawing, or a parameter of it, has no range. The message is one line, and says why."""
