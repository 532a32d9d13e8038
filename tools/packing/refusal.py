"""Why nothing is released."""


class Refused(Exception):
    """Nothing is released; the message is one line, and says what to do."""
