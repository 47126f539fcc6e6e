"""What the translator raises."""


class Refused(Exception):
    """What cannot be done, in one line that follows "cannot"."""
