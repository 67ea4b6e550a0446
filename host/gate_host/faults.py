"""What keeps something from being done."""


class Trouble(Exception):
    """What keeps a command from being done, in words for its user."""


class Unable(Exception):
    """Why something can't be done at present, which is no fault of any change. It is tried again."""
