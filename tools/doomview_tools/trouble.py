"""What is wrong, for a user to read."""

# The statuses of a tool that did its work and found something, and of one that could not do it.
FOUND, TROUBLE = 1, 2


class Trouble(Exception):
    """What is wrong and what to do, as one sentence without its full stop; a command ends with the status."""

    def __init__(self, sentence: str, status: int = TROUBLE) -> None:
        super().__init__(sentence)
        self.status = status


class WadError(Trouble):
    """What is wrong with a WAD or a level."""


class Ended(Trouble):
    """A run of the program that failed, which is told already."""

    def __init__(self, status: int) -> None:
        super().__init__('', status)
