"""What ends the command with status 2: wrong use, or a step that failed."""


class Failure(Exception):
    """Its text says, for people, what was wrong or which step failed and why."""


def reason(error):
    """Why a call of the system failed, without its number and its file name."""
    return error.strerror or str(error)
