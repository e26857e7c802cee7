"""Reading a pin list, a board file or a table of blanks that was named on the command line."""
import os

from command import standard
from command.failure import Failure, reason

STANDARD = "-"
MOST = 65536
# The programs refuse more than that, whatever follows; a picture shows some bytes after that place.
READ_MOST = 2 * MOST


def called(name):
    """What messages call a file."""
    return "standard input" if name == STANDARD else name


def read(name):
    """The first bytes of a file, as many as matter. A file that can't be read is a failure of the command."""
    try:
        number = standard.INPUT if name == STANDARD else os.open(name, os.O_RDONLY | os.O_NOCTTY | os.O_CLOEXEC)
        try:
            return read_open(number)
        finally:
            if name != STANDARD:
                os.close(number)
    except (OSError, ValueError) as error:  # a name with a zero byte is a ValueError
        why = reason(error) if isinstance(error, OSError) else str(error)
        raise Failure(f"cannot read {called(name)}: {why}") from error


def read_open(number):
    parts, left = [], READ_MOST
    while left:
        part = os.read(number, left)
        if not part:
            break
        parts.append(part)
        left -= len(part)
    return b"".join(parts)


def status_of(name):
    """The system's knowledge of an input file, to see whether another name means the same; None if it has none."""
    try:
        return os.fstat(standard.INPUT) if name == STANDARD else os.stat(name)
    except (OSError, ValueError):
        return None


def refuse_standard_twice(pins_name, other_name, other="BOARD", pins="PINS"):
    if pins_name == other_name == STANDARD:
        raise Failure(f"{pins} and {other} cannot both be standard input")
