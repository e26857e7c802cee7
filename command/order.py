"""channel order [PINS]

Opens the order screen: type or load a pin list and see at once its board, or the refusal with its place marked; turn
the list over, save it and its board, judge a board file. Through a pipe it takes commands as lines:
`echo help | channel order`.
"""
import os
import signal

from command import compiled, places
from command.failure import Failure, reason

SUMMARY = "open the order screen"
OPERANDS = (0, 1)


def run(*pins_name):
    """Becomes the order screen, whose exit status is then the command's."""
    compiled.ready(compiled.ORDER_SCREEN)
    for number in (signal.SIGPIPE, signal.SIGXFSZ):  # which Python ignores, and the order screen would inherit that
        signal.signal(number, signal.SIG_DFL)
    try:
        os.execv(places.ORDER_SCREEN, [str(places.ORDER_SCREEN), *map(plain_name, pins_name)])
    except OSError as error:
        raise Failure(f"the order screen could not be run: {reason(error)} ({places.ORDER_SCREEN})") from error


def plain_name(name):
    """A file's name that no program takes for an option."""
    return f"./{name}" if name.startswith("-") else name
