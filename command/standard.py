"""Standard input, output and error, by their numbers: no buffer stands between, so every failure shows at its write."""
import fcntl
import os

from command.failure import Failure, reason

INPUT, OUTPUT, ERROR = 0, 1, 2


def secure():
    """Fills a closed standard file with one that refuses its use, so that no file opened later takes its number."""
    for number, way in ((INPUT, os.O_WRONLY), (OUTPUT, os.O_RDONLY), (ERROR, os.O_RDONLY)):
        try:
            os.fstat(number)
        except OSError:
            os.open(os.devnull, way)


def refuse_closed_output():
    """Fails at once if nothing can be written on standard output, before any work is done for it."""
    if fcntl.fcntl(OUTPUT, fcntl.F_GETFL) & os.O_ACCMODE == os.O_RDONLY:
        raise Failure("cannot write standard output: it is closed or open for reading only")


def write_all(number, data):
    """Writes all bytes to an open file. Raises OSError."""
    left = memoryview(data)
    while left:
        left = left[os.write(number, left):]


def write_output(data):
    """Writes bytes on standard output. A failure is one of the command."""
    try:
        write_all(OUTPUT, data)
    except OSError as error:
        raise Failure(f"cannot write standard output: {reason(error)}") from error


def close_output():
    """Closes standard output, where some systems tell of a failed write only now."""
    try:
        os.close(OUTPUT)
    except OSError as error:
        raise Failure(f"cannot write standard output: {reason(error)}") from error


def say(words):
    """A line for people, on standard error. Where that can't be written nothing more can be done."""
    try:
        write_all(ERROR, f"channel: {words}\n".encode(errors="backslashreplace"))
    except OSError:
        pass
