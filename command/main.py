"""Which command is meant, its help, and what its end means for the exit status."""
import signal
import sys

from command import blank, board, judge, listing, make, order, panel, picture, places, ring, standard, told, turn
from command.failure import Failure

COMMANDS = {"make": make, "list": listing, "board": board, "turn": turn, "panel": panel, "ring": ring, "judge": judge,
            "picture": picture, "blank": blank, "order": order}
HELP = """\
channel: a pin list in; listing, board file, judgement and picture out

{usages}

  channel help COMMAND, or channel COMMAND --help, tells more of one; channel --version which version this is.
  A file name that begins with - stands after --, as in: channel list -- -odd-name

A pin list is two lines, TOP and BOT, each with one net number a column, 0 for no pin:

  TOP 0 1 6 1 2 3 5
  BOT 6 3 5 4 0 2 4

A number that stands just once parks its pin, which gets no copper; standard error then says so.

Exit status: 0 for a listing, a board, a turned list, a panel, a ring or none, a good board or a blank; 1 for a refusal
or fault, which standard error explains; 2 for wrong use or a step that failed.
"""


class WrongUse(Failure):
    """Words that are no use of the command."""


def usage_of(command):
    return command.__doc__.splitlines()[0]


def overview():
    width = max(len(usage_of(command)) for command in COMMANDS.values())
    lines = (f"  {usage_of(command):{width}}  {command.SUMMARY}" for command in COMMANDS.values())
    return HELP.format(usages="\n".join(lines))


def help_of(words):
    """The help of the command named, or of all."""
    if not words:
        return overview()
    if len(words) > 1 or words[0] not in COMMANDS:
        raise WrongUse(f"there is no command {' '.join(words)}: see channel --help")
    return "usage: " + COMMANDS[words[0]].__doc__


def words_of(name, words):
    """The operands of a command and the values of its options by name, or None if its help is asked for. Options end at
    --; a single - is an operand."""
    operands, values, left = [], {}, list(words)
    while left:
        word = left.pop(0)
        if word == "--":
            operands += left
            break
        if word in ("-h", "--help"):
            return None
        if word.startswith("-") and word != "-":
            take_option(name, word, left, values)
        else:
            operands.append(word)
    least, most = COMMANDS[name].OPERANDS
    if not least <= len(operands) <= most:
        raise WrongUse(f"usage: {usage_of(COMMANDS[name])}")
    return operands, values


def take_option(name, word, left, values):
    """Adds the value of an option: what stands behind its =, or else the next word that is left."""
    option, equals, value = word.partition("=")
    usage, key = f"usage: {usage_of(COMMANDS[name])}", option.lstrip("-")
    known = getattr(COMMANDS[name], "OPTIONS", {})
    if option not in known:
        raise WrongUse(f"{name} has no option {word}; {usage}")
    if key in values:
        raise WrongUse(f"{option} stands twice; {usage}")
    if not equals and left:
        value = left.pop(0)
    if not value:
        raise WrongUse(f"{option} needs {known[option]}; {usage}")
    values[key] = value


def perform(words):
    """Does what the words ask and gives the exit status."""
    if not words:
        raise WrongUse("no command was given: see channel --help")
    name, rest = words[0], words[1:]
    if name in ("-h", "--help", "help"):
        standard.write_output(help_of(rest).encode())
        return told.GOOD
    if name == "--version" and not rest:
        standard.write_output(version())
        return told.GOOD
    if name not in COMMANDS:
        kind = "option" if name.startswith("-") else "command"
        raise WrongUse(f"there is no {kind} {name}: see channel --help")
    taken = words_of(name, rest)
    if taken is None:
        standard.write_output(help_of([name]).encode())
        return told.GOOD
    if COMMANDS[name] is not order:
        standard.refuse_closed_output()
    operands, values = taken
    return COMMANDS[name].run(*operands, **values)


def version():
    try:
        return places.VERSION.read_bytes()
    except OSError as error:
        raise Failure(f"cannot read {places.VERSION}: {error.strerror}") from error


def end_by_signal(number, _frame):
    """Ends in order, so that no file is left beside a board's place."""
    sys.exit(128 + number)


def main(words):
    """The whole command. Standard output is closed at the end, and a failure of that counts too."""
    standard.secure()
    for number in (signal.SIGINT, signal.SIGTERM, signal.SIGHUP):
        if signal.getsignal(number) is not signal.SIG_IGN:
            signal.signal(number, end_by_signal)
    try:
        status = perform(words)
        standard.close_output()
        return status
    except Failure as error:
        standard.say(error)
    except Exception as error:  # pylint: disable=broad-except  (status 1 would say that a list was refused)
        standard.say(f"a fault of the command itself: {type(error).__name__}: {error}")
    return told.FAILED
