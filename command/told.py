"""The end of a command: a refusal is explained on standard error, parked pins are told there, and the exit status says
which it was."""
from command import answers, inputs
from command.explain import explained, explained_choice, is_of_board
from command.parked import parked_words
from command.pinlist import rows_of
from command.refusals import TANGLED
from command.standard import say

GOOD, REFUSED, FAILED = 0, 1, 2


def status(answer, pins, board=b"", pins_name="", board_name="the board file"):
    """Explains an answer if it is a refusal or fault, tells of parked pins, and gives the exit status."""
    refused = isinstance(answer, answers.Verdict) and answer.word != "GOOD"
    if refused:
        for words in explained(answer, pins, board, inputs.called(pins_name), inputs.called(board_name)):
            say(words)
    if not refused or answer.number == TANGLED or is_of_board(answer, pins):  # else the rows are not known
        tell_parked(pins, pins_name)
    return REFUSED if refused else GOOD


def choice_status(answer, table):
    """Explains the answer of a choice if it is a refusal, and gives the exit status."""
    if not isinstance(answer, answers.Verdict):
        return GOOD
    entries, name = (None, "") if table is None else (table.entries, inputs.called(table.name))
    for words in explained_choice(answer, entries, name):
        say(words)
    return REFUSED


def tell_parked(pins, pins_name):
    tell_of_list(parked_words(rows_of(pins)), pins_name)


def tell_of_list(words, pins_name):
    """Says words of a pin list under its name, if there are any."""
    if words:
        say(f"{inputs.called(pins_name)}: {words}")
