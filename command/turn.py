"""channel turn PINS > TURNED

Writes on standard output the pin list of the board turned over: TOP and BOT exchanged, each row with its spaces and
line end, so that turning twice gives the same bytes. PINS is a file, or - for standard input; TURNED has to be another
file, since the shell empties it first. A refused list is not turned: its line is printed, with status 1. But a tangled
one is, and stays tangled, as standard error says; there parked pins are told too, if there are any.
"""
from command import answers, inputs, programs, told, turning
from command.standard import write_output

SUMMARY = "write the pin list of the board turned over"
OPERANDS = (1, 1)
TANGLED_WORDS = ("the list is tangled, and stays so turned over: either way it has no board with one trunk a net "
                 "(channel list shows a ring)")


def run(pins_name):
    pins = inputs.read(pins_name)
    programs.ready(programs.LISTING)
    output, answer = programs.listing(pins)
    refused = isinstance(answer, answers.Verdict)
    if refused and answer.number != told.TANGLED:
        write_output(output)
        return told.status(answer, pins, pins_name=pins_name)
    over = turning.turned(pins)
    turning.listed(over, answer)
    write_output(over)
    told.tell_of_list(TANGLED_WORDS if refused else "", pins_name)
    told.tell_parked(pins, pins_name)
    return told.GOOD
