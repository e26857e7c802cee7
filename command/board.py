"""channel board PINS > BOARD

Writes the board file of a pin list on standard output, once the judge has passed it; or the lines of the list's
refusal, with status 1. PINS is a file, or - for standard input. `channel make` puts the board in a file itself.
Standard error says which pins are parked, if any are.
"""
from command import answers, inputs, programs, told
from command.standard import write_output

SUMMARY = "write the board file of a pin list on standard output"
OPERANDS = (1, 1)


def run(pins_name):
    pins = inputs.read(pins_name)
    programs.ready(*programs.FOR_BOARDS)
    output, answer = programs.listing(pins)
    if not isinstance(answer, answers.Verdict):
        output, verdict = programs.judged_board(pins)
        programs.refuse_disagreement(answer, output, verdict)
    write_output(output)
    return told.status(answer, pins, pins_name=pins_name)
