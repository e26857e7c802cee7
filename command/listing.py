"""channel list PINS

Prints the listing of a pin list: the lines BOARD, BOUND, one NET a net, and END; or those of its refusal, REFUSED and,
for a tangled list, RING. PINS is a file, or - for standard input. Standard error says which pins are parked, if any.
"""
from command import inputs, programs, told
from command.standard import write_output

SUMMARY = "print the listing of a pin list"
OPERANDS = (1, 1)


def run(pins_name):
    pins = inputs.read(pins_name)
    programs.ready(programs.LISTING)
    output, answer = programs.listing(pins)
    write_output(output)
    return told.status(answer, pins, pins_name=pins_name)
