"""channel ring PINS

Prints the ring with the fewest nets of a tangled list, a RING line for each of its nets, or NONE if the list has no
ring: the fewest wires to move. `list` shows a ring as well, with refusal 7, but that one may be longer. A tangled list
is no refusal here; any other refusal prints REFUSED with number and place, status 1. PINS is a file, or - for standard
input. Standard error says the ring in words, and which pins are parked, if any.
"""
from command import answers, inputs, programs, rings, told
from command.standard import write_output

SUMMARY = "print the ring of a tangled list with the fewest nets"
OPERANDS = (1, 1)


def run(pins_name):
    pins = inputs.read(pins_name)
    programs.ready(programs.FINDER)
    output, answer = rings.found(pins)
    write_output(output)
    if isinstance(answer, answers.Ring):
        told.tell_of_list(rings.words_of(answer), pins_name)
    return told.status(answer, pins, pins_name=pins_name)
