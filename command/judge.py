"""channel judge PINS BOARD

Judges a board file against a pin list: prints GOOD and its tracks; or REFUSED with number and place, status 1, and says
on standard error what is wrong and where, and which pins are parked, if any are. One of PINS and BOARD may be - for
standard input.
"""
from command import inputs, programs, told
from command.standard import write_output

SUMMARY = "judge a board file against a pin list"
OPERANDS = (2, 2)


def run(pins_name, board_name):
    inputs.refuse_standard_twice(pins_name, board_name)
    pins, board = inputs.read(pins_name), inputs.read(board_name)
    programs.ready(programs.JUDGE)
    output, verdict = programs.judge(pins, board)
    write_output(output)
    return told.status(verdict, pins, board, pins_name, board_name)
