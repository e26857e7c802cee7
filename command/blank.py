"""channel blank TRACKS [TABLE]

Prints BLANK and the tracks of the smallest blank that holds so many: a stock blank, or one of a customer's own laminate
if its TABLE is given, a file or - for standard input. Where there is none, or the table is bad, prints REFUSED with
number and place, status 1, and says on standard error what is wrong and what to do.

A table has 1 to 64 track counts, each 1 to 512 and larger than the one before it, parted by spaces or line ends. `make`
takes one too: channel help make.
"""
from command import chooser, inputs, own_blanks, told
from command.failure import Failure
from command.standard import write_output

SUMMARY = "choose the smallest blank that holds so many tracks"
OPERANDS = (1, 2)


def run(tracks, table_name=None):
    if not chooser.is_number(tracks):
        raise Failure(f"TRACKS is a whole number of 0 to {chooser.LARGEST}, without sign or leading zero, and not "
                      f"'{tracks}'")
    table = None if table_name is None else own_blanks.table_of(inputs.read(table_name), table_name)
    output, answer = chooser.chosen(int(tracks), table)
    write_output(output)
    return told.choice_status(answer, table)
