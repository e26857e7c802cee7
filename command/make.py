"""channel make PINS BOARD [--laminate TABLE]

Prints the listing of a pin list and puts its board file at BOARD, whole, and only once the judge has passed those very
bytes. Under a refusal, and where any step fails, BOARD stays as it was. PINS may be - for standard input. BOARD may be
- for standard output; the listing then goes to standard error. A file at BOARD is replaced, through a symbolic link
too; a pipe or a character device is written into; a folder, the pin list itself and TABLE are refused. Standard error
says how many tracks are saved if the board is turned over, and which pins are parked, where there is that to say.

With --laminate the board is made only if it goes on a blank of the customer's own TABLE, and standard error says on
which. The listing stays as it is, with the stock blank. Where the table is bad or has no blank for the board, the line
of that refusal is printed in place of the listing. TABLE may be - for standard input if PINS is not; channel help blank
tells what stands in it.
"""
from command import answers, chooser, inputs, own_blanks, programs, told, turning
from command.output import Place
from command.standard import ERROR, write_all, write_output

SUMMARY = "print the listing and write the judged board file"
OPERANDS = (2, 2)
OPTIONS = {"--laminate": "a TABLE"}


def run(pins_name, board_name, laminate=None):
    inputs.refuse_standard_twice(pins_name, laminate, "TABLE")
    place = Place(board_name, pins_name, laminate)
    pins, text = inputs.read(pins_name), None if laminate is None else inputs.read(laminate)
    programs.ready(*programs.FOR_BOARDS)
    output, answer = programs.listing(pins)
    if isinstance(answer, answers.Verdict):
        write_output(output)
        return told.status(answer, pins, pins_name=pins_name)
    over = turning.listed(turning.turned(pins), answer)
    table = None if laminate is None else own_blanks.table_of(text, laminate)
    line, choice = (b"", None) if table is None else chooser.chosen(answer.tracks, table)
    if isinstance(choice, answers.Verdict):
        write_output(line)
    else:
        put_board(pins, output, answer, place)
        told.tell_of_list(own_blanks.chosen_words(choice, table, answer.blank), pins_name)
    status = told.choice_status(choice, table)
    told.tell_of_list(turning.saving_words(answer, over), pins_name)
    told.tell_parked(pins, pins_name)
    return status


def put_board(pins, output, answer, place):
    """Prints the listing and puts the board in its place, once the judge has passed it."""
    board, verdict = programs.judged_board(pins)
    programs.refuse_disagreement(answer, board, verdict)
    try:
        place.prepare(board)
        print_listing(output, place)
        place.put(board)
    finally:
        place.discard()


def print_listing(output, place):
    """Before the board is put in place, so that a listing that can't be written leaves no board."""
    if not place.standard:
        write_output(output)
        return
    try:
        write_all(ERROR, output)
    except OSError:  # as with any message: the board is what was asked for
        pass
