"""A refusal or fault in words for people: what is wrong and where, and what to do about it."""
from command import boardfile, slips
from command.copper import Copper
from command.pinlist import SIDES, place_words, rows_of, side_and_column
from command.refusals import (BAD_TABLE, NO_BLANK, NO_STOCK, OF_BOARDS, PANEL_FULL, TOO_WIDE, filled,
                              read_table)

PAIRS_SPELT = 12
LONGEST_NUMBER = 12


def meaning_of(verdict):
    """What a refusal means, by the table alone."""
    return filled(read_table()[verdict.number].meaning, verdict.place)


def is_of_board(verdict, pins):
    """Whether a refusal speaks of the board file, which is looked at only after the pin list."""
    return verdict.number in OF_BOARDS or (verdict.number == 0 and len(pins) <= verdict.place)


def explained(verdict, pins, board=b"", pins_name="the pin list", board_name="the board file"):
    """What a refusal of a pin list or a board file is, in two sentences."""
    more = DETAILS.get(verdict.number, no_detail)(verdict.place, pins, board, verdict)
    return sentences(verdict, board_name if is_of_board(verdict, pins) else pins_name, more)


def explained_choice(verdict, entries, table_name):
    """The same of a blank that is refused. There are no entries where a stock blank was asked for."""
    about = "" if verdict.number == NO_BLANK else table_name  # so many tracks are no fault of a table
    return sentences(verdict, about, DETAILS_OF_CHOICE[verdict.number](verdict.place, entries))


def explained_panel(verdict, first, second):
    """The same of a panel that is refused where neither of its two lists is."""
    return sentences(verdict, "panel", DETAILS_OF_PANEL[verdict.number](verdict.place, first, second))


def sentences(verdict, about, more):
    """Two sentences, without their full stops: what a refusal means, with its place; and the remedy."""
    meaning, remedy = meaning_of(verdict), filled(read_table()[verdict.number].remedy, verdict.place)
    return (f"{about}: " if about else "") + meaning + (f"; {more}" if more else ""), remedy


def cut(number):
    """A number as a message shows it: one that is far too long is cut off."""
    return number if len(number) <= LONGEST_NUMBER else f"{number[:LONGEST_NUMBER]}.. ({len(number)} digits)"


def no_detail(_place, _pins, _board, _verdict):
    return ""


def garbled(place, pins, _board, _verdict):
    line, column = slips.line_and_column(pins, place)
    return f"at line {line}, column {column} {slips.standing(pins, place)}: {slips.likely_slip(pins, place)}"


def too_wide(_place, pins, _board, _verdict):
    return "TOP has {} numbers, BOT {}".format(*map(len, rows_of(pins)))


def uneven(_place, pins, _board, _verdict):
    top, bot = map(len, rows_of(pins))
    shorter, longer = SIDES if top < bot else SIDES[::-1]
    return f"{shorter} has {min(top, bot)}, {longer} {max(top, bot)}, so {shorter} is shorter by {abs(top - bot)}"


def high_net(place, pins, _board, _verdict):
    top, bot = rows_of(pins)
    return f"{cut((top + bot)[place - 1])} stands at {place_words(place, len(top))}"


def tangled(_place, _pins, _board, verdict):
    return "the ring: " + ring_words(verdict.ring)


def ring_words(ring):
    """The pairs of a ring, each net above the next; a long one is cut short."""
    steps = [f"net {net} above net {lower} in column {column}"
             for (net, column), (lower, _) in zip(ring, ring[1:] + ring[:1])]
    if len(steps) > PAIRS_SPELT:
        steps[PAIRS_SPELT:] = [f"and so on, {len(ring)} nets in all"]
    return ", ".join(steps)


def torn(place, _pins, board, _verdict):
    if len(board) < boardfile.HEADER:
        return f"it has {len(board)} bytes, less than its header of 4"
    pieces, much = boardfile.header_of(board)[2], len(board) - place
    wrong = f"{much} too many" if much > 0 else f"{-much} too few"
    return f"it has {len(board)}, {wrong}, for its header says {pieces} pieces"


def bad_field(place, _pins, board, _verdict):
    if place:
        return f"it reads: {boardfile.described(boardfile.piece_of(board, place))}"
    width, _, _, spare = boardfile.header_of(board)
    return f"its width reads {width}, of 1 to 512" + (", and its spare bit is set" if spare else "")


def wrong_board(_place, pins, _board, _verdict):
    return f"the pin list has {len(rows_of(pins)[0])} columns"


def short(place, pins, board, _verdict):
    """Names both nets and both pins: the earlier one is the first of another net that is joined to this."""
    (top, bot), copper = rows_of(pins), Copper(boardfile.board_of(board))
    nets, width = top + bot, len(top)
    here = copper.at_pin(*side_and_column(place, width))
    for other in range(1, place):
        if nets[other - 1] not in ("0", nets[place - 1]) and copper.at_pin(*side_and_column(other, width)) == here:
            return (f"net {nets[place - 1]} at {place_words(place, width)} is joined to net {nets[other - 1]} at "
                    f"{place_words(other, width)}")
    return f"net {nets[place - 1]} at {place_words(place, width)}"


def open_(place, pins, _board, _verdict):
    top, bot = rows_of(pins)
    net, width = (top + bot)[place - 1], len(top)
    first = (top + bot).index(net) + 1
    return f"net {net} at {place_words(place, width)} is not joined to its first pin at {place_words(first, width)}"


def floating(place, _pins, board, _verdict):
    return f"it is a {boardfile.described(boardfile.piece_of(board, place))}"


DETAILS = {2: garbled, 3: too_wide, 4: uneven, 5: high_net, 7: tangled, 8: torn, 9: bad_field, 10: wrong_board,
           11: short, 12: open_, 13: floating}


def no_blank(_place, entries):
    return "" if entries is None else "a table has none of over 512 either"


def bad_table(place, entries):
    """The bad entry, and the one before it, than which it has to be larger."""
    if place == 0:
        return f"it has {len(entries)} entries" if entries else "it has no entry"
    before = f", and entry {place - 1} is {cut(entries[place - 2])}" if place > 1 else ""
    return f"entry {place} is {cut(entries[place - 1])}{before}"


def no_stock(_place, entries):
    return f"its last entry is {cut(entries[-1])}"


DETAILS_OF_CHOICE = {NO_BLANK: no_blank, BAD_TABLE: bad_table, NO_STOCK: no_stock}


def panel_too_wide(_place, first, second):
    return (f"{first.name} has {columns_words(first.width)}, {second.name} {second.width}, together "
            f"{first.width + second.width}")


def columns_words(count):
    return "1 column" if count == 1 else f"{count} columns"


def panel_full(place, first, second):
    return (f"it is net {place - first.highest} of {second.name}, raised by {first.highest}, the highest number of "
            f"{first.name}")


DETAILS_OF_PANEL = {TOO_WIDE: panel_too_wide, PANEL_FULL: panel_full}
