"""Parked pins on small channels: a channel is answered as the same without them, and none of them gets a record or
copper. What is asked here goes by the pins alone."""
import re
import subprocess

import batch
import channel
import examples
import program_cases
import random_boards
import text_cases
from small_channels import parked_in, shape_of, shapes, without_parked

LISTING = program_cases.BINS / "listing"
LISTED_COLUMNS = 3  # the listing program is run for every channel of up to so many columns that has parked pins
RECORD = re.compile(rb"NET (\d+) \d+ \d+ \d+")


def with_parked(channels):
    return [rows for rows in channels if parked_in(*rows)]


def question(rows):
    """The router's case of rows; what is due is left open."""
    return batch.Case(batch.ROUTE, "", 1, (channel.RING, channel.BOARD), *rows).question


def search_differences(channels, found):
    """A channel is tangled, and needs its fewest tracks, as it does with the parked pins removed."""
    for rows in with_parked(channels):
        whole, bare = found[shape_of(*rows)], found[shape_of(*without_parked(*rows))]
        if (whole is None) != (bare is None) or whole and whole[0] != bare[0]:
            yield "the search differs where the parked pins are removed", rows


def router_differences(channels, program=batch.PROGRAM):
    """The router's answer, ring and board are those of the channel with the parked pins removed."""
    some = with_parked(channels)
    questions = [question(rows) for rows in some] + [question(without_parked(*rows)) for rows in some]
    lines = batch.answers(questions, program)
    for rows, line, bare in zip(some, lines, lines[len(some):]):
        if line != bare:
            yield f"the router answers '{line}', and '{bare}' where the parked pins are removed", rows


def copper_fault(rows, tracks, groups):
    """What is wrong if some group of joined pieces reaches a parked pin, or None."""
    parked = parked_in(*rows)
    for group in groups:
        for row, column in random_boards.edges_of(group, tracks):
            if rows[row][column - 1] in parked:
                return f"copper is joined to the parked pin of net {rows[row][column - 1]}"
    return None


def record_fault(rows, listing):
    """What is wrong with the records of a listing, or None. A tangled channel has none."""
    numbers = [int(record) for record in RECORD.findall(listing)]
    tangled = listing.startswith(b"REFUSED 7 ")
    due = [] if tangled else sorted(set([*rows[0], *rows[1]]) - {0} - parked_in(*rows))
    return None if numbers == due else f"the records are of nets {numbers}, due {due}"


def record_differences():
    """The listing program has a record for each net, and none for a parked one."""
    for width in range(1, LISTED_COLUMNS + 1):
        for rows in with_parked(shapes(width)):
            try:
                fault = record_fault(rows, examples.run(LISTING, text_cases.text(*rows)))
            except subprocess.CalledProcessError as failure:
                fault = f"the listing program ended with status {failure.returncode}"
            if fault:
                yield fault, rows
