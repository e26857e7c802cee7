#!/usr/bin/env python3
"""Writes the table of refusals as a C header, for the order screen.

Usage: python3 screen/make_refusals.py HEADER

The table is command/refusals.tsv. The header has `refusals_table`, one entry a refusal in rising number, and
`REFUSALS_COUNT`. In its texts %p stands for the place. Exit status: 0, or 2 if the table can't be read or the header
can't be written; then no header is left.
"""
import os
import sys
from pathlib import Path

sys.dont_write_bytecode = True
sys.path.insert(0, str(Path(__file__).resolve().parent.parent))
from command.refusals import BadTable, read_table  # noqa: E402

HEAD = """\
/* refusals_table.h: made from command/refusals.tsv by screen/make_refusals.py. Edit the table and not this file.
 * In the texts %p stands for the place. */
#ifndef CABJIRT_REFUSALS_TABLE_H
#define CABJIRT_REFUSALS_TABLE_H

struct refusal_text {
    int number;
    const char *word;
    const char *meaning;
    const char *remedy;
};

static const struct refusal_text refusals_table[] = {
"""
TAIL = """\
};

enum { REFUSALS_COUNT = sizeof refusals_table / sizeof *refusals_table };

#endif
"""


def c_string(text):
    """A text of the table as a C string: its bytes in UTF-8, all but plain ASCII as octal."""
    return '"' + "".join(chr(byte) if plain(byte) else f"\\{byte:03o}" for byte in text.encode()) + '"'


def plain(byte):
    """Whether a byte may stand in a C string as it is."""
    return 0x20 <= byte < 0x7f and chr(byte) not in '"\\?'


def header(table):
    entries = (
        f"    {{{refusal.number}, {c_string(refusal.word)},\n     {c_string(refusal.meaning)},\n"
        f"     {c_string(refusal.remedy)}}},\n"
        for refusal in table.values()
    )
    return HEAD + "".join(entries) + TAIL


def write_whole(path, text):
    """Puts the text at the path, whole or not at all."""
    beside = f"{path}.new{os.getpid()}"
    try:
        Path(beside).write_text(text, encoding="ascii")
        os.replace(beside, path)
    except OSError:
        Path(beside).unlink(missing_ok=True)
        raise


def main(arguments):
    if len(arguments) != 1:
        print("usage: make_refusals.py HEADER", file=sys.stderr)
        return 2
    try:
        write_whole(arguments[0], header(read_table()))
    except (OSError, BadTable) as error:
        print(f"make_refusals: {error}", file=sys.stderr)
        return 2
    return 0


if __name__ == "__main__":
    sys.exit(main(sys.argv[1:]))
