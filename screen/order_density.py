"""The density of each column of a typed list, as the order screen should show it: worked out net by net from the text
of the two rows, whatever that is."""
import re

from order_keys import GUTTER, PITCH

COLUMNS, NETS = 512, 511
BLOCKS = "\u2581\u2582\u2583\u2584\u2585\u2586\u2587\u2588"  # one eighth to eight
GAP = 2  # cells between the last bar and the name after it
LONG = "density not known: the library answered number {}, value {}"
SHORT = "density not known: {} {}"


def columns_of(row):
    """What a row has in its columns, pads included; only the last may be without anything."""
    words, at = [], 0
    while at <= len(row):
        words.append(re.compile(" *[^ ]*").match(row, at).group())
        at += len(words[-1]) + 1
    return words


def words_of(row):
    return [word for word in row.split(" ") if word]


def spans_of(top, bot):
    """First and last column of each net of 1 to 511 that has pins in more than one of the first 512 columns."""
    columns = {}
    for row in (top, bot):
        for column, word in enumerate(words_of(row)[:COLUMNS], 1):
            if re.fullmatch("[1-9][0-9]{0,2}", word) and int(word) <= NETS:
                columns.setdefault(int(word), set()).add(column)
    return {net: (min(at), max(at)) for net, at in columns.items() if len(at) > 1}


def densities(top, bot):
    """The nets over each column, from their first to their last; up to the last column that has something, at most
    512."""
    spans, last = spans_of(top, bot).values(), max(len(words_of(row)) for row in (top, bot))
    return [sum(first <= column <= end for first, end in spans) for column in range(1, min(COLUMNS, last) + 1)]


def text_rows(rows):
    return tuple(" ".join(map(str, row)) for row in rows)


def piped_line(rows):
    """The line through a pipe, of rows in numbers."""
    return " ".join(["DENSITY", *map(str, densities(*text_rows(rows)))])


def bar(count, greatest, utf8):
    if count == 0:
        return "."
    if not utf8:
        return "#" if count == greatest else " "
    return BLOCKS[max(1, 8 * count // greatest) - 1]


def edges_of(top, bot):
    """The cell after each column: as many fours as its longer word takes, with one cell before it."""
    edges = [0]
    words = [columns_of(row) for row in (top, bot)]
    for k in range(max(map(len, words))):
        longest = max(len(row[k]) for row in words if k < len(row))
        edges.append(edges[-1] + (longest // PITCH + 1) * PITCH)
    return edges


def density_line(top, bot, across=80, scroll=0, utf8=False):
    """The line under the rows, where so many cells of them are to the left of the window."""
    counts, edges, shown = densities(top, bot), edges_of(top, bot), (across - GUTTER - 1) // PITCH * PITCH
    if not counts:
        return ""
    greatest, end = max(counts), edges[len(counts)]
    cells = ""
    for column, count in enumerate(counts, 1):
        cells = cells.ljust(edges[column - 1])
        cells += ((str(count) if count else "") + bar(count, greatest, utf8)).rjust(edges[column] - len(cells))
    left, right = "<" if edges[1] - 1 < scroll else " ", ">" if end - 1 >= scroll + shown else ""
    line = f"dens{left}{cells[scroll:scroll + shown]}{right}"
    name = f"density {greatest}"
    at = GUTTER + end - scroll + GAP
    return (line.ljust(at) + name if end >= scroll and at + len(name) <= across else line).rstrip()


def failed(number, value, across=80):
    """What stands in its place where the library's answer is none of a draft."""
    words = LONG.format(number, value)
    return words if len(words) <= across else SHORT.format(number, value)
