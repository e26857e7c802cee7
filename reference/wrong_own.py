"""Programs that get a customer's own blanks (Req 03) wrong, each by one slip: own_checks.py has to find each."""
from unittest import mock

import channel

SLIPS = {  # what is wrong, and what of `own_blank` below is then other
    "15 before 14": {"order": (15, 14, 16)},
    "16 before 15": {"order": (14, 16, 15)},
    "16 before 14": {"order": (16, 14, 15)},
    "no 14": {"order": (15, 16)},
    "14 from 512 tracks on": {"most_tracks": 511},
    "equal neighbours are taken": {"above": lambda entry, before: entry >= before},
    "falling entries are taken": {"above": lambda entry, before: True},
    "an entry 0 is taken": {"least": 0},
    "an entry 513 is taken": {"most": 513},
    "no entry 512 is taken": {"most": 511},
    "any high entry is taken": {"most": 2**32},
    "65 entries are taken": {"longest": 65},
    "64 entries are not taken": {"longest": 63},
    "no entries are a bad first one": {"none": 1},
    "the place counts from 0": {"first": 0},
    "the place is the last bad entry": {"told": max},
    "the last entry that holds the tracks": {"chosen": lambda table, tracks, holding: holding[-1]},
    "the first entry, if any holds the tracks": {"chosen": lambda table, tracks, holding: table[0]},
    "the tracks themselves": {"chosen": lambda table, tracks, holding: tracks},
    "an entry does not hold as many tracks": {"holds": lambda entry, tracks: entry > tracks},
    "an entry holds a track more": {"holds": lambda entry, tracks: entry + 1 >= tracks},
    "no entry holds 0 tracks": {"holds": lambda entry, tracks: entry >= tracks > 0},
    "the place of 16 is the last entry": {"out": lambda table, tracks: table[-1]},
}


def is_bad(table, i, least, most, above):
    return not least <= table[i] <= most or i > 0 and not above(table[i], table[i - 1])


def own_blank(table, tracks, order=(14, 15, 16), most_tracks=512, longest=64, none=0, first=1, least=1, most=512,
              told=min, above=lambda entry, before: entry > before, holds=lambda entry, tracks: entry >= tracks,
              out=lambda table, tracks: tracks, chosen=lambda table, tracks, holding: min(holding)):
    """The choice by asking everything of every entry, as it should be where nothing is other."""
    bad = [i + first for i in range(len(table)) if is_bad(table, i, least, most, above)]
    bad = bad if 1 <= len(table) <= longest else [none]
    holding = [entry for entry in table if holds(entry, tracks)]
    for number in order:
        if number == 14 and tracks > most_tracks:
            raise channel.Refused(14, tracks)
        if number == 15 and bad:
            raise channel.Refused(15, told(bad))
        if number == 16 and not holding:
            raise channel.Refused(16, out(table, tracks))
    return chosen(table, tracks, holding)


def program(**slip):
    """Puts the choice with a slip, or with none, in place of the one of channel.py."""
    return mock.patch.object(channel, "own_blank", lambda table, tracks: own_blank(table, tracks, **slip))
