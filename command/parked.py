"""Parked pins: those whose net number stands just once in a pin list. They are reserved, and the router leaves them
bare; but a slip of the pen parks a pin too, so the commands say which are."""
from collections import Counter

from command.pinlist import place_words

SPELT = 8  # how many are named


def parked_of(rows):
    """Pin positions of the parked pins, by rising net number, in rows that escape refusals 3 to 5."""
    pins = rows[0] + rows[1]
    count = Counter(pins)
    parked = (position for position, net in enumerate(pins, 1) if net != "0" and count[net] == 1)
    return sorted(parked, key=lambda position: int(pins[position - 1]))


def parked_words(rows):
    """How many pins are parked, and where; nothing if none is. A long list is cut short."""
    pins, width, parked = rows[0] + rows[1], len(rows[0]), parked_of(rows)
    if not parked:
        return ""
    named = [f"net {pins[position - 1]} at {place_words(position, width)}" for position in parked[:SPELT]]
    if len(parked) > SPELT:
        named.append(f"and {len(parked) - SPELT} more")
    how_many, whose = ("1 pin is", "its") if len(parked) == 1 else (f"{len(parked)} pins are", "each")
    return f"{how_many} parked ({'; '.join(named)}): {whose} number stands just once"
