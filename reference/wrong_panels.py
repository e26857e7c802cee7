"""Programs that get two lists on one panel (Req 09) wrong, each by one slip: panel_checks.py has to find each."""
from unittest import mock

import channel
from small_channels import parked_in

ORDER = "short", "first", "second", "wide", "full"  # in which the refusals are looked for


def nets_of(rows):
    return {*rows[0], *rows[1]} - {0}


SLIPS = {  # what is wrong, and what of `join` below is then other
    "numbers are raised by the count of nets": {"by": lambda first: len(nets_of(first))},
    "numbers are raised by the count of columns": {"by": lambda first: len(first[0])},
    "numbers are raised by the highest of TOP": {"by": lambda first: max(first[0], default=0)},
    "numbers are raised by the highest that is not parked": {
        "by": lambda first: max(nets_of(first) - parked_in(*first), default=0)},
    "numbers are not raised": {"by": lambda first: 0},
    "0 is raised": {"raised": lambda net, by: net + by},
    "parked numbers are not raised": {"whole": False},
    "the second list's columns come first": {"laid": lambda first, second: [*second, *first]},
    "its columns come in turn": {"laid": lambda first, second: [n for pair in zip(first, second) for n in pair]
                                 if len(first) == len(second) else [*first, *second]},
    "the second list is checked first": {"order": ("short", "second", "first", "wide", "full")},
    "the second list is not checked": {"order": ("short", "first", "wide", "full")},
    "the first list is checked after the panel": {"order": ("short", "second", "wide", "full", "first")},
    "refusal 1 comes after the lists": {"order": ("first", "second", "short", "wide", "full")},
    "refusal 1 comes last": {"order": ("first", "second", "wide", "full", "short")},
    "columns are checked after 18": {"order": ("short", "first", "second", "full", "wide")},
    "columns are checked before the second list": {"order": ("short", "first", "wide", "second", "full")},
    "18 comes before the second list": {"order": ("short", "first", "full", "second", "wide")},
    "a tangled list is refused": {"order": (*ORDER, "tangled")},
    "the place of 18 is the first met": {"place": lambda over: over[0]},
    "the place of 18 is the last met": {"place": lambda over: over[-1]},
    "the place of 18 is the highest": {"place": max},
    "the place of 18 is the number before it is raised": {"place": lambda over: min(over) - 511},
    "a raised number of 511 is refused": {"most": 510},
    "a raised number of 512 passes": {"most": 512},
    "512 columns are refused": {"widest": 511},
    "513 columns pass": {"widest": 513},
    "511 numbers are enough": {"room": 511},
    "513 numbers are needed": {"room": 513},
}


def join(first, second, top, bot, order=ORDER, room=512, widest=512, most=511, place=min, whole=True,
         by=lambda first: max([*first[0], *first[1]], default=0), raised=lambda net, by: net + by if net else 0,
         laid=lambda first, second: [*first, *second]):
    """The joined rows by asking for each refusal in turn, as it should be where nothing is other."""
    kept = set() if whole else parked_in(*second)
    more = [[net if net in kept else raised(net, by(first)) for net in row] for row in second]
    over = [net for row in more for net in row if net > most]
    refusals = {
        "short": (min(top, bot) < room, 1, 512),
        "wide": (len(first[0]) + len(second[0]) > widest, 3, 513),
        "full": (bool(over), 18, place(over) if over else 0),
    }
    for step in order:
        if step in refusals:
            holds, number, value = refusals[step]
            if holds:
                raise channel.Refused(number, value)
        elif step == "tangled":
            channel.fill(*first)
            channel.fill(*second)
        else:
            channel.check(*(first if step == "first" else second))
    return tuple(laid(old, new) for old, new in zip(first, more))


def program(**slip):
    """Puts the join with a slip, or with none, in place of the one of channel.py."""
    return mock.patch.object(channel, "join", lambda first, second, top=512, bot=512: join(first, second, top, bot,
                                                                                             **slip))
