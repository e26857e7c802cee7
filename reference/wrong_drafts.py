"""Programs that get a draft (Req 14) wrong, each by one slip: draft_checks.py has to find each."""
from types import SimpleNamespace
from unittest import mock

import drafts
from channel import Refused

ARRIVE, LEAVE = ("short", "bad", "here"), ("short", "bad", "gone")  # in which order the refusals are looked for


def trimmed(spans, number):
    """The nets where one that leaves keeps all columns but its last."""
    first, last = spans[number]
    return {**spans, number: (first, last - 1)} if first < last else without(spans, number)


def without(spans, number):
    return {net: span for net, span in spans.items() if net != number}


SLIPS = {  # what is wrong, and what of `Draft` below is then other
    "a net that is here arrives again": {"arrive_order": ("short", "bad")},
    "22 before 21": {"arrive_order": ("short", "here", "bad")},
    "21 before 1": {"arrive_order": ("bad", "short", "here")},
    "22 before 1": {"arrive_order": ("here", "short", "bad")},
    "arrivals without 1": {"arrive_order": ("bad", "here")},
    "a net that is not here leaves": {"leave_order": ("short", "bad")},
    "23 before 21": {"leave_order": ("short", "gone", "bad")},
    "23 before 1": {"leave_order": ("gone", "short", "bad")},
    "a leaving number is not checked": {"leave_order": ("short", "gone")},
    "a net is here only where it would come": {
        "here": lambda spans, net, first, last: net in spans and spans[net][0] <= last and first <= spans[net][1]},
    "first and last column may be the same": {"rises": lambda first, last: first <= last},
    "the last may be below the first": {"rises": lambda first, last: True},
    "columns from 0 on are taken": {"lowest": 0},
    "columns up to 513 are taken": {"highest": 513},
    "column 512 is not": {"highest": 511},
    "number 0 is taken": {"least": 0},
    "number 512 is taken": {"most": 512},
    "number 511 is not": {"most": 510},
    "any high number is taken": {"most": 2**32},
    "the place of 21 is 0": {"place": lambda number: 0},
    "the place of 21 has 16 bits": {"place": lambda number: number % 2**16},
    "the place of 1 is the words lent": {"told": lambda words: words},
    "4,095 words are enough": {"room": 4095},
    "4,097 words are needed": {"room": 4097},
    "asks have no 1": {"asks_checked": False},
    "a refused net stays away": {"refused_leaves": True},
    "a net leaves but for a column": {"gone": trimmed},
    "all nets leave": {"gone": lambda spans, number: {}},
    "no net leaves": {"gone": lambda spans, number: spans},
    "clear does nothing": {"cleared": lambda spans: spans},
    "clear leaves net 511": {"cleared": lambda spans: {net: span for net, span in spans.items() if net == 511}},
    "the last column does not count": {"over": lambda first, last, column: first <= column < last},
    "the first does not": {"over": lambda first, last, column: first < column <= last},
    "only the ends count": {"over": lambda first, last, column: column in (first, last)},
    "a column that is none counts as the nearest": {"asked": lambda column: min(max(column, 1), 512)},
    "columns are asked for by 16 bits": {"asked": lambda column: column % 2**16},
    "counts have eight bits": {"counted": lambda count: count % 256},
    "the greatest forgets two columns": {"columns": range(1, 511)},
    "the greatest is the number of nets": {"greatest": len},
}


RULES = {  # what is so where nothing is other
    "arrive_order": ARRIVE, "leave_order": LEAVE, "room": 4096, "told": lambda words: 4096, "least": 1, "most": 511,
    "lowest": 1, "highest": 512, "rises": lambda first, last: first < last,
    "here": lambda spans, net, first, last: net in spans, "place": lambda number: number, "asks_checked": True,
    "refused_leaves": False, "gone": without, "cleared": lambda spans: {}, "asked": lambda column: column,
    "over": lambda first, last, column: first <= column <= last, "counted": lambda count: count,
    "columns": range(1, 513), "greatest": None,
}


class Draft:
    """A draft by asking for each refusal in turn and for each column, as it should be where nothing is other."""

    def __init__(self, words, **slip):
        self.words, self.spans, self.rule = words, {}, SimpleNamespace(**{**RULES, **slip})

    def refuse(self, order, number=1, first=1, last=2):
        """Raises the first refusal that holds."""
        rule = self.rule
        good = rule.least <= number <= rule.most and rule.rises(first, last) and (
            rule.lowest <= min(first, last) and max(first, last) <= rule.highest)
        refusals = {
            "short": (self.words < rule.room, 1, rule.told(self.words)),
            "bad": (not good, 21, rule.place(number)),
            "here": (rule.here(self.spans, number, first, last), 22, number),
            "gone": (number not in self.spans, 23, number),
        }
        for step in order:
            holds, refusal, place = refusals[step]
            if holds:
                self.spans = without(self.spans, number) if rule.refused_leaves else self.spans
                raise Refused(refusal, place)

    def become(self, spans):
        """Other nets are here: the value, and the marks that came or went."""
        before, after = (set(some.items()) for some in (self.spans, spans))
        self.spans = spans
        return 0, [(column, net) for net, (first, last) in before ^ after for column in range(first, last + 1)]

    def clear(self):
        self.refuse(("short",))
        return self.become(self.rule.cleared(self.spans))

    def arrive(self, number, first, last):
        self.refuse(self.rule.arrive_order, number, first, last)
        return self.become({**self.spans, number: (first, last)})

    def leave(self, number):
        self.refuse(self.rule.leave_order, number)
        return self.become(self.rule.gone(self.spans, number) if number in self.spans else self.spans)

    def nets_over(self, column):
        return self.rule.counted(sum(self.rule.over(first, last, column) for first, last in self.spans.values()))

    def count(self, column):
        self.refuse(("short",) if self.rule.asks_checked else ())
        return self.nets_over(self.rule.asked(column)), []

    def greatest(self):
        self.refuse(("short",) if self.rule.asks_checked else ())
        return self.rule.greatest(self.spans) if self.rule.greatest else max(map(self.nets_over, self.rule.columns)), []


def program(**slip):
    """Puts the draft with a slip, or with none, in place of the one of drafts.py."""
    return mock.patch.object(drafts, "Draft", lambda words=drafts.WORDS: Draft(words, **slip))
