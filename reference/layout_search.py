"""Searches a small channel for a good layout with at most one trunk a net. The search knows pieces, touching and
joining; it knows nothing of constraints, rings or a fill.

Which layouts are searched. Take any good layout with at most one trunk a net. Each step below gives another such layout
of the same channel, so if there is one at all, there is one among those searched.

1. Every piece belongs to one net, since it is joined to some pin, and to pins of one net only. The pieces of a parked
   net, one with just one pin, can go: no other piece and no other pin is joined to them, and its pin is joined to
   itself without them. The other pieces cover no parked pin, which would be joined to another net's.
2. Branches that share a point touch. One branch over all their points touches just what they touched, so each such
   heap can be one branch: the branches of a column are disjoint.
3. A contact where no trunk or no branch lies links only pieces that share its point and touch anyway; it can go, and
   so can all but one of the contacts on a point. The others lie where the trunk and a branch of one net cross.
4. A branch that covers no pin can go. It touches contacts alone, and these lie on its net's one trunk; that has one
   point in the branch's column, so there is one such contact. Nothing is joined through what hangs on one contact.
5. The trunk of a net whose two pins stand in one column can go. It has one point in that column, so copper of other
   columns is joined to the pins through this point only. Pins joined to the trunk have branches over this point,
   which are one branch by 2; so one branch covers both pins, and they need no trunk.
6. A net with pins in several columns has its trunk, since only trunks lead to another column, and all its pins are
   joined to it. A pin's branch is joined to the trunk in the pin's own column: the branch covers the trunk's track,
   and the trunk covers the column. A contact is there, and may be, both being of one net.
7. A track without a trunk can go. Trim each branch to its pins and their goal, which is the trunk's track, or the
   other edge for a net of one column. Then no piece ends on that track; with the rows above it moved down by one,
   each piece is still a piece and touches what it touched. So as many tracks as trunks are enough.

What is searched is then: for each net with pins in several columns every trunk (its track and columns), no two trunks
touching; and for each column every set of disjoint branches. A pin asks for a branch that covers it and its goal; a
parked pin is at its goal and asks for none. No branch may cover pins of two nets, and a parked pin is one of them.
Whoever uses a layout found here has it judged; that none is missed is tried again on the smallest grids in
piece_sets.py.
"""
import functools

import channel

TRUNK, BRANCH, CONTACT = range(3)


@functools.lru_cache(None)
def branch_sets(low, high):
    """Every set of disjoint branches within rows low to high."""
    if low >= high:
        return [()]
    sets = list(branch_sets(low + 1, high))
    for end in range(low + 1, high + 1):
        sets += [((low, end), *rest) for rest in branch_sets(end + 1, high)]
    return sets


@functools.lru_cache(None)
def column_branches(tracks, top, bot, top_goal, bot_goal):
    """Branches of a column that serve its pins, or None. A goal is a row, the pin's own if it needs no branch, or None
    if there is none in this column."""
    pins = [(row, goal) for row, net, goal in ((tracks + 1, top, top_goal), (0, bot, bot_goal)) if net]
    for branches in branch_sets(0, tracks + 1):
        over = [[(a, b) for a, b in branches if a <= row <= b] for row, _ in pins]
        served = all(goal == row or bs and goal is not None and bs[0][0] <= goal <= bs[0][1]
                     for bs, (row, goal) in zip(over, pins))
        if served and not (top and bot and top != bot and over[0] and over[0] == over[1]):
            return sorted({branch for bs in over for branch in bs})
    return None


def every_trunk(width, tracks):
    return [(TRUNK, r, a, b) for r in range(1, tracks + 1) for a in range(1, width) for b in range(a + 1, width + 1)]


class Search:
    """The search on one channel and number of tracks."""

    def __init__(self, top, bot, tracks):
        self.top, self.bot, self.tracks = top, bot, tracks
        self.columns = {}  # of each pin of a net
        for column, pair in enumerate(zip(top, bot), 1):
            for net in filter(None, pair):
                self.columns.setdefault(net, []).append(column)
        self.spanning = [net for net, columns in sorted(self.columns.items()) if len(set(columns)) > 1]
        self.points = {trunk: frozenset(channel.points_of(trunk)) for trunk in every_trunk(len(top), tracks)}
        # a trunk that can't serve its net even if no other net had pins can't do so beside them
        self.choices = {net: [t for t in self.points if self.serves(net, {net: t})] for net in self.spanning}

    def goal(self, net, column, row, trunks):
        """The row that a pin in this row must reach, or None."""
        if len(self.columns[net]) == 1:
            return row
        if net not in self.spanning:
            return self.tracks + 1 - row
        _, track, a, b = trunks[net]
        return track if a <= column <= b else None

    def branches(self, column, trunks):
        """Branches that serve a column; nets that should have a trunk, and have none yet, are left aside."""
        pins = (self.tracks + 1, self.top[column - 1]), (0, self.bot[column - 1])
        nets = [net if net in trunks or net not in self.spanning else 0 for _, net in pins]
        goals = [self.goal(net, column, row, trunks) if net else None for net, (row, _) in zip(nets, pins)]
        return column_branches(self.tracks, *nets, *goals)

    def serves(self, net, trunks):
        return all(self.branches(column, trunks) is not None for column in set(self.columns[net]))

    def trunks(self, chosen):
        """Trunks for all nets, beginning with those chosen, that their columns can be served with; or None."""
        if len(chosen) == len(self.spanning):
            return chosen
        net = self.spanning[len(chosen)]
        for trunk in self.choices[net]:
            apart = all(self.points[trunk].isdisjoint(self.points[other]) for other in chosen.values())
            longer = {**chosen, net: trunk}
            found = self.trunks(longer) if apart and self.serves(net, longer) else None
            if found is not None:
                return found
        return None

    def layout(self):
        """A good layout's pieces, or None."""
        trunks = self.trunks({})
        if trunks is None:
            return None
        pieces = list(trunks.values())
        for column, pair in enumerate(zip(self.top, self.bot), 1):
            branches = self.branches(column, trunks)
            if branches is None:
                return None
            pieces += [(BRANCH, column, a, b) for a, b in branches]
            pieces += [(CONTACT, column, trunks[net][1], trunks[net][1]) for net in set(pair) & set(trunks)]
        return pieces


def fewest(rows):
    """The fewest tracks of a good layout with at most one trunk a net, and its pieces; or None."""
    top, bot = map(list, rows)
    most = len(Search(top, bot, 0).spanning)
    for tracks in range(most + 1):
        pieces = Search(top, bot, tracks).layout()
        if pieces is not None:
            return tracks, pieces
    return None
