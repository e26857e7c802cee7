"""Which copper of a board is joined (SCOPE, "Wiring rule"), to name both ends of a short that the judge has found."""
from bisect import bisect_right


class Runs:
    """Pieces of one kind on one line, a track's trunks or a column's branches: those that overlap are one run."""

    def __init__(self, spans):
        self.starts, self.ends = [], []
        for start, end in sorted(spans):
            if self.ends and start <= self.ends[-1]:
                self.ends[-1] = max(end, self.ends[-1])
            else:
                self.starts.append(start)
                self.ends.append(end)

    def holding(self, at):
        """The number of the run that covers a point of the line, or None."""
        found = bisect_right(self.starts, at) - 1
        return found if found >= 0 and at <= self.ends[found] else None


def runs_of(board, kind):
    """The runs of a kind by line."""
    lines = {}
    for piece in board.pieces:
        if piece.kind == kind:
            lines.setdefault(piece.line, []).append((piece.start, piece.end))
    return {line: Runs(spans) for line, spans in lines.items()}


class Copper:
    """Runs of a board's trunks and branches, joined by its contacts."""

    def __init__(self, board):
        self.tracks = board.tracks
        self.runs = {kind: runs_of(board, kind) for kind in ("trunk", "branch")}
        self.parent = {}
        for piece in board.pieces:
            if piece.kind == "contact":
                column, track = piece.line, piece.start
                ends = self.run_at("trunk", track, column), self.run_at("branch", column, track)
                if None not in ends:
                    self.join(*ends)

    def run_at(self, kind, line, at):
        """The run of a kind that covers a point, or None."""
        runs = self.runs[kind].get(line)
        number = runs.holding(at) if runs else None
        return None if number is None else (kind, line, number)

    def join(self, one, two):
        """Two runs become one copper; those that are one already stay so, or `root` would go round."""
        one, two = self.root(one), self.root(two)
        if one != two:
            self.parent[one] = two

    def root(self, run):
        """The run that stands for all that are joined to this one."""
        while run in self.parent:
            run = self.parent[run]
        return run

    def at_pin(self, side, column):
        """The copper at a pin, or None where no branch reaches it."""
        run = self.run_at("branch", column, 0 if side == "BOT" else self.tracks + 1)
        return None if run is None else self.root(run)
