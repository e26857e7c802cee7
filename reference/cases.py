"""Makes what the cases program reads and what it must write: `python3 reference/cases.py crates/cases`.

A case is a byte for the kind of question, two bytes for a length, most significant first, and so many bytes. The
answers come from the program in channel.py, which shares nothing with the proved code.
"""
import sys
from pathlib import Path

import board_cases
import channel
import crowded_boards
import draft_lists
import drafts
import panel_lists
import ring_channels
import row_cases
import table_cases
import text_cases

OPEN, PIECE, BLANK, READ, CHECK, BOUNDS, FILL, JUDGE, LOOKS, OWN_BLANK, FEWEST, JOIN, DRAFT = range(13)


def pair(number):
    return number.to_bytes(2, "big")


def rows_data(top, bot):
    """Two rows: the length of TOP, then all numbers, two bytes each."""
    return pair(len(top)) + b"".join(map(pair, top)) + b"".join(map(pair, bot))


class Cases:
    """The input so far, and the lines due."""

    MARK = 7777  # what each word of a draft holds before its calls
    ROOM = drafts.WORDS + 8  # the most words of a draft

    def __init__(self):
        self.input, self.lines, self.count = bytearray(), [], 0

    def add(self, kind, data, *lines):
        assert len(data) < 65536
        self.input += bytes([kind]) + pair(len(data)) + data
        self.lines += [" ".join(map(str, line)) for line in lines]
        self.count += 1

    def told(self, name, ask, *args):
        """The line of an answer: 0 and the values, or the number of a refusal and its place."""
        try:
            return (name, 0, *ask(*args))
        except channel.Refused as refusal:
            return (name, refusal.number, refusal.place)

    def open(self, file):
        def ask():
            width, tracks, pieces = channel.open_board(file)
            return width, tracks, len(pieces)

        self.add(OPEN, file, self.told("OPEN", ask))

    def piece(self, number, file):
        self.add(PIECE, pair(number) + file, self.told("PIECE", channel.read_piece, file, number))

    def blank(self, tracks):
        self.add(BLANK, pair(tracks), self.told("BLANK", lambda: (channel.blank(tracks),)))

    def own_blank(self, table, tracks):
        """A customer's own table, asked for each number of a row of tracks; both travel as rows."""
        lines = [self.told("OWN", lambda t=t: (channel.own_blank(table, t),)) for t in tracks]
        self.add(OWN_BLANK, rows_data(table, tracks), *lines)

    def read(self, text):
        """Read into rows that hold 7777 everywhere: what is not filled must still hold it."""
        try:
            top, bot = channel.parse(text)
            channel.check(top, bot)
            lines = [("READ", 0, len(top)), ("TOP", *top), ("BOT", *bot)]
        except channel.Refused as refusal:
            lines = [("READ", refusal.number, refusal.place)]
        self.add(READ, text, *lines, ("KEPT",))

    def check(self, top, bot):
        def ask():
            channel.check(top, bot)
            return ()

        self.add(CHECK, rows_data(top, bot), self.told("CHECK", ask))

    def bounds(self, top, bot):
        self.add(BOUNDS, rows_data(top, bot), self.told("BOUNDS", lambda: channel.bounds(top, bot)))

    def fill(self, top, bot):
        """The track of each net that is not parked, by rising number, or the ring; the rest of the ring buffer, which
        holds 7777, must still hold it; and the looks, 0 where the rows are refused before the fill."""
        looks = 0
        try:
            looks = channel.looks(top, bot)
            tracks, track_of = channel.fill(top, bot)
            nets = sorted(channel.columns_of(top, bot))
            lines = [("FILL", 0, tracks), ("TRACKS", *(track_of.get(n, 0) for n in nets))]
        except channel.Refused as refusal:
            lines = [("FILL", refusal.number, refusal.place)]
            if refusal.number == 7:
                lines.append(("RING", *(x for step in refusal.ring for x in step)))
        self.add(FILL, rows_data(top, bot), *lines, ("KEPT",), ("LOOKS", looks))

    def looks(self, top, bot):
        """The looks told of rows alone, and their ceiling."""
        self.add(LOOKS, rows_data(top, bot), self.told("LOOKS", lambda: (channel.looks(top, bot),)),
                 self.told("CEILING", lambda: (channel.ceiling(top, bot),)))

    def fewest(self, top, bot):
        """The ring with the fewest nets; what it does not fill of the ring buffer, which holds 7777, must still hold
        it."""
        pairs = ()
        try:
            pairs = channel.fewest_ring(top, bot)
            lines = [("FEWEST", 0, len(pairs) or "NONE")]
        except channel.Refused as refusal:
            lines = [("FEWEST", refusal.number, refusal.place)]
        if pairs:
            lines.append(("RING", *(n for pair in pairs for n in pair)))
        self.add(FEWEST, rows_data(top, bot), *lines, ("KEPT",))

    def join(self, first, second):
        """Two lists on one panel, joined into rows that hold 7777 everywhere: what is not filled must still hold it."""
        try:
            top, bot = channel.join(first, second)
            lines = [("JOIN", 0, len(top)), ("TOP", *top), ("BOT", *bot)]
        except channel.Refused as refusal:
            lines = [("JOIN", refusal.number, refusal.place)]
        data = rows_data(*first)
        self.add(JOIN, pair(len(data)) + data + rows_data(*second), *lines, ("KEPT",))

    def draft(self, calls, words=drafts.WORDS):
        """A draft, lent so many of 4,104 words that each hold 7777: their number in two bytes; then the calls, each of
        four numbers: 0 clear, 1 arrive, 2 leave, 3 count, 4 greatest; the net number or column; the first and the last
        column; 0 for what a call is not given. Each call has a line. Then come those of the first 4,096 words that are
        not 0, each behind its place from 0; all other words must still hold 7777, and all do if fewer are lent."""
        model = drafts.Marks([self.MARK] * words)
        lines = [(name.upper(), *self.called(model, name, *given)) for name, *given in calls]
        held = {} if words < drafts.WORDS else drafts.bits_of(
            (c, n) for c, numbers in enumerate(model.columns, 1) for n in numbers)
        data = b"".join(pair(n) for name, *given in calls
                        for n in (drafts.CALLS.index(name), *given, *(0,) * (3 - len(given))))
        self.add(DRAFT, pair(words) + data, *lines, ("WORDS", *(n for word in sorted(held.items()) for n in word)),
                 ("KEPT",))

    @staticmethod
    def called(model, name, *given):
        """What the line of a call tells: 0, of an ask with the value; or the number of a refusal and its place."""
        answer, _ = drafts.answer_of(model, (name, *given))
        return answer if answer[0] or name in ("count", "greatest") else answer[:1]

    def channel_cases(self, top, bot):
        self.bounds(top, bot)
        self.fill(top, bot)
        self.looks(top, bot)
        self.fewest(top, bot)

    def judge(self, top, bot, file):
        self.add(JUDGE, pair(2 + 2 * (len(top) + len(bot))) + rows_data(top, bot) + file,
                 self.told("JUDGE", lambda: (channel.judge(top, bot, file),)))


def main(folder):
    cases = Cases()
    board_cases.add_all(cases)
    text_cases.add_all(cases)
    row_cases.add_all(cases)
    crowded_boards.add_all(cases)
    table_cases.add_all(cases)
    ring_channels.add_all(cases)
    panel_lists.add_all(cases)
    draft_lists.add_all(cases)
    cases.input += bytes([OPEN]) + pair(5) + bytes(4)  # five bytes are announced, and four follow
    cases.lines.append("CUT")
    folder.joinpath("stdin").write_bytes(bytes(cases.input))
    folder.joinpath("stdout").write_text("\n".join(cases.lines) + "\n")
    print(f"{cases.count} cases and a cut one, {len(cases.input)} bytes")


if __name__ == "__main__":
    main(Path(sys.argv[1]))
