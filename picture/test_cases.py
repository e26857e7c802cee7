"""The pin lists and board files that pictures are tested on, and what has to be marked in those of the refused ones."""
import random
import sys
from pathlib import Path

sys.dont_write_bytecode = True
sys.path.insert(0, str(Path(__file__).resolve().parent.parent / "reference"))
import channel  # noqa: E402  (the independent program; its folder is on the path only now)
from text_cases import in_columns  # noqa: E402

A = b"TOP 0 1 2 3\nBOT 1 2 0 3\n"
B = b"TOP 0 1 6 1 2 3 5\nBOT 6 3 5 4 0 2 4\n"
D = b"TOP 1 2 3 1\nBOT 2 3 2 0\n"
OPPOSITE = b"TOP 1 1 3\nBOT 2 0 0\n"  # nets 2 and 3 are parked, 2 opposite a pin of net 1
# a good board of the tangled D, whose net 2 has two trunks joined in column 4
SPLIT = [(0, 4, 1, 4), (1, 1, 4, 5), (2, 1, 4, 4), (1, 4, 4, 5), (2, 4, 4, 4), (0, 3, 2, 4), (0, 1, 1, 4), (1, 4, 1, 3),
         (2, 4, 3, 3), (2, 4, 1, 1), (1, 1, 0, 1), (2, 1, 1, 1), (1, 2, 3, 5), (2, 2, 3, 3), (1, 3, 0, 1), (2, 3, 1, 1),
         (0, 2, 2, 3), (1, 2, 0, 2), (2, 2, 2, 2), (1, 3, 2, 5), (2, 3, 2, 2)]


def text_of(top, bot):
    return f"TOP {' '.join(map(str, top))}\nBOT {' '.join(map(str, bot))}\n".encode()


def random_channel(width, nets, seed):
    """No ring can arise: in every column the TOP net comes before the BOT net in one hidden order."""
    draw = random.Random(seed)
    order = draw.sample(range(1, nets + 1), nets)
    columns = [sorted(draw.choices(range(nets), k=2)) for _ in range(width)]
    top, bot = ([order[pair[i]] if draw.random() < 0.8 else 0 for pair in columns] for i in (0, 1))
    return text_of(top, bot)


def staircase(nets):
    """512 columns with each net above the next: as many tracks as nets."""
    top = [c if c <= nets else 0 for c in range(1, 512)] + [1]
    return text_of(top, [c + 1 if c < nets else 0 for c in range(1, 513)])


def turned(width, by):
    """One ring through all columns."""
    nets = list(range(1, width + 1))
    return text_of(nets, nets[by:] + nets[:by])


def shortcut(nets, upper, lower):
    """One ring through all nets, and a column more that cuts it short."""
    top, bot = list(range(1, nets + 1)), list(range(2, nets + 1)) + [1]
    return text_of(top + [upper], bot + [lower])


GOOD = {"A": A, "B": B, "E": b"TOP 1 0 1 2 0 2\nBOT 0 3 0 0 3 0\n", "F": b"TOP 0\nBOT 0\n", "G": b"TOP 5\nBOT 5\n",
        "M, net 511": b"TOP 511\nBOT 511\n", "M, 512 columns": text_of([0] * 512, [0] * 512),
        "64 columns": random_channel(64, 30, 1), "512 columns": random_channel(512, 511, 2),
        "401 tracks": staircase(401), "L": b"TOP 1 0\nBOT 0 0\n", "parked, opposite a net": OPPOSITE,
        "all parked": text_of(range(1, 201), range(201, 401))}
RINGS = {"C": b"TOP 1 2\nBOT 2 1\n", "D": D, "40 columns": turned(40, 7), "511 columns": turned(511, 1),
         "parked": b"TOP 1 2 3 1 0 8\nBOT 2 3 2 9 41 0\n", "cut short": shortcut(4, 2, 1),
         "apart": b"TOP 2 5 3 1 4\nBOT 4 3 1 5 2\n", "as many nets": b"TOP 5 5 1 3\nBOT 3 1 5 5\n",
         "begun at another net": b"TOP 1 1 5 3\nBOT 5 0 3 5\n", "41 columns, cut short": shortcut(40, 13, 7),
         "512 columns, cut short": shortcut(511, 300, 290),
         "parked and cut short": b"TOP 1 2 3 4 2 9\nBOT 2 3 4 1 1 0\n"}
REFUSED_ROWS = {  # text, columns drawn, marked points
    "M, net 512": (b"TOP 512\nBOT 512\n", 1, {(1, 1)}),
    "M, 513 columns": (text_of([0] * 513, [0] * 513), 513, {(513, 1), (513, 0)}),
    "far too wide": (text_of([1] * 20000, [1]), 516, {(513, 1)}), "uneven": (b"TOP 1 2 3\nBOT 1\n", 3, {(2, 0)}),
    "5,000 digits": (text_of([1, 1, 0], [0, 0, "9" * 5000]), 3, {(3, 0)})}
REFUSED_TEXTS = {  # text, marked cell, cells, what is said of the byte
    "K": (b"TOP 01", 5, list("TOP·01"), "Offset 5 is byte 6 of line 1; it is '1'."),
    "escaped": (b"TOP 1\nBOT <&\"\0\xff\n", 4, list("BOT·<&\"") + ["00", "FF", "LF"], "it is '<'."),
    "no ASCII": (b"TOP 1\xff\n", 5, list("TOP·1") + ["FF", "LF"], "it is the byte FF (hexadecimal)."),
    "empty": (b"", 0, ["end"], "the text ends before it."),
    "cut off": (b"TOP 1\nBOT 1", 5, list("BOT·1") + ["end"], "byte 6 of line 2; the text ends before it."),
    "a space at the end": (b"TOP   1 \r\nBOT 1\r\n", 8, list("TOP···1·") + ["CR", "LF"], "it is a carriage return."),
    "no line feed": (b"TOP 1\rBOT 1\r", 6, [*"TOP·1", "CR", *"BOT·1", "CR"], "it is 'B'."),
    "cut behind a carriage return": (b"TOP 1\r\nBOT  1\r", 7, list("BOT··1") + ["CR", "end"],
                                     "Offset 14 is byte 8 of line 2; the text ends before it."),
    "a tab": (b"TOP 1\t2\nBOT 1 2\n", 5, [*"TOP·1", "TAB", "2", "LF"], "it is a tab."),
    "a long run of spaces": (b"TOP" + b" " * 100 + b"\nBOT 1\n", 24, ["·"] * 24 + ["LF"], "it is a line feed."),
    "too long": (b"TOP" + b" 1" * 40000, 24, list("1·" * 18 + "1"), "it is '1'.")}
REFUSED_BOARDS = {  # file, words
    "torn": (b"abc", "REFUSED 8 4: torn"), "bad header": (channel.encode(513, 1, []), "REFUSED 9 0: bad field"),
    "bad piece": (channel.encode(4, 2, [(0, 1, 1, 2), (1, 2, 0, 9)]), "branch, column 2, rows 0 to 9"),
    "wrong board": (channel.encode(5, 2, []), "REFUSED 10 5: wrong board"),
    "long board": (bytes(65537), "REFUSED 0 65536")}
SECOND = {  # the run that is drawn with a line before a column, and that column
    "A": 3, "B": 7, "512 columns": 257, "M, 512 columns": 512, "401 tracks": 2, "parked, opposite a net": 2, "H": 4,
    "J": 2, "taller": 3, "split": 3, "ring D": 3, "ring 511 columns": 2, "ring cut short": 5, "torn": 2,
    "wrong board": 4, "M, 513 columns": 512, "far too wide": 100, "uneven": 3, "5,000 digits": 2}
NO_COLUMNS = ("K", "empty", "too long")  # texts of which no column is drawn, so that the option changes nothing


# Runs whose pin list is padded too; it has the same picture.
PADDED = ("A", "512 columns", "parked, opposite a net", "ring D", "ring parked", "ring cut short", "M, 513 columns",
          "uneven", "5,000 digits", "H", "I", "J", "bad piece", "short to a parked pin")


def faulty():
    """Board files of A with the scope's three faults."""
    width, tracks, pieces = channel.open_board(channel.board(A))

    def file(changed):
        return channel.encode(width, tracks, changed)
    return {"H": file(pieces[:7] + pieces[8:]), "I": file(pieces[:3] + [(1, 2, 1, 3)] + pieces[4:]),
            "J": file(pieces + [(0, 2, 3, 4)])}


def taller():
    """A's board with three tracks more than the router fills."""
    width, tracks, pieces = channel.open_board(channel.board(A))
    above = tracks + 1
    longer = [(kind, line, a, b + 3 if kind == 1 and b == above else b) for kind, line, a, b in pieces]
    return channel.encode(width, tracks + 3, longer)


def to_parked():
    """Boards of OPPOSITE with one branch more: from the parked pin of net 3 down; from net 1's to that of net 2."""
    width, tracks, pieces = channel.open_board(channel.board(OPPOSITE))
    return {"copper at a parked pin": channel.encode(width, tracks, pieces + [(1, 3, 1, 2)]),
            "short to a parked pin": channel.encode(width, tracks, pieces + [(1, 1, 0, 1)])}


def runs():
    """The faulty files; and for the name of each run its pin list, board file if any, standard input if any, and the
    column of --second if any."""
    files = faulty()
    table = {name: (pins,) for name, pins in (*GOOD.items(), *((f"ring {n}", p) for n, p in RINGS.items()))}
    table.update({name: (A, file) for name, file in files.items()})
    table.update({name: (case[0],) for name, case in (*REFUSED_ROWS.items(), *REFUSED_TEXTS.items())})
    table.update({name: (A, case[0]) for name, case in REFUSED_BOARDS.items()})
    table["A again"] = (A, channel.board(A))
    table["taller"] = (A, taller())
    table.update({name: (OPPOSITE, file) for name, file in to_parked().items()})
    table.update({f"{name}, padded": (in_columns(table[name][0]), *table[name][1:]) for name in PADDED})
    table["split"] = (D, channel.encode(4, 4, SPLIT))
    table["standard input"] = (b"", None, B)
    table.update({f"{name}, second": ((*table[name], None)[:2] + (None, column))
                  for name, column in (*SECOND.items(), *((text, 2) for text in NO_COLUMNS))})
    return files, table
