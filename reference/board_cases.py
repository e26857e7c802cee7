"""Board files, piece numbers and blanks for the cases program: each refusal 8 and 9 and its neighbour that passes."""
import channel

TRUNK, BRANCH, CONTACT, NO_KIND = range(4)


def board(width, tracks, *pieces, count=None, spare=0):
    """A board file with a count and a spare bit of any kind."""
    head = channel.bits([(width, 10), (tracks, 9), (len(pieces) if count is None else count, 12), (spare, 1)])
    return head + b"".join(channel.bits([(kind, 2), (line, 10), (a, 10), (b, 10)]) for kind, line, a, b in pieces)


# Example A of the scope: the pieces of its three nets, in the order of drawing.
EXAMPLE_A = [
    (TRUNK, 2, 1, 2), (BRANCH, 1, 0, 2), (CONTACT, 1, 2, 2), (BRANCH, 2, 2, 3), (CONTACT, 2, 2, 2),
    (TRUNK, 1, 2, 3), (BRANCH, 2, 0, 1), (CONTACT, 2, 1, 1), (BRANCH, 3, 1, 3), (CONTACT, 3, 1, 1),
    (BRANCH, 4, 0, 3),
]  # fmt: skip


def lengths(cases):
    whole = board(6, 3, (TRUNK, 1, 2, 3), (BRANCH, 6, 0, 4))
    for size in range(4):  # below 4 bytes: length due 4
        cases.open(whole[:size])
    cases.open(board(1, 0))  # 4 bytes, and no piece
    cases.open(board(1, 0) + b"\0")
    for size in range(4, len(whole) + 6):  # each length about the one that is due
        cases.open((whole + bytes(8))[:size])
    for count in (0, 1, 2, 3, 4094, 4095):  # the count off by one, and far off
        cases.open(board(6, 3, (TRUNK, 1, 2, 3), (BRANCH, 6, 0, 4), count=count))
    cases.open(b"\0\0\0\0")
    cases.open(b"\xff\xff\xff\xff")
    cases.open(board(0, 3, count=1))  # a wrong length goes before a wrong field
    cases.open(board(6, 3, count=1, spare=1))


def headers(cases):
    for width in (0, 1, 2, 511, 512, 513, 1023):
        cases.open(board(width, 3))
    for tracks in (0, 1, 510, 511):
        cases.open(board(9, tracks))
    cases.open(board(9, 3, spare=1))
    bad = (NO_KIND, 1, 1, 2)
    cases.open(board(9, 3, bad, spare=1))  # the header goes before the pieces
    cases.open(board(513, 3, bad))
    cases.open(board(0, 3, bad))


def ranges(cases):
    """Each field of each kind at its limits and one beyond, on boards of several sizes."""
    for width, tracks in ((10, 5), (1, 1), (2, 0), (512, 511), (1, 511), (512, 1)):
        across = sorted({0, 1, 2, width - 1, width, width + 1, 1023} - {-1})
        along = sorted({0, 1, 2, tracks - 1, tracks, tracks + 1, tracks + 2, 1023} - {-1})
        pieces = []
        pieces += [(TRUNK, line, 1, 2) for line in along]
        pieces += [(TRUNK, 1, low, width) for low in across] + [(TRUNK, 1, 1, high) for high in across]
        pieces += [(BRANCH, line, 0, 1) for line in across]
        pieces += [(BRANCH, 1, low, tracks + 1) for low in along] + [(BRANCH, 1, 0, high) for high in along]
        pieces += [(CONTACT, line, 1, 1) for line in across] + [(CONTACT, 1, track, track) for track in along]
        pieces += [(CONTACT, 1, 1, 2), (CONTACT, 1, 2, 1), (CONTACT, 1, 0, 1), (CONTACT, 1, 1, 0)]
        pieces += [(NO_KIND, 1, 1, 1), (NO_KIND, 1, 1, 2), (NO_KIND, 0, 0, 0)]
        for piece in pieces:
            cases.open(board(width, tracks, piece))


def lowest_bad(cases):
    good, bad = (BRANCH, 2, 0, 4), (BRANCH, 2, 0, 5)
    for marks in ("b", "gb", "bg", "gbgb", "ggbb", "ggggb", "bggggb", "gggg"):
        cases.open(board(4, 3, *(bad if m == "b" else good for m in marks)))
    many = [(TRUNK, 1 + i % 511, 1 + i % 511, 512) for i in range(4095)]
    cases.open(board(512, 511, *many))
    cases.open(board(512, 511, *many[:-1], (NO_KIND, 1, 1, 2)))


def numbered(cases):
    a = board(4, 2, *EXAMPLE_A)
    cases.open(a)
    for number in list(range(14)) + [4095, 4096, 65535]:
        cases.piece(number, a)
    for number in (0, 1):
        cases.piece(number, board(4, 2))
    for size in (0, 1, 3, 4, 7, 8, 11, 12, len(a) - 1):  # boards that do not open, since they are cut
        for number in (0, 1, 2, 11):
            cases.piece(number, a[:size])
    for number in (1, 2, 3):
        cases.piece(number, board(4, 2, EXAMPLE_A[0], EXAMPLE_A[1], EXAMPLE_A[2], count=2))
        cases.piece(number, board(4, 2, EXAMPLE_A[0], (BRANCH, 1, 0, 4), EXAMPLE_A[2]))
    lure = board(95, 384, count=513)  # a header that would itself be a right piece is not number 0
    cases.piece(0, lure)
    cases.piece(1, board(0, 2, (BRANCH, 1, 0, 1)))
    cases.piece(1, board(4, 2, (BRANCH, 1, 0, 1), spare=1))
    cases.piece(1, board(513, 2, (BRANCH, 513, 0, 1)))
    cases.piece(1, board(4, 2, (NO_KIND, 1, 1, 1)))


def blanks(cases):
    for tracks in sorted({0, 1, 511, 513, 1023, 32768, 65535} | {s + d for s in channel.STOCK for d in (-1, 0, 1)}):
        cases.blank(tracks)


def drawn(cases):
    """Boards and piece numbers drawn from a fixed row of numbers: pieces within their ranges, and some a little out of
    them."""
    state = 2026

    def below(n):
        nonlocal state
        state = (state * 6364136223846793005 + 1442695040888963407) % 2**64
        return (state >> 33) % n

    def drawn_piece(width, tracks):
        kind = below(3)
        if kind == TRUNK:
            low = 1 + below(width)
            fields = [1 + below(tracks + 1), low, low + 1 + below(2)]
        elif kind == BRANCH:
            low = below(tracks + 1)
            fields = [1 + below(width), low, low + 1 + below(2)]
        else:
            track = 1 + below(tracks + 1)
            fields = [1 + below(width), track, track]
        if below(4) == 0:
            place = below(3)
            fields[place] = max(0, fields[place] + below(3) - 1)
        return kind, *fields

    for _ in range(300):
        width, tracks, size = 1 + below(12), 1 + below(12), below(5)
        data = board(width, tracks, *(drawn_piece(width, tracks) for _ in range(size)))
        if below(8) == 0:
            data = data[: below(len(data) + 1)]
        if below(3) == 0:
            cases.open(data)
        else:
            cases.piece(below(size + 2), data)


def add_all(cases):
    for part in (lengths, headers, ranges, lowest_bad, numbered, blanks, drawn):
        part(cases)
