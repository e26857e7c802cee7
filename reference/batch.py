"""Questions to the C entries, for batch.c: how they are packed, and the line that is due by channel.py."""
import struct
import subprocess
import sys
from itertools import islice
from pathlib import Path

import channel
import drafts

ROOT = Path(__file__).resolve().parent.parent
PROGRAM = ROOT / "target" / "batch"
LIBRARY = ROOT / "target" / "staticlib" / "libscreen_api.a"
READ, BOUNDS, ROUTE, JUDGE, BLANK, LOOKS, CEILING, OWN_BLANK, FEWEST_RING, JOIN, DRAFT = range(11)
NAMES = ("read", "bounds", "route", "judge", "blank", "looks", "ceiling", "own blank", "fewest ring", "join", "draft")
ZEROS, FILLED, ONES = range(3)  # what the words of a draft hold before
GUARD = 64  # bytes before a buffer
WORKERS = 2  # processes that make cases
HEADER = struct.Struct(">BB7I")
GIVEN = (0, 3, 1, 1, 0)  # how many numbers each call of a draft is given


class Case:
    """A question, packed, and the line due."""

    __slots__ = ("question", "due")

    def __init__(self, kind, due, fill=0, lent=(0, 0), top=(), bot=(), data=b"", second=((), ())):
        rows = top, bot, *second
        head = HEADER.pack(kind, fill, *lent, *map(len, rows), len(data))
        self.question = head + struct.pack(f">{sum(map(len, rows))}I", *(n for row in rows for n in row)) + data
        self.due = due

    def number(self):
        """The number of the answer due: 0 or that of a refusal or fault; of a draft the first call's."""
        return int(self.due.split(" ", 1)[0])

    def numbers(self):
        """The numbers of all answers due: of a draft each call has one."""
        return [number for number, *_ in calls_told(self.due)] if self.kind() == DRAFT else [self.number()]

    def place(self):
        """The value of the answer due, or the place."""
        return int(self.due.split(" ", 2)[1])

    def kind(self):
        return self.question[0]

    def lent(self):
        """The lengths of the buffers lent; of an entry that chooses a blank, first the tracks; of a draft its words,
        and what they hold before."""
        return HEADER.unpack_from(self.question)[2:4]

    def rows(self):
        """TOP and BOT, then those of the second list that is joined; a table of blanks, or the calls of a draft, are
        the first row."""
        lengths = HEADER.unpack_from(self.question)[4:8]
        numbers = iter(struct.unpack_from(f">{sum(lengths)}I", self.question, HEADER.size))
        return [list(islice(numbers, length)) for length in lengths]

    def inputs(self):
        """The rows of the first or only list, and the text or board file."""
        *_, count = HEADER.unpack_from(self.question)
        top, bot, *_ = self.rows()
        return (top, bot), self.question[len(self.question) - count:]

    def lists(self):
        """The two lists that are joined."""
        rows = self.rows()
        return rows[:2], rows[2:]

    def calls(self):
        """The calls of a draft: the name, and what is given."""
        numbers = iter(self.rows()[0])
        for code, *given in zip(numbers, numbers, numbers, numbers):
            yield drafts.CALLS[code], *given[:GIVEN[code]]

    def puts(self):
        """The words put into a draft before its calls, by their places."""
        numbers = iter(self.rows()[1])
        return {place: upper << 32 | lower for place, upper, lower in zip(numbers, numbers, numbers)}

    def shown(self):
        """The question for people: what is asked, the rows as a pin list or the table, the bytes in hexadecimal."""
        kind, fill, first, second = *self.question[:2], *self.lent()
        (top, bot), data = self.inputs()
        lines = [f"{NAMES[kind]}, lent {first} and {second}, fill {fill}"]
        if kind == OWN_BLANK:
            lines.append(joined("TABLE", listed(top)))
        elif kind == JOIN:
            lines += [joined(word, listed(row)) for rows in self.lists() for word, row in zip(("TOP", "BOT"), rows)]
        elif kind == DRAFT:
            lines += [f"word {place}: {word:x}" for place, word in self.puts().items()]
            lines.append(", ".join(joined(*call) for call in self.calls()))
        elif kind not in (READ, BLANK):
            lines += [joined("TOP", listed(top)), joined("BOT", listed(bot))]
        if kind in (READ, JUDGE):
            lines.append(f"{len(data)} bytes {data.hex()}")
        return "\n".join(lines)


def joined(*parts):
    return " ".join(str(part) for part in parts if part != "")


def listed(numbers):
    return " ".join(map(str, numbers))


def rows_due(answer, rows=((), ())):
    """The line of an entry that fills two rows: its number and value, and their fronts."""
    return joined(*answer, "top", listed(rows[0]), "kept bot", listed(rows[1]), "kept inputs kept")


def read(text, fill=0, top=channel.ROW, bot=channel.ROW):
    """The case of a text, read into rows lent with so many numbers."""
    try:
        if min(top, bot) < channel.ROW:
            raise channel.Refused(1, channel.ROW)
        rows = channel.parse(text)
        channel.check(*rows)
        answer = (0, len(rows[0]))
    except channel.Refused as refusal:
        answer, rows = (refusal.number, refusal.place), ((), ())
    return Case(READ, rows_due(answer, rows), fill, (top, bot), data=text)


def answered(value_of, *arguments):
    """0 and the value, or the number and place of a refusal or fault."""
    try:
        return 0, value_of(*arguments)
    except channel.Refused as refusal:
        return refusal.number, refusal.place


def asked_of_rows(kind, value_of, top, bot, fill):
    """The case of an entry that takes rows alone."""
    return Case(kind, joined(*answered(value_of, top, bot), "inputs kept"), fill, top=top, bot=bot)


def bounds(top, bot, fill=0):
    def value_of(*rows):
        density, chain = channel.bounds(*rows)
        return density * 65536 + chain

    return asked_of_rows(BOUNDS, value_of, top, bot, fill)


def looks(top, bot, fill=0):
    return asked_of_rows(LOOKS, channel.looks, top, bot, fill)


def ceiling(top, bot, fill=0):
    return asked_of_rows(CEILING, channel.ceiling, top, bot, fill)


def route(top, bot, fill=0, ring=channel.RING, board=channel.BOARD):
    pairs, file = (), b""
    try:
        tracks, _, pieces = channel.route(top, bot, ring, board)
        answer, file = (0, len(pieces) * 65536 + tracks), channel.encode(len(top), tracks, pieces)
    except channel.Refused as refusal:
        answer, pairs = (refusal.number, refusal.place), [n for pair in refusal.ring for n in pair]
    due = joined(*answer, "ring", listed(pairs), "kept board", file.hex(), "kept inputs kept")
    return Case(ROUTE, due, fill, (ring, board), top, bot)


def fewest_ring(top, bot, fill=0, ring=channel.RING):
    pairs = ()
    try:
        pairs = channel.fewest_ring(top, bot, ring)
        answer = 0, len(pairs)
    except channel.Refused as refusal:
        answer = refusal.number, refusal.place
    due = joined(*answer, "ring", listed(n for pair in pairs for n in pair), "kept inputs kept")
    return Case(FEWEST_RING, due, fill, (ring, 0), top, bot)


def join(first, second, fill=0, top=channel.ROW, bot=channel.ROW):
    """The case of two lists, joined into rows lent with so many numbers."""
    try:
        rows = channel.join(first, second, top, bot)
        due = rows_due((0, len(rows[0])), rows)
    except channel.Refused as refusal:
        due = rows_due((refusal.number, refusal.place))
    return Case(JOIN, due, fill, (top, bot), *first, second=second)


def memory_of(words, fill, held, puts):
    """What the words of a draft hold before its calls, where the fill is as in batch.c."""
    if held == FILLED:
        data = bytes((fill + 167 * i + 59 * (i >> 8)) & 255 for i in range(GUARD, GUARD + 8 * min(words, drafts.WORDS)))
        memory = [int.from_bytes(data[i:i + 8], sys.byteorder) for i in range(0, len(data), 8)]
    else:
        memory = [0 if held == ZEROS else 2**64 - 1] * min(words, drafts.WORDS)
    for place, word in puts.items():
        memory[place] = word
    return memory + [0] * (words - len(memory))


def called(model, call):
    """A call's part of the line: number and value, and the runs of words that changed."""
    answer, marks = drafts.answer_of(model, call)
    return joined(*answer, *(f"{place}:{count}:{bits:x}" for place, count, bits in drafts.runs(drafts.bits_of(marks))))


def draft(calls, fill=0, words=drafts.WORDS, held=ZEROS, puts=None):
    """The case of a list of calls, of a draft of so many words that begins empty or with any words."""
    puts = puts or {}
    empty = held == ZEROS and not any(puts.values())
    model = drafts.Draft(words) if empty else drafts.Marks(memory_of(words, fill, held, puts))
    due = joined(", ".join(called(model, call) for call in calls), "draft kept inputs kept")
    numbers = [n for name, *given in calls for n in (drafts.CALLS.index(name), *given, *(0,) * (3 - len(given)))]
    halves = [n for place, word in puts.items() for n in (place, word >> 32, word & 2**32 - 1)]
    return Case(DRAFT, due, fill, (words, held), numbers, halves)


def calls_told(line):
    """What a line tells of each call of a draft: number, value, and runs of place, count and bits."""
    for part in line.partition(" draft")[0].split(", "):
        number, value, *changed = part.split()
        runs = [run.split(":") for run in changed]
        yield int(number), int(value), [(int(place), int(count), int(bits, 16)) for place, count, bits in runs]


def judge(top, bot, file, fill=0, scratch=channel.SCRATCH):
    answer = answered(channel.judge, top, bot, file, scratch)
    return Case(JUDGE, joined(*answer, "scratch kept inputs kept"), fill, (scratch, 0), top, bot, file)


def blank(tracks):
    return Case(BLANK, joined(*answered(channel.blank, tracks), "inputs kept"), lent=(tracks, 0))


def own_blank(table, tracks, fill=0):
    due = joined(*answered(channel.own_blank, table, tracks), "inputs kept")
    return Case(OWN_BLANK, due, fill, (tracks, 0), table)


def need(path):
    """Ends with one line if a file is not there."""
    if not path.exists():
        print(f"compare: {path} is not there; ./test builds it", file=sys.stderr)
        sys.exit(2)


def build(entries=LIBRARY, program=PROGRAM, source="batch.c", flags=()):
    """Compiles batch.c, or a source that has it within, with the entries."""
    need(entries)
    source, header = ROOT / "reference" / source, ROOT / "screen"
    strict = "-std=c11", "-O2", "-Wall", "-Wextra", "-Werror"
    command = ["cc", *strict, *flags, "-I", header, source, entries, "-o", program]
    try:
        subprocess.run(list(map(str, command)), check=True)
    except (OSError, subprocess.CalledProcessError) as failure:
        print(f"compare: {source} could not be compiled: {failure}", file=sys.stderr)
        sys.exit(2)


def answers(questions, program=PROGRAM):
    """The line of each question, of one run of the batch program. If it ends too soon, the lines that lack say so."""
    run = subprocess.run([str(program)], input=b"".join(questions), capture_output=True, check=False)
    lines = run.stdout.decode("ascii").splitlines()
    ended = joined("no answer, ended with status", run.returncode, run.stderr.decode("ascii", "replace").strip())
    return lines + [ended] * (len(questions) - len(lines))
