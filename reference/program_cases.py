"""Cases for the five programs: what each is given and what it must write, to the byte."""
import random
import re
import subprocess
from pathlib import Path

import channel
import examples
import panel_lists
import random_boards
import random_channels
import random_texts
import ring_channels
import row_cases
import text_cases

BINS = Path(__file__).resolve().parent.parent / "target" / "bin"
DUE = {"listing": channel.listing, "board_writer": channel.board, "ring_finder": channel.ring_lines}
FILED = {"board_judge": channel.judged, "panel_joiner": channel.panel}  # what is due of two files
FILES = {"board_judge": ("pins", "board"), "panel_joiner": ("first", "second")}
FORM_SHOWN = re.compile(rb"TOP[ 0-9]+\r?\nBOT[ 0-9]+\r?\n")


class Case:
    """A program, its input (a pin list; of the judge and of the panel joiner two files, None if absent) and the output
    due."""

    def __init__(self, program, *inputs):
        self.program, self.inputs = program, inputs
        if program in FILES:
            self.due = FILED[program](*(data or b"" for data in inputs))
        else:
            self.due = DUE[program](*inputs)

    def run(self):
        """What the program writes, or how it ended if it failed."""
        try:
            if self.program in FILES:
                return examples.in_folder(BINS / self.program, **dict(zip(FILES[self.program], self.inputs)))
            return examples.run(BINS / self.program, *self.inputs)
        except subprocess.CalledProcessError as failure:
            return b"ended with status %d" % failure.returncode

    def number(self):
        """The number after REFUSED, or None for a listing, a board, a good one, a ring or none, a joined list."""
        match = re.match(rb"REFUSED (\d+) ", self.due)
        return int(match.group(1)) if match else None

    def shown(self):
        lines = [self.program]
        for name, data in zip(FILES.get(self.program, ("pins",)), self.inputs):
            lines.append(shown_file(name, data))
            if FORM_SHOWN.fullmatch(data or b""):
                lines += data.decode("ascii").splitlines()
        return "\n".join(lines)


def shown_file(name, data):
    return f"{name}: absent" if data is None else f"{name}: {len(data)} bytes {data.hex()}"


def each(texts):
    """The cases of the programs that read a pin list alone."""
    return [Case(program, text) for text in texts for program in DUE]


def text_job(rng):
    """Narrow channels, refused rows, and texts with slips."""
    for _ in range(45):
        yield from each([random_texts.drawn(rng, *random_channels.escaping(rng))])
        yield from each([random_texts.typed(rng, *random_channels.escaping(rng))])
    for _ in range(15):
        yield from each([random_texts.typed(rng, *random_channels.refused(rng)), random_texts.noise(rng)])


def bench_job(_):
    """The scope's examples, faults H to J of A among them, and boards with parked pins."""
    yield from each(text for text, _ in examples.LISTED.values())
    width, tracks, pieces = channel.open_board(channel.board(examples.A))
    for changed in (pieces, pieces[:7] + pieces[8:], pieces[:3] + [(1, 2, 1, 3)] + pieces[4:], pieces + [(0, 2, 3, 4)]):
        yield Case("board_judge", examples.A, channel.encode(width, tracks, changed))
    yield Case("board_judge", text_cases.PADDED, channel.board(examples.A))
    yield Case("board_judge", examples.L, channel.board(examples.L))
    yield Case("board_judge", examples.A, channel.encode(width, tracks, pieces + [(3, 1, 1, 2)]))
    yield Case("board_judge", examples.A, channel.encode(width + 1, tracks, pieces))
    yield from each(text_cases.text(*rows) for rows in row_cases.PARKED)
    for top, bot, tracks, pieces in row_cases.PARKED_BOARDS:
        yield Case("board_judge", text_cases.text(top, bot), channel.encode(len(top), tracks, pieces))


def wide_job(rng):
    for _ in range(15):
        yield from each([random_texts.typed(rng, *random_channels.wide(rng))])
    most = row_cases.chained(511), row_cases.ring(255, 100), ([0] * 512, [0] * 512), ([0] * 513, [0] * 513)
    parked = row_cases.crowded(), ([*range(1, 512), 0], [0] * 512)
    yield from each(text_cases.text(*rows) for rows in most + parked)


def ring_job(rng):
    """Channels with several rings."""
    for _ in range(30):
        yield Case("ring_finder", random_texts.typed(rng, *ring_channels.drawn(rng)))
    yield from (Case("ring_finder", text_cases.text(top, bot)) for top, bot, _ in ring_channels.BY_HAND)
    yield from (Case("ring_finder", text_cases.text(*rows)) for rows in ring_channels.large(rng))


def long_job(_):
    """Texts about the limit, and none."""
    yield from each([b""])
    yield from (Case("listing", text) for text in random_texts.long_texts())
    for program in ("board_writer", "ring_finder"):
        yield from (Case(program, text) for text in list(random_texts.long_texts())[::5])


def board_job(rng):
    """Channels with their own boards, damaged ones and boards of others; and tangled channels with split trunks."""
    for i in range(30):
        rows = random_channels.wide(rng) if i % 12 == 0 else random_channels.escaping(rng)
        tracks, pieces = random_boards.routed(rng, rows)
        text, width = random_texts.typed(rng, *rows), len(rows[0])
        file = channel.encode(width, tracks, pieces)
        slip = random_boards.damaged_pieces(rng, tracks, pieces, width)
        yield Case("board_judge", text, file)
        yield Case("board_judge", text, channel.encode(width, tracks, slip))
        stubs = random_boards.stubbed(rng, rows, tracks, pieces)
        yield Case("board_judge", text, channel.encode(width, tracks, stubs))
        yield Case("board_judge", text, random_boards.damaged_file(rng, file))
        yield Case("board_judge", random_texts.typed(rng, *random_channels.escaping(rng)), file)
    for _ in range(15):
        rows = random_boards.spaced(rng, *random_channels.renumbered(rng, *random_channels.tangled(rng, 3)), 0.6)
        rows, tracks, pieces = random_boards.mazed(rng, *rows, 2 + len(rows[0]))
        yield Case("board_judge", random_texts.typed(rng, *rows), channel.encode(len(rows[0]), tracks, pieces))


def file_job(rng):
    """Files that are absent, empty, or about the limit; `pins` is refused before `board` is read."""
    text = text_cases.GOOD
    file = channel.board(text)
    long = bytes(channel.LIMIT + 1)
    uneven, parked = text_cases.text([1, 1], [0]), text_cases.text([1], [0])
    for pins in (None, b"", text, text_cases.PADDED, b"TOP 01", b"TOP 1\r", uneven, parked, long, text + long):
        for board in (None, b"", file, file[:-1], long[:-1], long, file + long):
            yield Case("board_judge", pins, board)
    full = [(1, 1 + k % 4, 0, 3) for k in range(4095)]
    joined = full[:-4] + [(0, 1, 1, 4)] + [(2, 1 + k, 1, 1) for k in range(3)]
    yield Case("board_judge", text, channel.encode(4, 2, full))
    yield Case("board_judge", text_cases.text([1] * 4, [1] * 4), channel.encode(4, 2, joined))
    yield Case("board_judge", text_cases.text([1] * 3 + [0], [1] * 3 + [0]), channel.encode(4, 2, joined))
    yield Case("board_judge", text, channel.encode(4, 2, full) + bytes(rng.randint(1, 9)))


def panel_job(rng):
    """Two lists on one panel, drawn and by hand, texts with slips among them."""
    for _ in range(60):
        yield Case("panel_joiner", *(random_texts.typed(rng, *rows) for rows in panel_lists.drawn(rng)))
    for _ in range(30):
        yield Case("panel_joiner", *(random_texts.drawn(rng, *rows) for rows in panel_lists.fitting(rng)))
    for first, second, _ in panel_lists.JOINED + panel_lists.REFUSED:
        if all(row for row in (*first, *second)):  # a text has a number in each line
            yield Case("panel_joiner", text_cases.text(*first), text_cases.text(*second))


def panel_file_job(_):
    """Files that are absent, empty, garbled, refused or about the limit; `first` is refused before `second` is read."""
    text, long = text_cases.GOOD, bytes(channel.LIMIT + 1)
    spaced = b"TOP" + b" " * (channel.LIMIT - 11) + b"1\nBOT 1\n"
    some = (None, b"", text, text_cases.PADDED, b"TOP 01", b"TOP 1\r", text_cases.text([1, 1], [0]),
            text_cases.text([512], [0]), text_cases.text([0] * 513, [0]), spaced, b" " + spaced, long[:-1], long)
    yield from (Case("panel_joiner", first, second) for first in some for second in some)
    for whole in list(random_texts.long_texts())[::4]:
        yield Case("panel_joiner", whole, text)
        yield Case("panel_joiner", text, whole)


JOBS = ((long_job, 1), (wide_job, 1), (file_job, 1), (bench_job, 1), (board_job, 2), (text_job, 2), (ring_job, 1),
        (panel_job, 1), (panel_file_job, 1))


def jobs(seed):
    """The names of all jobs, dear ones first."""
    return [(seed, kind.__name__, part) for kind, parts in JOBS for part in range(parts)]


def made_and_run(job):
    """The cases of a job, and what the programs wrote."""
    seed, name, part = job
    cases = list(globals()[name](random.Random(f"{seed} programs {name} {part}")))
    return cases, [case.run() for case in cases]
