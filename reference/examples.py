"""Runs the five programs and `./channel make` on the bench examples A to M of the scope, and on some of the
spaces of Req 01, and compares what they write with the scope, to the letter; two of the examples on one panel (Req 09)
are as they come out by hand.

Usage: python3 reference/examples.py target/bin
"""
import subprocess
import sys
import tempfile
from pathlib import Path

import channel

A = b"TOP 0 1 2 3\nBOT 1 2 0 3\n"
L = b"TOP 1 0\nBOT 0 0\n"
A_LISTED = b"BOARD 4 2 8\nBOUND 2 2\nNET 1 1 2 2\nNET 2 2 3 1\nNET 3 4 4 0\nEND 11\n"
LISTED = {
    "A": (A, A_LISTED),
    "A, padded": (b"TOP   0   1   2   3\r\nBOT   1   2   0   3\r\n", A_LISTED),
    "A, as typed": (b"TOP  0 1    2 3\r\nBOT 1  2 0 3\n", A_LISTED),
    "B": (b"TOP 0 1 6 1 2 3 5\nBOT 6 3 5 4 0 2 4\n",
          b"BOARD 7 5 8\nBOUND 4 3\nNET 1 2 4 5\nNET 2 5 6 3\nNET 3 2 6 4\nNET 4 4 7 1\nNET 5 3 7 2\nNET 6 1 3 3\n"
          b"END 30\n"),
    "C": (b"TOP 1 2\nBOT 2 1\n", b"REFUSED 7 2\nRING 1 1\nRING 2 2\n"),
    "D": (b"TOP 1 2 3 1\nBOT 2 3 2 0\n", b"REFUSED 7 2\nRING 2 2\nRING 3 3\n"),
    "E": (b"TOP 1 0 1 2 0 2\nBOT 0 3 0 0 3 0\n",
          b"BOARD 6 2 8\nBOUND 2 1\nNET 1 1 3 1\nNET 2 4 6 1\nNET 3 2 5 2\nEND 15\n"),
    "F": (b"TOP 0\nBOT 0\n", b"BOARD 1 0 8\nBOUND 0 0\nEND 0\n"),
    "G": (b"TOP 5\nBOT 5\n", b"BOARD 1 0 8\nBOUND 0 0\nNET 5 1 1 0\nEND 1\n"),
    "K": (b"TOP 01", b"REFUSED 2 5\n"),
    "L": (L, b"BOARD 2 0 8\nBOUND 0 0\nEND 0\n"),
    "M, net 511": (b"TOP 511\nBOT 511\n", b"BOARD 1 0 8\nBOUND 0 0\nNET 511 1 1 0\nEND 1\n"),
    "M, net 512": (b"TOP 512\nBOT 512\n", b"REFUSED 5 1\n"),
    "M, 512 columns": (b"TOP" + b" 0" * 512 + b"\nBOT" + b" 0" * 512 + b"\n", b"BOARD 512 0 8\nBOUND 0 0\nEND 0\n"),
    "M, 513 columns": (b"TOP" + b" 0" * 513 + b"\nBOT" + b" 0" * 513 + b"\n", b"REFUSED 3 513\n"),
    "cut at a carriage return": (b"TOP 1\r", b"REFUSED 2 6\n"),
    "two carriage returns": (b"TOP 1\r\r\nBOT 1\n", b"REFUSED 2 6\n"),
    "spaces at a line's end": (b"TOP 1  \r\nBOT 1\r\n", b"REFUSED 2 7\n"),
    "a tab": (b"TOP 1\t1\nBOT 1 1\n", b"REFUSED 2 5\n"),
    "too long": (b"TOP" + b" 0" * 40000, b"REFUSED 0 65536\n"),
    "as long as may be": (b"TOP" + b" " * 65525 + b"5\nBOT 5\n", b"BOARD 1 0 8\nBOUND 0 0\nNET 5 1 1 0\nEND 1\n"),
    "as long, and garbled": (b"TOP" + b" " * 65533, b"REFUSED 2 65536\n"),
}


RINGS = {"C": b"RING 1 1\nRING 2 2\n", "D": b"RING 2 2\nRING 3 3\n"}  # of those that have one, with the fewest nets


PANELS = {  # the first list, the second, and what the panel joiner writes
    "A, A": (A, A, b"TOP 0 1 2 3 0 4 5 6\nBOT 1 2 0 3 4 5 0 6\n"),
    "B, C": (LISTED["B"][0], LISTED["C"][0], b"TOP 0 1 6 1 2 3 5 7 8\nBOT 6 3 5 4 0 2 4 8 7\n"),
    "C, B": (LISTED["C"][0], LISTED["B"][0], b"TOP 1 2 0 3 8 3 4 5 7\nBOT 2 1 8 5 7 6 0 4 6\n"),
    "F, E": (LISTED["F"][0], LISTED["E"][0], b"TOP 0 1 0 1 2 0 2\nBOT 0 0 3 0 0 3 0\n"),
    "L, A, padded": (L, LISTED["A, padded"][0], b"TOP 1 0 0 2 3 4\nBOT 0 0 2 3 0 4\n"),
    "net 511, G": (LISTED["M, net 511"][0], LISTED["G"][0], b"REFUSED 18 516\n"),
    "G, net 511": (LISTED["G"][0], LISTED["M, net 511"][0], b"REFUSED 18 516\n"),
    "512 columns, net 511": (LISTED["M, 512 columns"][0], LISTED["M, net 511"][0], b"REFUSED 3 513\n"),
    "513 columns, K": (LISTED["M, 513 columns"][0], LISTED["K"][0], b"REFUSED 3 513\n"),
    "K, 513 columns": (LISTED["K"][0], LISTED["M, 513 columns"][0], b"REFUSED 2 5\n"),
    "A, net 512": (A, LISTED["M, net 512"][0], b"REFUSED 5 1\n"),
    "A, too long": (A, LISTED["too long"][0], b"REFUSED 0 65536\n"),
    "as long as may be, G": (LISTED["as long as may be"][0], LISTED["G"][0], b"TOP 5 10\nBOT 5 10\n"),
    "no files": (None, None, b"REFUSED 2 0\n"),
    "A and no second": (A, None, b"REFUSED 2 0\n"),
}


def ring_due(name, listed):
    """What the ring finder writes of an example, whose refusal it shares with the listing."""
    return RINGS.get(name, listed if listed.startswith(b"REFUSED") else b"NONE\n")


def run(program, data=b"", cwd=None):
    return subprocess.run([program], input=data, stdout=subprocess.PIPE, cwd=cwd, check=True).stdout


def in_folder(program, **files):
    """Runs a program in a folder with these files; None is an absent file."""
    with tempfile.TemporaryDirectory() as folder:
        for name, data in files.items():
            if data is not None:
                Path(folder, name).write_bytes(data)
        return run(program, cwd=folder)


def judged(program, pins, board):
    return in_folder(program, pins=pins, board=board)


def made(text):
    """What `./channel make` prints, its exit status, and the board file that it writes, if it does."""
    with tempfile.TemporaryDirectory() as folder:
        pins, board = Path(folder, "pins"), Path(folder, "board")
        pins.write_bytes(text)
        command = [Path(__file__).resolve().parent.parent / "channel", "make", pins, board]
        done = subprocess.run(command, stdout=subprocess.PIPE, stderr=subprocess.DEVNULL, check=False)
        return done.stdout, done.returncode, board.read_bytes() if board.exists() else None


def main(bins):
    failures = []

    def expect(name, got, due):
        if got != due:
            failures.append(f"{name}: wrote {str(got)[:80]}, due {str(due)[:80]}")

    for name, (text, due) in LISTED.items():
        expect(f"listing {name}", run(bins / "listing", text), due)
        expect(f"ring {name}", run(bins / "ring_finder", text), ring_due(name, due))
        board = run(bins / "board_writer", text)
        expect(f"board {name}", board, channel.board(text))
        if not due.startswith(b"REFUSED"):
            expect(f"judge {name}", judged(bins / "board_judge", text, board), b"GOOD %s\n" % due.split()[2])
            expect(f"make {name}", made(text), (due, 0, board))
        else:
            expect(f"make {name}", made(text), (due, 1, None))
    file = run(bins / "board_writer", A)
    expect("file of A", file[:8], bytes.fromhex("0100401600200402"))
    width, tracks, pieces = channel.open_board(file)
    faults = {"H": (pieces[:7] + pieces[8:], b"REFUSED 12 6\n"),
              "I": (pieces[:3] + [(1, 2, 1, 3)] + pieces[4:], b"REFUSED 11 3\n"),
              "J": (pieces + [(0, 2, 3, 4)], b"REFUSED 13 12\n")}
    for name, (changed, due) in faults.items():
        expect(f"judge {name}", judged(bins / "board_judge", A, channel.encode(width, tracks, changed)), due)
    expect("file of L", run(bins / "board_writer", L), bytes.fromhex("00800000"))
    stub = channel.encode(2, 1, [(1, 1, 1, 2)])
    expect("copper on L's parked pin", judged(bins / "board_judge", L, stub), b"GOOD 1\n")
    expect("no files", judged(bins / "board_judge", None, None), b"REFUSED 2 0\n")
    expect("no board", judged(bins / "board_judge", A, None), b"REFUSED 8 4\n")
    expect("pins before board", judged(bins / "board_judge", b"TOP 01", b"x"), b"REFUSED 2 5\n")
    expect("long board", judged(bins / "board_judge", A, bytes(65537)), b"REFUSED 0 65536\n")
    for name, (first, second, due) in PANELS.items():
        expect(f"panel {name}", in_folder(bins / "panel_joiner", first=first, second=second), due)
    for failure in failures:
        print(failure)
    print(f"examples: {'all as in the scope' if not failures else f'{len(failures)} differ'}")
    return bool(failures)


if __name__ == "__main__":
    sys.exit(main(Path(sys.argv[1]).resolve()))
