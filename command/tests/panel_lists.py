"""Pin lists that are joined on panels in the tests, and a room to join them in."""
import subprocess

from command import answers
from command.tests.workshop import A, Workshop

B = b"TOP 0 1 6 1 2 3 5\nBOT 6 3 5 4 0 2 4\n"
A_B = b"TOP 0 1 2 3 0 4 9 4 5 6 8\nBOT 1 2 0 3 9 6 8 7 0 5 7\n"
B_A = b"TOP 0 1 6 1 2 3 5 0 7 8 9\nBOT 6 3 5 4 0 2 4 7 8 0 9\n"
A_B_LISTED = (b"BOARD 11 5 8\nBOUND 4 3\nNET 1 1 2 2\nNET 2 2 3 1\nNET 3 4 4 0\nNET 4 6 8 5\nNET 5 9 10 3\n"
              b"NET 6 6 10 4\nNET 7 8 11 1\nNET 8 7 11 2\nNET 9 5 7 3\nEND 41\n")
PARKED = b"TOP 1 1 30\nBOT 2 0 0\n"
BARE = b"TOP 0 0\nBOT 0 0\n"
STRAIGHT = b"TOP 1\nBOT 1\n"
GAP = b"TOP 400 400 1\nBOT 7 7 1\n"


def text(top, bot):
    return answers.line("TOP", *top) + answers.line("BOT", *bot)


def wide(columns, net=0):
    """A list with one straight net in its last column."""
    row = [0] * (columns - 1) + [net]
    return text(row, row)


def begins(column, by, name="b.txt"):
    """What is said of a panel."""
    return (f"channel: panel: {name} begins in column {column}, its net numbers raised by {by} (channel picture "
            f"--second {column} shows it)\n")


class Panels(Workshop):
    """Two lists, a.txt and b.txt, and what the command says of them."""

    def told(self, first, second, *words, **options):
        self.put("a.txt", first)
        self.put("b.txt", second)
        done = self.run_channel(*(words or ("panel", "a.txt", "b.txt")), **options)
        return done.status, done.output, done.words

    def piped(self, script):
        """What a shell makes of a line with CH for the command: its status, its output and its words."""
        done = subprocess.run(["sh", "-c", script.replace("CH", f"'{self.home}/channel'")], cwd=self.room, check=False,
                              stdout=subprocess.PIPE, stderr=subprocess.PIPE)
        return done.returncode, done.stdout, done.stderr.decode()

    def failed(self, *parts, lists=(A, B), named="the panel joiner", **options):
        """It is no answer: status 2, one line that names the step, nothing on standard output, no file left."""
        status, output, words = self.told(*lists, "panel", "a.txt", "b.txt", **options)
        self.assertEqual((status, output, words.count("\n")), (2, b"", 1), words)
        for part in (named, *parts):
            self.assertIn(part, words)
        self.assertEqual(self.files(), ["a.txt", "b.txt", "pins"])
