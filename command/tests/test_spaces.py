"""A pin list padded into columns, with carriage returns before its line feeds, is answered as the plain one is."""
import unittest

from command.pinlist import rows_of
from command.tests.test_messages import boards, in_columns
from command.tests.workshop import A, LISTED, TANGLED, Workshop

TYPED = b"TOP  0 1    2 3\r\nBOT 1 2  0   3\n"  # A, with spaces and line ends that differ
LISTS = {
    "A": A, "parked": b"TOP 1 1 30\nBOT 2 0 0\n", "tangled": TANGLED, "tangled, parked": b"TOP 1 2 9\nBOT 2 1 0\n",
    "too wide": b"TOP" + b" 0" * 513 + b"\nBOT" + b" 0" * 513 + b"\n", "uneven": b"TOP 1 2 2\nBOT 1\n",
    "high net": b"TOP 1 1\nBOT 0 512\n", "many digits": b"TOP 1 1\nBOT 0 " + b"9" * 50 + b"\n",
}


class Rows(unittest.TestCase):
    def test_rows_of_a_text_of_the_form(self):
        self.assertEqual(rows_of(b"TOP 1 20\nBOT 3 0\n"), (["1", "20"], ["3", "0"]))
        self.assertEqual(rows_of(b"TOP   1  20\r\nBOT      3 0\n"), (["1", "20"], ["3", "0"]))
        self.assertEqual(rows_of(in_columns(A)), rows_of(A))
        self.assertEqual(rows_of(TYPED), rows_of(A))


class Commands(Workshop):
    def answered(self, pins, *words):
        """How a command ends, what it writes, what it says, and the board that it leaves."""
        self.put("pins", pins)
        (self.room / "made").unlink(missing_ok=True)
        done = self.run_channel(*words)
        made = (self.room / "made").read_bytes() if (self.room / "made").exists() else None
        return done.status, done.output, done.words, made

    def test_the_same_answers(self):
        for name, pins in LISTS.items():
            for words in (("list", "pins"), ("board", "pins"), ("make", "pins", "made"), ("picture", "pins")):
                with self.subTest(name, words=words):
                    self.assertEqual(self.answered(in_columns(pins), *words), self.answered(pins, *words))

    def test_the_same_verdicts(self):
        files = {name: file for name, (file, _) in boards().items() if name in ("I", "H", "J", "cut", "range", "other")}
        for name, file in {"good": self.board, **files}.items():
            self.put("board", file)
            for words in (("judge", "pins", "board"), ("picture", "pins", "board")):
                with self.subTest(name, words=words):
                    self.assertEqual(self.answered(in_columns(A), *words), self.answered(A, *words))

    def test_what_is_answered(self):
        for pins in (in_columns(A), TYPED):
            self.assertEqual(self.answered(pins, "list", "pins"), (0, LISTED, "", None))
            self.assertEqual(self.answered(pins, "make", "pins", "made"), (0, LISTED, "", self.board))
            self.put("board", self.board)
            self.assertEqual(self.answered(pins, "judge", "pins", "board"), (0, b"GOOD 2\n", "", None))
            self.assertEqual(self.run_channel("list", "-", stdin=pins).output, LISTED)

    def test_parked_pins_are_told(self):
        told = self.answered(in_columns(LISTS["parked"]), "list", "pins")[2]
        self.assertEqual(told, "channel: pins: 2 pins are parked (net 2 at column 1, BOT; net 30 at column 3, TOP): "
                               "each number stands just once\n")

    def test_a_carriage_return_alone_ends_no_line(self):
        status, output, words, made = self.answered(b"TOP 1\rBOT 1\r", "make", "pins", "made")
        self.assertEqual((status, output, made), (1, b"REFUSED 2 6\n", None))
        self.assertIn("a carriage return stands without a line feed behind it", words)
        self.assertIn("each line ended by a line feed or by a carriage return and a line feed", words)
