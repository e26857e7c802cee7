"""Parked pins are told on standard error; standard output and the status are as they would be without a word."""
import unittest

from command import boardfile
from command.parked import SPELT, parked_of, parked_words
from command.tests.workshop import A, Workshop

L = b"TOP 1 0\nBOT 0 0\n"
L_TOLD = "channel: pins: 1 pin is parked (net 1 at column 1, TOP): its number stands just once\n"
OPPOSITE = b"TOP 1 1 30\nBOT 2 0 0\n"
OPPOSITE_TOLD = ("channel: pins: 2 pins are parked (net 2 at column 1, BOT; net 30 at column 3, TOP): each number "
                 "stands just once\n")
TANGLED = b"TOP 1 2 9\nBOT 2 1 0\n"


def rows(top, bot):
    return [str(net) for net in top], [str(net) for net in bot]


class Words(unittest.TestCase):
    def test_a_number_that_stands_just_once(self):
        self.assertEqual(parked_of(rows([0, 1, 2, 1], [3, 3, 0, 4])), [3, 8])
        self.assertEqual(parked_of(rows([0, 0], [0, 0])), [])
        self.assertEqual(parked_of(rows([5], [5])), [])

    def test_nets_in_rising_number(self):
        self.assertEqual(parked_of(rows([100, 20], [3, 0])), [3, 2, 1])

    def test_a_long_list_is_cut_short(self):
        words = parked_words(rows(range(1, 41), [0] * 40))
        self.assertTrue(words.startswith("40 pins are parked (net 1 at column 1, TOP; net 2 at column 2, TOP; "), words)
        self.assertTrue(words.endswith(f"; and {40 - SPELT} more): each number stands just once"), words)
        self.assertLess(len(words), 400)
        self.assertNotIn("more", parked_words(rows(range(1, SPELT + 1), [0] * SPELT)))


class Commands(Workshop):
    def told(self, pins, *words):
        self.put("pins", pins)
        done = self.run_channel(*words)
        return done.status, done.output, done.words

    def test_list(self):
        self.assertEqual(self.told(L, "list", "pins"), (0, b"BOARD 2 0 8\nBOUND 0 0\nEND 0\n", L_TOLD))
        listed = b"BOARD 3 1 8\nBOUND 1 1\nNET 1 1 2 1\nEND 5\n"
        self.assertEqual(self.told(OPPOSITE, "list", "pins"), (0, listed, OPPOSITE_TOLD))

    def test_board(self):
        self.assertEqual(self.told(L, "board", "pins"), (0, bytes.fromhex("00800000"), L_TOLD))
        status, output, words = self.told(OPPOSITE, "board", "pins")
        self.assertEqual((status, words), (0, OPPOSITE_TOLD))
        self.assertEqual(boardfile.header_of(output), [3, 1, 5, 0])

    def test_make_and_judge(self):
        listed = b"BOARD 2 0 8\nBOUND 0 0\nEND 0\n"
        self.assertEqual(self.told(L, "make", "pins", "board"), (0, listed, L_TOLD))
        self.assertEqual((self.room / "board").read_bytes(), bytes.fromhex("00800000"))
        self.assertEqual(self.told(L, "judge", "pins", "board"), (0, b"GOOD 0\n", L_TOLD))
        self.assertEqual(self.told(L, "make", "pins", "-"), (0, bytes.fromhex("00800000"), listed.decode() + L_TOLD))

    def test_copper_at_a_parked_pin_is_good_and_to_another_net_a_short(self):
        board = self.put("board", bytes.fromhex("0080000240100001"))  # width 2, a branch in column 1 through all rows
        self.assertEqual(self.told(L, "judge", "pins", "board"), (0, b"GOOD 0\n", L_TOLD))
        status, output, words = self.told(b"TOP 1 2\nBOT 3 2\n", "judge", "pins", str(board))
        self.assertEqual((status, output), (1, b"REFUSED 11 3\n"))
        self.assertIn("net 3 at column 1, BOT is joined to net 1 at column 1, TOP", words)
        self.assertEqual(words.splitlines()[-1], "channel: pins: 2 pins are parked (net 1 at column 1, TOP; net 3 at "
                                                 "column 1, BOT): each number stands just once")

    def test_a_tangled_list(self):
        for words in (("list", "pins"), ("board", "pins"), ("make", "pins", "board")):
            status, output, said = self.told(TANGLED, *words)
            self.assertEqual((status, output), (1, b"REFUSED 7 2\nRING 1 1\nRING 2 2\n"))
            self.assertEqual(said.count("\n"), 3)
            self.assertIn("1 pin is parked (net 9 at column 3, TOP)", said.splitlines()[2])

    def test_a_board_that_is_refused(self):
        for board in (b"", bytes(65537)):
            self.put("board", board)
            self.assertTrue(self.told(L, "judge", "pins", "board")[2].endswith(L_TOLD))

    def test_nothing_is_said(self):
        self.assertEqual(self.told(A, "list", "pins")[2], "")
        self.put("board", b"")
        for refused in (b"", b"TOP 1 02\nBOT 3 0\n", b"TOP 1 2\nBOT 3\n", b"TOP 1 512\nBOT 0 2\n",
                        b"TOP" + b" 1" * 40000):
            for words in (("list", "pins"), ("judge", "pins", "board"), ("picture", "pins")):
                status, _, said = self.told(refused, *words)
                self.assertEqual((status, "parked" in said, said.count("\n")), (1, False, 2))

    def test_standard_error_that_is_full_changes_no_status(self):
        self.put("pins", L)
        with open("/dev/full", "wb") as full:
            done = self.run_channel("list", "pins", stderr=full)
        self.assertEqual((done.status, done.output), (0, b"BOARD 2 0 8\nBOUND 0 0\nEND 0\n"))
