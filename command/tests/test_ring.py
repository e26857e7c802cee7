"""The ring with the fewest nets: what `ring` prints and says, and ring finders whose output is no answer of a list."""
import os
import random
import sys
import unittest

from command import answers, explain, rings
from command.tests.workshop import A, LISTED, REFUSED_LISTS, ROOT, TANGLED, Workshop

sys.path.insert(0, str(ROOT / "reference"))
import channel  # noqa: E402  (the independent program, which finds the rings)
import random_channels  # noqa: E402
import random_texts  # noqa: E402
from text_cases import in_columns  # noqa: E402

D = b"TOP 1 2 3 1\nBOT 2 3 2 0\n"
LONGER = b"TOP 1 2 3 4 2\nBOT 2 3 4 1 1\n"
PARKED = b"TOP 1 2 9\nBOT 2 1 0\n"
PARKED_TOLD = "channel: pins: 1 pin is parked (net 9 at column 3, TOP): its number stands just once\n"
SAID = "channel: pins: the fewest wires to move: "
FOUND = {  # lists, their rings, and the words of these
    "C": (TANGLED, b"RING 1 1\nRING 2 2\n", "2 nets: net 1 above net 2 in column 1, net 2 above net 1 in column 2"),
    "D": (D, b"RING 2 2\nRING 3 3\n", "2 nets: net 2 above net 3 in column 2, net 3 above net 2 in column 3"),
    "longer": (LONGER, b"RING 1 1\nRING 2 5\n", "2 nets: net 1 above net 2 in column 1, net 2 above net 1 in column 5"),
    "begun at the lowest": (b"TOP 1 1 5 3\nBOT 5 0 3 5\n", b"RING 3 4\nRING 5 3\n",
                            "2 nets: net 3 above net 5 in column 4, net 5 above net 3 in column 3"),
    "three nets": (b"TOP 7 511 20\nBOT 511 20 7\n", b"RING 7 1\nRING 511 2\nRING 20 3\n",
                   "3 nets: net 7 above net 511 in column 1, net 511 above net 20 in column 2, net 20 above net 7 in "
                   "column 3"),
}
NONE = (A, b"TOP 0\nBOT 0\n", b"TOP 5\nBOT 5\n", b"TOP 1 2 1\nBOT 2 0 0\n", b"TOP 1 1 2\r\nBOT 2 3 3\r\n")
RIGHT = "printf 'RING 1 1\\nRING 2 5\\n'"
WRONG_FINDERS = {  # what is no answer of LONGER
    "fails": "exit 3", "says nothing": "exit 0", "says it and fails": f"{RIGHT}; exit 1",
    "is ended by a signal": f"{RIGHT}; kill -KILL $$", "leaves the line open": "printf 'RING 1 1\\nRING 2 5'",
    "is cut after a line": "echo RING 1 1", "is cut in a line": "printf 'RING 1 1\\nRING 2'",
    "says more": f"{RIGHT}; echo more", "says NONE too": f"{RIGHT}; echo NONE",
    "says NONE twice": "echo NONE; echo NONE", "says it first": f"echo; {RIGHT}",
    "has no column": "echo RING 1; echo RING 2", "has another word": "echo NOTHING",
    "has a leading zero": "echo RING 01 1; echo RING 2 5", "lists": f"printf '{LISTED.decode()}'",
    "has a column of another list": "echo RING 1 1; echo RING 2 2",
    "has a column too many": "echo RING 1 1; echo RING 2 6", "has column 0": "echo RING 1 0; echo RING 2 5",
    "has nets of another list": "echo RING 7 1; echo RING 8 2",
    "has no net": "echo RING 0 1; echo RING 2 5", "is no ring": "echo RING 1 1; echo RING 2 2; echo RING 3 3",
    "goes round twice": f"{RIGHT}; {RIGHT}", "begins at another net": "echo RING 2 5; echo RING 1 1",
    "has too high a column": "echo RING 1 1; echo RING 2 4294967301",
    "refuses it as tangled": f"echo REFUSED 7 2; {RIGHT}",
    "refuses it as too long": "echo REFUSED 0 65536", "refuses it as too wide": "echo REFUSED 3 513",
    "refuses it as uneven": "echo REFUSED 4 6", "refuses a byte after its end": "echo REFUSED 2 30",
    "refuses a place after its end": "echo REFUSED 5 11", "refuses place 0": "echo REFUSED 5 0",
    "has a refusal of a board": "echo REFUSED 8 4", "has the number that is not used": "echo REFUSED 6 1",
    "has a refusal of no table": "echo REFUSED 17 1", "has a refusal of a draft": "echo REFUSED 22 1",
}


class Words(unittest.TestCase):
    def test_a_long_ring_is_cut_short(self):
        ring = answers.Ring(tuple((net, net) for net in range(1, 41)))
        words = rings.words_of(ring)
        self.assertTrue(words.startswith("the fewest wires to move: 40 nets: net 1 above net 2 in column 1, "), words)
        self.assertTrue(words.endswith("in column 12, and so on, 40 nets in all"), words)
        refusal = answers.Verdict("REFUSED", 7, 40, ring.pairs)
        self.assertTrue(explain.explained(refusal, b"")[0].endswith(words.partition(" nets: ")[2]))
        self.assertEqual(rings.words_of(answers.Ring(())), "")

    def test_the_same_ring(self):
        ring = answers.Ring(((1, 1), (2, 5)))
        for shown, same in ((ring.pairs, True), (ring.pairs[::-1], True), (((1, 1), (2, 2)), False),
                            ((*ring.pairs, (3, 3)), False)):
            words = rings.words_of(ring, shown)
            self.assertEqual(words == "the fewest wires to move: 2 nets, the same ring", same, shown)

    def test_whole_outputs(self):
        self.assertEqual(answers.ring_of(b"NONE\n"), answers.Ring(()))
        self.assertEqual(answers.ring_of(b"RING 1 1\nRING 2 5\n"), answers.Ring(((1, 1), (2, 5))))
        for output in (b"", b"NONE", b"NONE\nNONE\n", b"RING 1 1", b"RING 1 1\nNONE\n", b"REFUSED 4 2\n"):
            self.assertIsNone(answers.ring_of(output), output)

    def test_the_answers_of_any_list(self):
        """The independent program's answer of a list is taken, and not with a pair less or two exchanged."""
        draw = random.Random(2026)
        for _ in range(400):
            rows = random_channels.escaping(draw)
            pairs, pins = tuple(channel.fewest_ring(*rows)), random_texts.typed(draw, *rows)
            self.assertTrue(rings.possible(answers.Ring(pairs), pins), pins)
            if pairs:
                self.assertFalse(rings.possible(answers.Ring(pairs[:-1]), pins), pins)
                self.assertFalse(rings.possible(answers.Ring(pairs[::-1]), pins), pins)


class Ring(Workshop):
    def told(self, pins, *words, **options):
        self.put("pins", pins)
        done = self.run_channel(*(words or ("ring", "pins")), **options)
        return done.status, done.output, done.words

    def test_what_is_found(self):
        for name, (pins, due, words) in FOUND.items():
            with self.subTest(name):
                self.assertEqual(self.told(pins), (0, due, f"{SAID}{words}\n"))
                self.assertEqual(self.told(in_columns(pins)), (0, due, f"{SAID}{words}\n"))

    def test_no_ring(self):
        for pins in NONE:
            self.assertEqual(self.told(pins), (0, b"NONE\n", ""), pins)

    def test_parked_pins(self):
        words = FOUND["C"][2]
        self.assertEqual(self.told(PARKED), (0, FOUND["C"][1], f"{SAID}{words}\n{PARKED_TOLD}"))
        self.assertEqual(self.told(b"TOP 1 1 9\nBOT 2 2 0\n"), (0, b"NONE\n", PARKED_TOLD))

    def test_a_long_ring(self):
        nets = range(1, 512)
        pins = f"TOP {' '.join(map(str, nets))}\nBOT {' '.join(map(str, [*nets[1:], 1]))}\n".encode()
        status, output, words = self.told(pins)
        self.assertEqual((status, output), (0, b"".join(b"RING %d %d\n" % (net, net) for net in nets)))
        self.assertTrue(words.startswith(f"{SAID}511 nets: net 1 ") and words.endswith("and so on, 511 nets in all\n"))

    def test_standard_input(self):
        status, output, words = self.told(A, "ring", "-", stdin=LONGER)
        self.assertEqual((status, output), (0, FOUND["longer"][1]))
        self.assertTrue(words.startswith("channel: standard input: the fewest wires to move: 2 nets: net 1 above "))

    def test_what_is_refused(self):
        for pins, due in REFUSED_LISTS.items():
            with self.subTest(pins[:20]):
                status, output, words = self.told(pins)
                self.assertEqual((status, output, words.count("\n")), (1, due, 2))
                self.assertEqual(words, self.told(pins, "list", "pins")[2])

    def test_refusal_7_stays_as_it_is(self):
        status, output, words = self.told(LONGER, "list", "pins")
        self.assertEqual((status, output), (1, b"REFUSED 7 4\nRING 1 1\nRING 2 2\nRING 3 3\nRING 4 4\n"))
        self.assertEqual((words.count("\n"), "fewest" in words), (2, False))

    def test_wrong_use(self):
        for words in ((), ("pins", "pins"), ("none",), (".",), ("--none", "pins"), ("",), ("pins", "--laminate=pins")):
            with self.subTest(words):
                status, output, said = self.told(A, "ring", *words)
                self.assertEqual((status, output, said.count("\n")), (2, b"", 1))
        self.assertIn("usage: channel ring PINS", self.told(A, "ring")[2])
        self.assertIn("cannot read none: No such file or directory", self.told(A, "ring", "none")[2])

    def test_help(self):
        status, output, words = self.told(A, "help", "ring")
        self.assertEqual((status, words), (0, ""))
        self.assertTrue(output.startswith(b"usage: channel ring PINS\n\nPrints the ring with the fewest nets"))
        self.assertEqual(self.told(A, "ring", "--help")[1], output)

    def test_names_that_begin_with_a_dash(self):
        self.put("-odd", LONGER)
        self.assertEqual(self.told(A, "ring", "--", "-odd")[:2], (0, FOUND["longer"][1]))


class WrongFinders(Workshop):
    def failed(self, *parts, pins=LONGER, asked=("ring", "picture"), named="the ring finder"):
        """No command takes it for an answer: status 2, one line that names the step, nothing on standard output."""
        self.put("pins", pins)
        for command in asked:
            done = self.run_channel(command, "pins")
            self.assertEqual((done.status, done.output, done.words.count("\n")), (2, b"", 1), done.words)
            for part in (f"channel: {named} ", *parts):
                self.assertIn(part, done.words)

    def test_no_answer(self):
        for name, script in WRONG_FINDERS.items():
            with self.subTest(name):
                self.fake("ring_finder", script)
                self.failed("failed: ")

    def test_the_reason_is_told(self):
        for script, part in (("echo worn out >&2; exit 3", "it ended with status 3 and said: worn out"),
                             ("kill -SEGV $$", "it was ended by signal SIGSEGV"),
                             ("echo RING", "its output is neither a ring, nor NONE, nor a refusal (5 bytes, first "
                                           "b'RING\\n')"),
                             ("echo RING 1 1", "what it says is no answer of this pin list (9 bytes, first")):
            self.fake("ring_finder", script)
            self.failed(part)

    def test_no_answer_of_a_text_that_is_no_list(self):
        for pins in (b"", b"TOP 1 2\n", b"TOP 1 \xff\nBOT 2 1\n", b"TOP 1 2 2\nBOT 2 1\n", b"TOP" + b" 0" * 40000):
            for script in ("echo NONE", "echo RING 1 1; echo RING 2 2", "echo REFUSED 5 1", "echo REFUSED 7 0"):
                self.fake("ring_finder", script)
                self.failed("failed: ", pins=pins, asked=("ring",))

    def test_one_net_is_no_ring(self):
        self.fake("ring_finder", "echo RING 5 1")
        self.failed("no answer of this pin list", pins=b"TOP 5 0\nBOT 5 0\n", asked=("ring",))

    def test_pictures_compare_it_with_the_ring_of_the_refusal(self):
        """There is a ring, and the fewest nets are no more than those of the listing's."""
        due = "of a list in which the listing program shows a ring of 2 nets it says what cannot be ("
        self.fake("ring_finder", "echo NONE")
        self.failed(due, pins=TANGLED, asked=("picture",))
        self.fake("listing", "echo REFUSED 7 2; echo RING 1 1; echo RING 2 5")
        self.fake("ring_finder", "for n in 1 2 3 4; do echo RING $n $n; done")
        self.failed(due, asked=("picture",))

    def test_a_finder_that_is_missing_or_no_program(self):
        program = self.home / "bin" / "ring_finder"
        program.unlink()
        self.failed("is missing: install the command again\n", named=program)
        self.put("pins", A)
        for words in (("list", "pins"), ("board", "pins"), ("make", "pins", "board"), ("judge", "pins", "board")):
            self.assertEqual(self.run_channel(*words).status, 0, words)
        program.write_bytes(b"")
        self.failed("could not be run: ")

    def test_what_it_is_given(self):
        asked = self.home / "asked"
        self.fake("ring_finder", f"cat >>'{asked}'; {RIGHT}")
        self.put("pins", LONGER)
        for words in (("ring", "pins"), ("picture", "pins"), ("list", "pins"), ("turn", "pins")):
            self.run_channel(*words)
        self.put("pins", A)
        self.run_channel("picture", "pins")
        self.assertEqual(asked.read_bytes(), 2 * LONGER)
        os.unlink(asked)
