"""The board turned over: `turn` exchanges TOP and BOT and no other byte, and `make` says when that saves tracks."""
import random
import subprocess
import sys
import unittest

from command.answers import Facts, Verdict
from command.tests.workshop import A, LISTED, OLD, ROOT, TANGLED, Workshop
from command.turning import either_way, saving_words, turned

sys.path.insert(0, str(ROOT / "reference"))
import channel  # noqa: E402  (the independent program, which reads the lists)
import random_channels  # noqa: E402
import random_texts  # noqa: E402
from text_cases import in_columns  # noqa: E402

A_TURNED = b"TOP 1 2 0 3\nBOT 0 1 2 3\n"
SAVES = b"TOP 1 2 1 3 3\nBOT 0 0 0 0 2\n"
SAVES_LISTED = b"BOARD 5 3 8\nBOUND 2 2\nNET 1 1 3 1\nNET 2 2 5 2\nNET 3 4 5 3\nEND 15\n"
SAVES_TOLD = "turned over, its board takes 2 tracks, 1 fewer (channel turn writes the turned list)\n"
PARKED = b"TOP 1 1 30\nBOT 2 0 0\n"
PARKED_TOLD = ("channel: pins: 2 pins are parked (net 2 at column 1, BOT; net 30 at column 3, TOP): each number "
               "stands just once\n")
TURNED = {  # lists and their bytes turned over
    "plain": (A, A_TURNED),
    "padded": (b"TOP   0  11   2\nBOT  11   2   0\n", b"TOP  11   2   0\nBOT   0  11   2\n"),
    "pads that differ": (b"TOP  0 1    2 3\nBOT 1 2  0   3\n", b"TOP 1 2  0   3\nBOT  0 1    2 3\n"),
    "carriage returns": (b"TOP 5 0\r\nBOT 0 5\r\n", b"TOP 0 5\r\nBOT 5 0\r\n"),
    "one in TOP alone": (b"TOP 5 0\r\nBOT 0 5\n", b"TOP 0 5\nBOT 5 0\r\n"),
    "one in BOT alone": (b"TOP 5 0\nBOT   0 5\r\n", b"TOP   0 5\r\nBOT 5 0\n"),
    "one column": (b"TOP 7\nBOT 7\r\n", b"TOP 7\r\nBOT 7\n"),
    "as long as may be": (b"TOP" + b" " * 65525 + b"5\nBOT 5\n", b"TOP 5\nBOT" + b" " * 65525 + b"5\n"),
}
REFUSED = {  # lists and their refusals
    b"TOP" + b" 0" * 40000: b"REFUSED 0 65536\n",
    b"": b"REFUSED 2 0\n",
    b"TOP 1 02\nBOT 1 2\n": b"REFUSED 2 7\n",
    b"TOP 1\rBOT 1\r": b"REFUSED 2 6\n",
    b"TOP" + b" 0" * 513 + b"\nBOT" + b" 0" * 513 + b"\n": b"REFUSED 3 513\n",
    b"TOP 1 2 2\nBOT 1\n": b"REFUSED 4 2\n",
    b"TOP 1 1\nBOT 0 512\n": b"REFUSED 5 4\n",
}
SAYS_NOTHING_WHOLE = {  # what a listing program may do on its second call that is no answer
    "fails": "exit 3", "says nothing": "exit 0", "is ended by a signal": "kill -SEGV $$", "is cut": "echo BOARD 4 2 8",
    "says more": f"printf '{LISTED.decode()}more'", "says it and fails": f"printf '{LISTED.decode()}'; exit 1",
}
DISAGREES = {  # answers that no list with this listing has turned over, and what is said of them
    "another width": ("echo BOARD 5 2 8; echo BOUND 2 2; echo END 11", "width 5, density 2 and chain 2"),
    "another density": ("echo BOARD 4 2 8; echo BOUND 3 2; echo END 11", "width 4, density 3 and chain 2"),
    "another chain": ("echo BOARD 4 2 8; echo BOUND 2 1; echo END 11", "width 4, density 2 and chain 1"),
    "tangled": ("echo REFUSED 7 1; echo RING 1 1", "refusal 7"),
    "refused": ("echo REFUSED 4 2", "refusal 4"),
}


class Bytes(unittest.TestCase):
    def test_what_stands_behind_the_words_is_exchanged(self):
        for name, (pins, due) in TURNED.items():
            with self.subTest(name):
                self.assertEqual((turned(pins), turned(due)), (due, pins))

    def test_the_rows_of_any_list(self):
        draw = random.Random(2026)
        for _ in range(300):
            pins = random_texts.typed(draw, *random_channels.escaping(draw))
            self.assertEqual(channel.parse(turned(pins)), channel.parse(pins)[::-1], pins)
            self.assertEqual(turned(turned(pins)), pins)

    def test_what_is_so_of_both(self):
        self.assertEqual(either_way(Facts(4, 2, 8, 2, 2, 11)), either_way(Facts(4, 3, 8, 2, 2, 11)))
        self.assertEqual(either_way(Verdict("REFUSED", 7, 2, ())), either_way(Verdict("REFUSED", 7, 3, ())))

    def test_the_words_of_a_saving(self):
        facts = {tracks: Facts(9, tracks, 8, 1, 1, 5) for tracks in (1, 2, 5)}
        self.assertEqual([saving_words(facts[a], facts[b]) for a, b in ((1, 1), (2, 5))], ["", ""])
        self.assertTrue(saving_words(facts[5], facts[2]).startswith("turned over, its board takes 2 tracks, 3 fewer ("))
        self.assertTrue(saving_words(facts[2], facts[1]).startswith("turned over, its board takes 1 track, 1 fewer ("))


class Turn(Workshop):
    def told(self, pins, *words, **options):
        self.put("pins", pins)
        done = self.run_channel(*(words or ("turn", "pins")), **options)
        return done.status, done.output, done.words

    def test_the_turned_list(self):
        for name, (pins, due) in TURNED.items():
            with self.subTest(name):
                self.assertEqual(self.told(pins), (0, due, ""))
                self.assertEqual(self.told(due), (0, pins, ""))

    def test_standard_input(self):
        self.assertEqual(self.told(A, "turn", "-", stdin=SAVES), (0, turned(SAVES), ""))

    def test_through_a_pipe_into_another_command(self):
        channel = self.home / "channel"
        for pins in (SAVES, in_columns(SAVES)):
            self.put("pins", pins)
            done = subprocess.run(["sh", "-c", '"$0" turn pins | "$0" list -', channel], cwd=self.room, check=False,
                                  stdout=subprocess.PIPE, stderr=subprocess.PIPE)
            self.assertEqual((done.returncode, done.stderr), (0, b""))
            self.assertEqual(done.stdout, b"BOARD 5 2 8\nBOUND 2 2\nNET 1 1 3 1\nNET 2 2 5 2\nNET 3 4 5 1\nEND 15\n")

    def test_a_refused_list_is_refused_as_by_list(self):
        for pins, due in REFUSED.items():
            with self.subTest(due, pins=pins[:30]):
                status, output, words = self.told(pins)
                self.assertEqual((status, output), (1, due))
                self.assertEqual(self.told(pins, "list", "pins"), (status, output, words))

    def test_a_tangled_list_is_turned(self):
        status, output, words = self.told(b"TOP 1 2 0\r\nBOT  2 1 0\n")
        self.assertEqual((status, output), (0, b"TOP  2 1 0\nBOT 1 2 0\r\n"))
        self.assertEqual(words.count("\n"), 1)
        self.assertIn("channel: pins: the list is tangled, and stays so turned over", words)
        self.assertEqual(self.told(output, "list", "pins")[:2], (1, b"REFUSED 7 2\nRING 1 2\nRING 2 1\n"))

    def test_rings_that_differ_are_no_disagreement(self):
        pins = b"TOP 1 1 2 3\nBOT 2 3 3 1\n"  # it has two rings, and each way up another is shown
        listed, over = (self.told(list_, "list", "pins")[1] for list_ in (pins, turned(pins)))
        self.assertEqual((listed[:12], over[:12]), (b"REFUSED 7 3\n", b"REFUSED 7 2\n"))
        self.assertEqual(self.told(pins)[:2], (0, turned(pins)))

    def test_parked_pins_are_told_of_the_list_given(self):
        self.assertEqual(self.told(PARKED), (0, b"TOP 2 0 0\nBOT 1 1 30\n", PARKED_TOLD))
        told = self.told(A, "turn", "-", stdin=PARKED)[2]
        self.assertEqual(told, PARKED_TOLD.replace("pins:", "standard input:", 1))
        status, _, words = self.told(b"TOP 1 2 9\nBOT 2 1 0\n")
        self.assertEqual((status, words.count("\n")), (0, 2))
        self.assertIn("1 pin is parked (net 9 at column 3, TOP)", words.splitlines()[1])

    def test_wrong_use(self):
        for words in (("turn",), ("turn", "pins", "board"), ("turn", "--none", "pins"), ("turn", "none"),
                      ("turn", "."), ("turn", "-pins"), ("help", "turn", "list")):
            with self.subTest(words):
                status, output, said = self.told(A, *words)
                self.assertEqual((status, output, said.count("\n")), (2, b"", 1))
        self.put("-odd", A)
        self.assertEqual(self.told(A, "turn", "--", "-odd"), (0, A_TURNED, ""))


class Outputs(Workshop):
    def test_standard_error_that_is_full_changes_no_status(self):
        self.put("tangled", TANGLED)
        self.put("saves", SAVES)
        with open("/dev/full", "wb") as full:
            done = self.run_channel("turn", "tangled", stderr=full)
            self.assertEqual((done.status, done.output), (0, turned(TANGLED)))
            done = self.run_channel("make", "saves", "board", stderr=full)
            self.assertEqual((done.status, done.output), (0, SAVES_LISTED))
        self.assertIn("board", self.files())


class Make(Workshop):
    def made(self, pins, *words):
        """How `make` ends, what it writes, what it says, and the board that it leaves."""
        self.put("pins", pins)
        (self.room / "board").unlink(missing_ok=True)
        done = self.run_channel(*(words or ("make", "pins", "board")))
        board = (self.room / "board").read_bytes() if "board" in self.files() else None
        return done.status, done.output, done.words, board

    def judged(self, board):
        self.put("board", board)
        return self.run_channel("judge", "pins", "board").output

    def test_tracks_that_are_saved(self):
        for pins in (SAVES, in_columns(SAVES)):
            status, output, words, board = self.made(pins)
            self.assertEqual((status, output, words), (0, SAVES_LISTED, f"channel: pins: {SAVES_TOLD}"))
            self.assertEqual(self.judged(board), b"GOOD 3\n")

    def test_the_better_way_up(self):
        status, output, words, board = self.made(turned(SAVES))
        self.assertEqual((status, output[:12], words), (0, b"BOARD 5 2 8\n", ""))
        self.assertEqual(self.judged(board), b"GOOD 2\n")

    def test_nothing_is_saved(self):
        for pins in (A, A_TURNED, b"TOP 1 1\nBOT 0 0\n", b"TOP 0\nBOT 0\n"):
            self.assertEqual(self.made(pins)[2], "")

    def test_a_board_on_standard_output(self):
        board = self.made(SAVES)[3]
        self.assertEqual(self.made(SAVES, "make", "pins", "-"),
                         (0, board, SAVES_LISTED.decode() + f"channel: pins: {SAVES_TOLD}", None))
        done = self.run_channel("make", "-", "-", stdin=SAVES)
        self.assertEqual((done.status, done.output), (0, board))
        self.assertTrue(done.words.endswith(f"channel: standard input: {SAVES_TOLD}"))

    def test_parked_pins_are_told_after_it(self):
        _, _, words, _ = self.made(b"TOP 1 2 1 3 3 9\nBOT 0 0 0 0 2 0\n")
        self.assertEqual(words, f"channel: pins: {SAVES_TOLD}channel: pins: 1 pin is parked (net 9 at column 6, TOP): "
                                "its number stands just once\n")

    def test_only_make_says_it(self):
        for words in (("list", "pins"), ("board", "pins"), ("picture", "pins")):
            self.assertEqual(self.made(SAVES, *words)[2], "")


class WrongSecondListing(Workshop):
    """A listing program that is right once, and wrong of the turned list."""

    def setUp(self):
        super().setUp()
        self.asked = self.home / "asked"
        if self.asked.exists():
            self.asked.rmdir()

    def right_once(self, script):
        right = f"exec '{ROOT}/target/bin/listing'"
        self.fake("listing", f"if mkdir '{self.asked}' 2>/dev/null; then {right}; fi\n{script}")

    def failed(self, script, *parts):
        """Neither command writes anything, and both name the step."""
        self.put("board", OLD)
        for words in (("turn", "pins"), ("make", "pins", "board"), ("make", "pins", "-"), ("make", "pins", "new")):
            self.right_once(script)
            done = self.run_channel(*words)
            self.assertTrue(self.asked.exists())
            self.asked.rmdir()
            self.assertEqual((done.status, done.output, done.words.count("\n")), (2, b"", 1), done.words)
            for part in ("the listing program failed: ", *parts):
                self.assertIn(part, done.words)
            self.assertEqual(((self.room / "board").read_bytes(), self.files()), (OLD, ["board", "pins"]))

    def test_no_whole_answer(self):
        for name, script in SAYS_NOTHING_WHOLE.items():
            with self.subTest(name):
                self.failed(script)

    def test_answers_that_do_not_agree(self):
        for name, (script, part) in DISAGREES.items():
            with self.subTest(name):
                self.failed(script, f"of the pin list it says width 4, density 2 and chain 2, of the same list turned "
                                    f"over {part}; nothing is written")

    def test_a_tangled_list_that_is_none_turned_over(self):
        self.put("pins", TANGLED)
        for script in ("echo BOARD 2 1 8; echo BOUND 1 1; echo END 5", "echo REFUSED 2 0", "exit 0"):
            with self.subTest(script):
                self.right_once(script)
                done = self.run_channel("turn", "pins")
                self.assertEqual((done.status, done.output, done.words.count("\n")), (2, b"", 1), done.words)
                self.asked.rmdir()

    def test_a_refused_list_is_not_asked_of_turned_over(self):
        for pins, words in ((TANGLED, ("make", "pins", "board")), (b"TOP 1\nBOT 1 1\n", ("make", "pins", "board")),
                            (b"TOP 1\nBOT 1 1\n", ("turn", "pins"))):
            self.put("pins", pins)
            self.right_once("exit 3")
            done = self.run_channel(*words)
            self.assertEqual((done.status, done.output[:8], self.files()), (1, b"REFUSED ", ["pins"]))
            self.asked.rmdir()

    def test_the_turned_list_is_what_is_asked_of(self):
        asked_of = self.home / "asked_of"
        for words in (("turn", "pins"), ("make", "pins", "board")):
            self.right_once(f"cat >'{asked_of}'; printf '{LISTED.decode()}'")
            self.assertEqual(self.run_channel(*words).status, 0)
            self.assertEqual(asked_of.read_bytes(), A_TURNED)
            asked_of.unlink()
            self.asked.rmdir()

    def test_other_tracks_are_agreed_with(self):
        self.right_once("echo BOARD 4 1 8; echo BOUND 2 2; echo END 11")
        done = self.run_channel("make", "pins", "board")
        self.assertEqual((done.status, done.output), (0, LISTED))
        self.assertEqual(done.words, f"channel: pins: {SAVES_TOLD.replace('2 tracks', '1 track')}")
