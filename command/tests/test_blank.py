"""Blanks of the stock and of a customer's own table: the form of its file, what `blank` answers, and wrong choosers."""
import os
import unittest

from command import answers, chooser, explain, own_blanks
from command.failure import Failure
from command.tests.workshop import LISTED, OLD, Workshop

PLAIN = b"2 4 16\n"
SIXTY_FOUR = " ".join(map(str, range(8, 513, 8))).encode()
HUGE = b"9" * 5000
FORMS = {  # files of the form, and their entries
    b"": [], b" ": [], b"\n": [], b"\r\n \n": [],
    b"5": ["5"], b"5\n": ["5"], b"2 4 16\n": ["2", "4", "16"], b"2\n4\n16": ["2", "4", "16"],
    b"2\r\n4\r\n16\r\n": ["2", "4", "16"], b"  2    4\n\n \r\n  16  \n\n": ["2", "4", "16"],
    b"0": ["0"], b"0 0": ["0", "0"], b"512 513 4294967296": ["512", "513", "4294967296"],
    b" " * 65535 + b"7": ["7"], b"1 " * 32768: ["1"] * 32768, HUGE: [HUGE.decode()],
}
OTHER_FORMS = {  # files of another form, and what their message has to have
    b"2\t4": ("line 1, column 2 a tab stands", "a tab parts numbers: part them by spaces"),
    b"2 4\t\r\n": ("line 1, column 4 a tab stands", "a tab stands at the end of the line: take it away"),
    b"\t2": ("line 1, column 1 a tab stands",),
    b"2 x": ("line 1, column 3 'x' stands", "a track count is a number, without letters"),
    b"12a": ("line 1, column 3 'a' stands", "without letters"),
    b"2\n4 08\n": ("line 2, column 4 '8' stands", "a number has no leading zero"),
    b"00": ("line 1, column 2 '0' stands", "a number has no leading zero"),
    b"2, 4": ("line 1, column 2 ',' stands", "parted by spaces or line ends and nothing else"),
    b"2\n-4": ("line 2, column 1 '-' stands", "a whole number without a sign"),
    b"2.5": ("line 1, column 2 '.' stands", "a whole number without a sign"),
    b"2 4 # ours": ("line 1, column 5 '#' stands", "a table of blanks has no comments"),
    b"\xef\xbb\xbf2": ("line 1, column 1 the byte EF", "byte order mark"),
    b"\xff\xfe2\0": ("the byte FF", "UTF-16"),
    b"2\xc2\xa04": ("line 1, column 2 the byte C2", "part them by plain spaces"),
    b"2\r4": ("line 1, column 2 a carriage return stands", "without a line feed behind it"),
    b"2 \r": ("line 1, column 3 a carriage return stands", "without a line feed behind it"),
    b"2\r\r\n": ("line 1, column 2 a carriage return stands", "without a line feed behind it"),
    b"2\0": ("line 1, column 2 a zero byte stands", "track counts are due there, parted by spaces or line ends"),
    b"2\v4": ("line 1, column 2 the byte 0B", "track counts are due there"),
    b"2 \xd9\xa3": ("line 1, column 3 the byte D9", "track counts are due there"),
    b" " * 65536 + b"7": ("it has more than 65536 bytes",),
    b"\t" * 65537: ("it has more than 65536 bytes",),
}
CHOSEN = {  # tracks and table, and the answer
    ("3", PLAIN): b"BLANK 4\n", ("4", PLAIN): b"BLANK 4\n", ("5", PLAIN): b"BLANK 16\n", ("0", PLAIN): b"BLANK 2\n",
    ("16", b"2\r\n4\r\n16"): b"BLANK 16\n", ("1", b"1"): b"BLANK 1\n", ("512", b"512\n"): b"BLANK 512\n",
    ("0", b"  512"): b"BLANK 512\n", ("505", SIXTY_FOUR): b"BLANK 512\n", ("8", SIXTY_FOUR): b"BLANK 8\n",
}
REFUSED = {  # tracks and table: the line, and what is said of it
    ("17", PLAIN): ("16 17", "table: no blank of the table holds 17 tracks; its last entry is 16",
                    "give a table whose last entry is at least 17"),
    ("512", b"511"): ("16 512", "its last entry is 511"),
    ("0", b""): ("15 0", "table: the table is bad at entry 0 (0: ", "; it has no entry\n", "give 1 to 64 track counts"),
    ("0", b" \r\n"): ("15 0", "; it has no entry\n"),
    ("0", b"1 " + SIXTY_FOUR): ("15 0", "; it has 65 entries\n"),
    ("512", b"1 " * 32768): ("15 0", "; it has 32768 entries\n"),
    ("0", b"0"): ("15 1", "the table is bad at entry 1 (0: ", "; entry 1 is 0\n"),
    ("0", b"0 0"): ("15 1", "; entry 1 is 0\n"),
    ("0", b"8 513"): ("15 2", "; entry 2 is 513, and entry 1 is 8\n"),
    ("0", b"8 8"): ("15 2", "; entry 2 is 8, and entry 1 is 8\n"),
    ("9", b"8 16 12 600"): ("15 3", "; entry 3 is 12, and entry 2 is 16\n"),
    ("9", b"8 16 4294967296"): ("15 3", "; entry 3 is 4294967296, and entry 2 is 16\n"),
    ("9", b"8 " + HUGE): ("15 2", "; entry 2 is 999999999999.. (5000 digits), and entry 1 is 8\n"),
    ("9", b"8 0"): ("15 2", "; entry 2 is 0, and entry 1 is 8\n"),
    ("513", PLAIN): ("14 513", "channel: no stock blank has 513 tracks; a table has none of over 512 either\n",
                     "order a board of at most 512 tracks"),
    ("513", b"8 8"): ("14 513", "no stock blank has 513 tracks"), ("513", b""): ("14 513", "no stock blank"),
    ("4294967295", PLAIN): ("14 4294967295", "no stock blank has 4294967295 tracks"),
}
WRONG_CHOOSERS = {  # what is no answer of 2 tracks and the table 2 4 16
    "fails": "exit 3", "says nothing": "exit 0", "says it and fails": "echo BLANK 2; exit 1",
    "is ended by a signal": "echo BLANK 2; kill -KILL $$", "leaves the line open": "printf 'BLANK 2'",
    "says more": "echo BLANK 2; echo more", "says it first": "echo; echo BLANK 2", "has no tracks": "echo BLANK",
    "has another word": "echo BLANKS 2", "has a leading zero": "echo BLANK 02", "lists": f"printf '{LISTED.decode()}'",
    "names a blank of no entry": "echo BLANK 3", "names one of the stock": "echo BLANK 8",
    "names one too small": "echo BLANK 1", "has a refusal of no table": "echo REFUSED 17 1",
    "has the number that is not used": "echo REFUSED 6 2", "has one of a pin list": "echo REFUSED 5 2",
    "has one of a draft": "echo REFUSED 21 2",
    "refuses other tracks": "echo REFUSED 14 3", "refuses other tracks of the table": "echo REFUSED 16 3",
    "refuses an entry that is not there": "echo REFUSED 15 4",
    "refuses 3 entries as none or too many": "echo REFUSED 15 0", "refuses few tracks as too many": "echo REFUSED 14 2",
}


class Form(unittest.TestCase):
    def test_files_of_the_form(self):
        for text, entries in FORMS.items():
            with self.subTest(text[:30]):
                self.assertEqual(own_blanks.table_of(text, "table"), ("table", entries))

    def test_files_of_another_form(self):
        for text, parts in OTHER_FORMS.items():
            with self.subTest(text[:30]), self.assertRaises(Failure) as failed:
                own_blanks.table_of(text, "table")
            self.assertTrue(str(failed.exception).startswith("table: this is no table of blanks: "), text[:30])
            for part in parts:
                self.assertIn(part, str(failed.exception))

    def test_what_is_handed_over(self):
        for entry, due in (("0", "0"), ("512", "512"), ("4294967295", "4294967295"), ("4294967296", "4294967295"),
                           ("10000000000", "4294967295"), (HUGE.decode(), "4294967295")):
            self.assertEqual(chooser.handed(entry), due)

    def test_lines_of_a_message_are_short_of_a_page(self):
        table = [HUGE.decode()] * 3
        for number, place in ((14, 513), (15, 0), (15, 3), (16, 4)):
            verdict = answers.Verdict("REFUSED", number, place, ())
            self.assertLess(max(map(len, explain.explained_choice(verdict, table, "table"))), 480)


class Blank(Workshop):
    def told(self, *words, **options):
        done = self.run_channel("blank", *words, **options)
        return done.status, done.output, done.words

    def test_the_stock(self):
        for tracks, due in (("0", 8), ("8", 8), ("9", 12), ("257", 512), ("512", 512)):
            self.assertEqual(self.told(tracks), (0, b"BLANK %d\n" % due, ""))
        self.assertEqual(self.told("513"), (1, b"REFUSED 14 513\n", "channel: no stock blank has 513 tracks\n"
                                                                    "channel: order a board of at most 512 tracks\n"))
        self.assertEqual(self.told("4294967295")[:2], (1, b"REFUSED 14 4294967295\n"))

    def test_a_table(self):
        for (tracks, table), due in CHOSEN.items():
            with self.subTest(tracks, table=table[:30]):
                self.put("table", table)
                self.assertEqual(self.told(tracks, "table"), (0, due, ""))
                done = self.told(tracks, "-", stdin=table)
                self.assertEqual(done, (0, due, ""))

    def test_what_is_refused(self):
        for (tracks, table), (line, *parts) in REFUSED.items():
            with self.subTest(tracks, table=table[:30]):
                self.put("table", table)
                status, output, words = self.told(tracks, "table")
                self.assertEqual((status, output, words.count("\n")), (1, f"REFUSED {line}\n".encode(), 2))
                for part in parts:
                    self.assertIn(part, words)
        self.assertIn("channel: standard input: the table", self.told("3", "-", stdin=b"0")[2])

    def test_a_file_that_is_no_table(self):
        for text, parts in OTHER_FORMS.items():
            with self.subTest(text[:30]):
                self.put("table", text)
                status, output, words = self.told("513", "table")
                self.assertEqual((status, output, words.count("\n")), (2, b"", 1))
                self.assertTrue(words.startswith("channel: table: this is no table of blanks: "), words)
                self.assertIn(parts[0], words)
        self.assertIn("standard input: this is no table of blanks: at line 1", self.told("3", "-", stdin=b"2,4")[2])

    def test_wrong_use(self):
        self.put("table", PLAIN)
        for words in ((), ("",), ("x",), ("+5",), ("-5",), ("--", "-5"), ("05",), ("5 ",), ("5.0",), ("1e2",), ("٣",),
                      ("4294967296",), ("9" * 5000,), ("5", "table", "table"), ("5", "none"), ("5", "."), ("5", ""),
                      ("--none", "5"), ("5", "--laminate", "table"), ("x", "table"), ("x", "none")):
            with self.subTest(words):
                status, output, said = self.told(*words)
                self.assertEqual((status, output, said.count("\n")), (2, b"", 1))
        self.assertIn("cannot read none: No such file or directory", self.told("5", "none")[2])
        self.assertIn("cannot read .: Is a directory", self.told("5", ".")[2])
        self.assertIn("TRACKS is a whole number of 0 to 4294967295", self.told("05", "none")[2])

    def test_names_that_begin_with_a_dash(self):
        self.put("-odd", PLAIN)
        self.assertEqual(self.told("3", "--", "-odd"), (0, b"BLANK 4\n", ""))


class WrongChoosers(Workshop):
    def setUp(self):
        super().setUp()
        self.put("table", PLAIN)
        self.put("board", OLD)

    def failed(self, *parts, words=None, named="the blank chooser"):
        """Neither command takes it for an answer: status 2, one line that names the step, the board as it was."""
        for asked in ((words,) if words else (("blank", "2", "table"), ("make", "pins", "board", "--laminate=table"),
                                              ("make", "pins", "-", "--laminate", "table"))):
            done = self.run_channel(*asked)
            self.assertEqual((done.status, done.output, done.words.count("\n")), (2, b"", 1), done.words)
            for part in (f"channel: {named} ", *parts):
                self.assertIn(part, done.words)
            self.assertEqual(((self.room / "board").read_bytes(), self.files()), (OLD, ["board", "pins", "table"]))

    def test_no_answer(self):
        for name, script in WRONG_CHOOSERS.items():
            with self.subTest(name):
                self.fake("choose", script)
                self.failed("failed: ")

    def test_the_reason_is_told(self):
        for script, part in (("echo worn out >&2; exit 3", "it ended with status 3 and said: worn out"),
                             ("kill -SEGV $$", "it was ended by signal SIGSEGV"),
                             ("echo BLANK", "its output is neither a blank nor a refusal (6 bytes, first b'BLANK\\n')"),
                             ("echo BLANK 3", "of 2 tracks it says BLANK 3, which is no answer")):
            self.fake("choose", script)
            self.failed(part)

    def test_an_entry_that_is_too_small(self):
        self.fake("choose", "echo BLANK 2")
        self.failed("of 3 tracks it says BLANK 2, which is no answer", words=("blank", "3", "table"))

    def test_no_answer_of_the_stock(self):
        for script in ("echo BLANK 1", "echo BLANK 513", "echo REFUSED 14 3", "echo REFUSED 14 2", "echo REFUSED 15 0",
                       "echo REFUSED 16 2"):
            self.fake("choose", script)
            self.failed("which is no answer", words=("blank", "2"))

    def test_no_answer_of_too_many_tracks(self):
        self.put("table", b"2 4 600")
        for script in ("echo BLANK 600", "echo REFUSED 15 3", "echo REFUSED 16 513", "echo REFUSED 14 512"):
            self.fake("choose", script)
            self.failed("which is no answer", words=("blank", "513", "table"))

    def test_no_answer_of_a_large_entry(self):
        self.put("table", b"2 4 600")
        self.fake("choose", "echo BLANK 600")
        self.failed("which is no answer")

    def test_no_answer_of_too_long_a_table(self):
        self.put("table", b" ".join(b"%d" % n for n in range(1, 66)))
        self.fake("choose", "echo REFUSED 15 3")
        self.failed("which is no answer")

    def test_no_answer_of_an_empty_table(self):
        self.put("table", b"")
        for script in ("echo BLANK 2", "echo REFUSED 16 2", "echo REFUSED 15 1"):
            self.fake("choose", script)
            self.failed("which is no answer")

    def test_a_chooser_that_is_missing_or_no_program(self):
        program = self.home / "bin" / "choose"
        program.unlink()
        self.failed("is missing: install the command again\n", named=program)
        program.write_bytes(b"")
        self.failed("could not be run: ")

    def test_what_it_is_asked(self):
        self.fake("choose", f"echo \"$@\" >>'{self.home}/asked'; echo BLANK 2")
        self.run_channel("blank", "2")
        self.run_channel("blank", "2", "table")
        self.run_channel("make", "pins", "board", "--laminate", "table")
        asked = self.home / "asked"
        self.assertEqual(asked.read_text(), "stock 2\nown 2 2 4 16\nown 2 2 4 16\n")
        os.unlink(asked)
