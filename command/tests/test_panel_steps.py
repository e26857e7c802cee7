"""No panel is written where a step fails: panel joiners and listing programs that are wrong."""
import resource

from command.tests.panel_lists import A_B, B, B_A, Panels, begins, text, wide
from command.tests.workshop import A, LISTED, ROOT, TANGLED

RIGHT = f"printf '{A_B.decode()}'"
WRONG_JOINERS = {  # what is no answer of A and B
    "fails": "exit 3", "says nothing": "exit 0", "says it and fails": f"{RIGHT}; exit 1",
    "is ended by a signal": f"{RIGHT}; kill -KILL $$", "leaves the line open": f"{RIGHT} | head -c -1",
    "is cut after a line": f"{RIGHT} | head -1", "is cut in a line": f"{RIGHT} | head -c 20",
    "lacks a column": f"{RIGHT} | sed 's/ [0-9]*$//'", "has a column more": f"{RIGHT} | sed 's/$/ 0/'",
    "is uneven": f"{RIGHT} | sed '2s/ 7$//'", "says more": f"{RIGHT}; echo more", "says it first": f"echo; {RIGHT}",
    "says it twice": f"{RIGHT}; {RIGHT}", "has two spaces": f"{RIGHT} | sed 's/ 4/  4/'",
    "ends lines in two bytes": f"{RIGHT} | sed 's/$/\\r/'", "has a leading zero": f"{RIGHT} | sed 's/ 4/ 04/'",
    "exchanges the rows": f"{RIGHT} | tac",
    "turns it over": f"{RIGHT} | tac | sed 's/BOT/NOW/; s/TOP/BOT/; s/NOW/TOP/'",
    "has one number wrong": f"{RIGHT} | sed 's/ 9/ 10/'", "raises 0": f"{RIGHT} | sed 's/ 0 4/ 3 4/'",
    "raises nothing": f"printf '{(A[:11] + B[3:18] + A[12:23] + B[21:]).decode()}'",
    "has the second list first": f"printf '{B_A.decode()}'",
    "leaves the second list out": f"printf '{A.decode()}'", "joins other lists": "printf 'TOP 1 2\\nBOT 1 2\\n'",
    "lists": f"printf '{LISTED.decode()}'", "refuses it as too long": "echo REFUSED 0 65536",
    "refuses it as garbled": "echo REFUSED 2 0", "refuses it as too wide": "echo REFUSED 3 513",
    "refuses it as uneven": "echo REFUSED 4 5", "refuses a net": "echo REFUSED 5 1",
    "refuses it as tangled": "printf 'REFUSED 7 2\\nRING 1 1\\nRING 2 2\\n'",
    "says that it is full": "echo REFUSED 18 512", "has a refusal of a board": "echo REFUSED 8 4",
    "has a number that is not used": "echo REFUSED 17 1", "has another that is not used": "echo REFUSED 19 1",
    "has a refusal of a draft": "echo REFUSED 23 1",
    "has a refusal of no table": "echo REFUSED 24 1", "refuses and joins": f"echo REFUSED 3 513; {RIGHT}",
    "changes a file": f"printf x >>second; {RIGHT}", "takes a file away": f"rm first; {RIGHT}",
}
WRONG_OF_PANEL = {  # what a listing program may say of A_B that does not follow from what it says of A and of B
    "another width": "s/BOARD 11/BOARD 12/", "other tracks": "s/BOARD 11 5/BOARD 11 6/",
    "another blank": "s/5 8$/5 12/", "another density": "s/BOUND 4/BOUND 5/",
    "another chain": "s/BOUND 4 3/BOUND 4 4/", "a net less": "/NET 4/d",
    "a net more": "s/END/NET 10 1 1 0\\nEND/", "another track": "s/NET 5 9 10 3/NET 5 9 10 2/",
    "a net of another number": "s/NET 9/NET 10/", "another first column": "s/NET 9 5/NET 9 4/",
    "another last column": "s/NET 7 8 11/NET 7 8 10/", "nets not in order": "/NET 8/{h;d};/NET 9/G",
    "other pieces": "s/END 41/END 42/",
}
NO_ANSWERS = {  # what it may do then that is none at all, or a refusal
    "fails": "exit 3", "says nothing": "exit 0", "is cut": "echo BOARD 11 5 8", "refuses it": "echo REFUSED 5 1",
    "is ended by a signal": "kill -SEGV $$", "says that it is tangled": "printf 'REFUSED 7 2\\nRING 1 1\\nRING 2 2\\n'",
}


class WrongJoiners(Panels):
    def test_a_right_one(self):
        self.fake("panel_joiner", RIGHT)
        self.assertEqual(self.told(A, B), (0, A_B, begins(5, 3)))

    def test_no_answer(self):
        for name, script in WRONG_JOINERS.items():
            with self.subTest(name):
                self.fake("panel_joiner", script)
                self.failed("channel: the ")

    def test_the_reason_is_told(self):
        for script, part in (("echo worn out >&2; exit 3", "failed: it ended with status 3 and said: worn out"),
                             ("kill -SEGV $$", "failed: it was ended by signal SIGSEGV"),
                             ("echo TOP 1", "failed: its output is neither a pin list nor a refusal (6 bytes, first "
                                            "b'TOP 1\\n'); nothing is written"),
                             ("echo REFUSED 4 5", "failed: what it says is not what is due of these two lists (12 "
                                                  "bytes, first b'REFUSED 4 5\\n'); nothing is written")):
            self.fake("panel_joiner", script)
            self.failed(part)
        self.fake("panel_joiner", f"printf x >>first; {RIGHT}")
        self.failed("the files for the panel joiner are not those that were written\n")

    def test_the_answer_of_other_files(self):
        """A joiner that answers for A and B, whatever it is given."""
        self.fake("panel_joiner", RIGHT)
        for lists in ((B, A), (A, A), (A, TANGLED), (A, b""), (b"", B), (A, wide(512)), (A, wide(1, 511)),
                      (A, b"TOP 0 1 6 1 2 3 5\nBOT 6 3 5 4 0 2\n")):
            self.failed("not what is due of these two lists", lists=lists)

    def test_a_refusal_that_is_not_the_one_due(self):
        for lists, due, others in (((A, b""), "2 0", ("2 1", "4 1", "3 513", "18 512")),
                                   ((A, b"TOP 512\nBOT 0\n"), "5 1", ("5 2", "5 9", "18 515")),
                                   ((b"TOP 1\nBOT 1 1\n", b""), "4 2", ("2 0", "4 1")),
                                   ((A, wide(512, 511)), "3 513", ("3 516", "18 514", "3 512")),
                                   ((A, wide(1, 511)), "18 514", ("18 511", "18 512", "3 513"))):
            self.fake("panel_joiner", f"echo REFUSED {due}")
            self.assertEqual(self.told(*lists)[:2], (1, f"REFUSED {due}\n".encode()))
            for other in others:
                self.fake("panel_joiner", f"echo REFUSED {other}")
                self.failed("not what is due of these two lists", lists=lists)

    def test_joined_where_a_refusal_is_due(self):
        for lists, panel in (((A, wide(512, 1)), text([0, 1, 2, 3] + [0] * 511 + [4], [1, 2, 0, 3] + [0] * 511 + [4])),
                             ((A, wide(1, 511)), b"TOP 0 1 2 3 514\nBOT 1 2 0 3 514\n"),
                             ((A, b"TOP 1 1\nBOT 0\n"), b"TOP 0 1 2 3 4 4\nBOT 1 2 0 3 0\n")):
            self.fake("panel_joiner", f"printf '{panel.decode()}'")
            self.failed("not what is due of these two lists", lists=lists)

    def test_a_joiner_that_is_missing_or_no_program(self):
        program = self.home / "bin" / "panel_joiner"
        program.unlink()
        self.failed("is missing: install the command again\n", named=str(program))
        self.put("board", self.board)
        for words in (("list", "pins"), ("board", "pins"), ("make", "pins", "board"), ("judge", "pins", "board"),
                      ("turn", "pins"), ("ring", "pins"), ("picture", "pins", "--second", "3")):
            self.assertEqual(self.run_channel(*words).status, 0, words)
        (self.room / "board").unlink()
        program.write_bytes(b"")
        self.failed("could not be run: ")

    def test_what_it_is_given(self):
        asked = self.home / "asked"
        asked.mkdir()
        self.fake("panel_joiner", f"cp * '{asked}'; cat >'{asked}/input'; {RIGHT}")
        self.assertEqual(self.told(A, B)[0], 0)
        given = {path.name: path.read_bytes() for path in asked.iterdir()}
        self.assertEqual(given, {"first": A, "second": B, "input": b""})

    def test_a_full_disk_for_its_files(self):
        for most in (0, 8):
            limit = {"preexec_fn": lambda most=most: resource.setrlimit(resource.RLIMIT_FSIZE, (most, most))}
            self.failed("the files for the panel joiner could not be written", lists=(A, B), **limit)


class WrongListings(Panels):
    """A listing program that is right of the two lists, and wrong of the panel."""

    def wrong_of_panel(self, script):
        """RIGHT in the script is the right program with its input."""
        asked = self.home / "asked_of"
        right = f"'{ROOT}/target/bin/listing' <'{asked}'"
        self.fake("listing", f"cat >'{asked}'\nif [ $(head -1 '{asked}' | wc -w) -lt 10 ]; then exec {right}; fi\n"
                             + script.replace("RIGHT", right))

    def failed(self, *parts, named="the listing program failed: ", **options):
        super().failed(*parts, named=named, **options)

    def test_a_right_one(self):
        self.wrong_of_panel("RIGHT")
        self.assertEqual(self.told(A, B), (0, A_B, begins(5, 3)))
        self.assertEqual((self.home / "asked_of").read_bytes(), A_B)

    def test_what_does_not_follow(self):
        for name, edit in WRONG_OF_PANEL.items():
            with self.subTest(name):
                self.wrong_of_panel(f"RIGHT | sed '{edit}'")
                self.failed("what it says of the panel does not follow from what it says of its two lists (",
                            "; nothing is written\n")

    def test_no_listing(self):
        for name, script in NO_ANSWERS.items():
            with self.subTest(name):
                self.wrong_of_panel(script)
                self.failed()

    def test_a_tangled_list_whose_panel_is_not(self):
        tangled = b"TOP 1 2 0 0 0 0\nBOT 2 1 0 0 0 0\n"
        for lists in ((tangled, A), (A, tangled), (tangled, tangled)):
            for script in ("echo BOARD 10 2 8; echo BOUND 2 2; echo END 0", "echo REFUSED 3 513", "exit 0"):
                self.wrong_of_panel(script)
                self.failed(lists=lists)

    def test_which_ring_is_shown_is_not_asked(self):
        self.wrong_of_panel("printf 'REFUSED 7 3\\nRING 9 1\\nRING 8 2\\nRING 7 3\\n'")
        self.assertEqual(self.told(A, b"TOP 1 2 0 0 0 0\nBOT 2 1 0 0 0 0\n")[:2],
                         (0, b"TOP 0 1 2 3 4 5 0 0 0 0\nBOT 1 2 0 3 5 4 0 0 0 0\n"))

    def test_a_panel_that_is_refused_is_not_listed(self):
        self.wrong_of_panel("exit 3")
        for lists, due in (((A, wide(1, 511)), b"REFUSED 18 514\n"), ((A, b""), b"REFUSED 2 0\n")):
            self.assertEqual(self.told(*lists)[:2], (1, due))

    def test_wrong_of_a_list(self):
        """What it says of a list has to be an answer of that text, and the panel joiner has to say the same."""
        self.fake("listing", "exit 3")
        self.failed("it ended with status 3")
        for refusal in ("5 99", "8 4", "18 600", "0 65536", "2 99", "4 5"):
            self.fake("listing", f"echo REFUSED {refusal}")
            self.failed("what it says of a.txt is no answer of that list (")
        for refusal in ("5 1", "2 3"):
            self.fake("listing", f"echo REFUSED {refusal}")
            self.failed("what it says is not what is due of these two lists (", named="the panel joiner failed: ")

    def test_a_text_that_it_passes_and_that_is_no_list(self):
        self.fake("listing", f"printf '{LISTED.decode()}'")
        self.fake("panel_joiner", "echo TOP 1 1; echo BOT 0 0")
        for pins in (b"", b"TOP 1\n", b"TOP x\nBOT 1\n", b"TOP \xff\nBOT 1\n", b"TOP " + b"9" * 5000 + b"\nBOT 1\n"):
            self.failed("it does not refuse a.txt, which is no pin list; nothing is written\n", lists=(pins, A))
            self.failed("it does not refuse b.txt, which is no pin list; nothing is written\n", lists=(A, pins))
