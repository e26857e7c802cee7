"""Words on the command line, help, version, links to the command, and outputs that can't be written."""
import os
import subprocess

from command.tests.workshop import A, LISTED, ROOT, TANGLED, Workshop

COMMANDS = ("make", "list", "board", "turn", "panel", "ring", "judge", "picture", "blank", "order")


class Help(Workshop):
    def test_help_is_on_standard_output(self):
        for words in (("--help",), ("-h",), ("help",)):
            done = self.run_channel(*words)
            self.assertEqual((done.status, done.words), (0, ""))
            for name in COMMANDS:
                self.assertIn(f"channel {name} ".encode(), done.output)

    def test_help_of_each_command(self):
        for name in COMMANDS:
            told = self.run_channel("help", name)
            self.assertEqual((told.status, told.words), (0, ""))
            self.assertTrue(told.output.startswith(f"usage: channel {name} ".encode()))
            self.assertEqual(self.run_channel(name, "--help").output, told.output)

    def test_version(self):
        done = self.run_channel("--version")
        self.assertEqual((done.status, done.output), (0, (ROOT / "VERSION").read_bytes()))
        self.assertRegex(done.output.decode(), r"\Acabjirt \d+\.\d+\.\d+\nkit rattle-kit-\S+ logic [0-9a-f]{16}\n\Z")


class WrongUse(Workshop):
    def test_wrong_words(self):
        self.put("board", self.board)
        for words in ((), ("help", "none"), ("help", "list", "make"), ("none", "pins"), ("--none",), ("list",),
                      ("list", "pins", "pins"), ("list", "--none", "pins"), ("make", "pins"), ("make", "-x", "board"),
                      ("judge", "pins"), ("judge", "-", "-"), ("picture", "-", "-"), ("picture",),
                      ("list", "none"), ("list", "."), ("judge", "pins", "none"), ("order", "a", "b"),
                      ("--version", "x"), ("list", "-pins"), ("blank",), ("blank", "x"), ("blank", "5", "pins"),
                      ("list", "pins", "--laminate", "pins"), ("make", "pins", "new", "--laminate"),
                      ("ring",), ("ring", "pins", "pins"), ("ring", "none"), ("ring", "--none", "pins"),
                      ("panel",), ("panel", "pins"), ("panel", "pins", "none"), ("panel", "-", "-"),
                      ("panel", "pins", "pins", "pins"), ("panel", "--second=5", "pins", "pins"),
                      ("picture", "pins", "--second"), ("picture", "pins", "--second=5"),
                      ("picture", "pins", "--second=2", "--second=2"), ("list", "pins", "--second=2")):
            with self.subTest(words):
                done = self.run_channel(*words)
                self.assertEqual((done.status, done.output), (2, b""))
                self.assertEqual(done.words.count("\n"), 1)

    def test_the_reason_is_told(self):
        self.assertIn("cannot read none: No such file or directory", self.run_channel("list", "none").words)
        self.assertIn("cannot read .: Is a directory", self.run_channel("list", ".").words)
        self.assertIn("list has no option --none", self.run_channel("list", "--none", "pins").words)
        self.assertIn("PINS and BOARD cannot both be standard input", self.run_channel("judge", "-", "-").words)
        self.assertIn("PINS1 and PINS2 cannot both be standard input", self.run_channel("panel", "-", "-").words)
        self.assertIn("--second needs a COLUMN; usage: ", self.run_channel("picture", "pins", "--second").words)

    def test_dashes(self):
        self.put("-odd", A)
        self.assertEqual(self.run_channel("list", "--", "-odd").output, LISTED)
        self.assertEqual(self.run_channel("list", "./-odd").output, LISTED)


class Links(Workshop):
    def test_links_to_the_command(self):
        (self.room / "one").symlink_to(self.home / "channel")
        (self.room / "two").symlink_to("one")
        for name in ("one", "two"):
            self.assertEqual(self.run_channel("list", "pins", command=self.room / name).output, LISTED)


class FullOutput(Workshop):
    """A write that fails ends with 2 and says why."""

    def full(self, *words):
        with open("/dev/full", "wb") as full:
            done = self.run_channel(*words, stdout=full)
        self.assertEqual(done.status, 2, words)
        self.assertIn("cannot write standard output: No space left on device", done.words)

    def test_full(self):
        self.put("board", self.board)
        self.put("tangled", TANGLED)
        self.put("empty", b"")
        for words in (("list", "pins"), ("board", "pins"), ("judge", "pins", "board"), ("picture", "pins"),
                      ("list", "tangled"), ("make", "tangled", "new"), ("make", "pins", "-"), ("turn", "pins"),
                      ("turn", "tangled"), ("turn", "empty"), ("blank", "5"), ("blank", "513"), ("blank", "5", "empty"),
                      ("make", "pins", "new", "--laminate", "empty"), ("ring", "pins"), ("ring", "tangled"),
                      ("ring", "empty"), ("picture", "tangled"), ("picture", "pins", "--second=2"),
                      ("panel", "pins", "pins"), ("panel", "pins", "tangled"), ("panel", "pins", "empty"), ("--help",),
                      ("--version",)):
            self.full(*words)
        self.assertNotIn("new", self.files())

    def test_closed(self):
        for words in (("list", "pins"), ("board", "pins"), ("turn", "pins"), ("panel", "pins", "pins"),
                      ("ring", "pins"), ("blank", "5")):
            done = self.run_channel(*words, preexec_fn=lambda: os.close(1))
            self.assertEqual(done.status, 2, words)
            self.assertIn("cannot write standard output: it is closed", done.words)

    def test_a_reader_that_has_gone(self):
        for words in (("list", "pins"), ("turn", "pins"), ("panel", "pins", "pins"), ("ring", "pins"), ("blank", "5")):
            with subprocess.Popen(["true"], stdin=subprocess.PIPE) as gone:
                gone.wait()
                done = self.run_channel(*words, stdout=gone.stdin)
            self.assertEqual(done.status, 2, words)
            self.assertIn("cannot write standard output", done.words)

    def test_standard_error_that_is_full_changes_no_status(self):
        self.put("tangled", TANGLED)
        with open("/dev/full", "wb") as full:
            done = subprocess.run([self.home / "channel", "list", "tangled"], cwd=self.room, stdout=subprocess.PIPE,
                                  stderr=full, check=False)
            self.assertEqual((done.returncode, done.stdout.splitlines()[0]), (1, b"REFUSED 7 2"))
            done = subprocess.run([self.home / "channel", "list", "none"], cwd=self.room, stderr=full, check=False)
            self.assertEqual(done.returncode, 2)
            done = self.run_channel("blank", "513", stderr=full)
            self.assertEqual((done.status, done.output), (1, b"REFUSED 14 513\n"))
            done = self.run_channel("ring", "tangled", stderr=full)
            self.assertEqual((done.status, done.output), (0, b"RING 1 1\nRING 2 2\n"))
            done = self.run_channel("panel", "tangled", "tangled", stderr=full)
            self.assertEqual((done.status, done.output), (0, b"TOP 1 2 3 4\nBOT 2 1 4 3\n"))
