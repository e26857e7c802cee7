"""The last line of ./test says 'N passed, 0 failed' only if every step passed."""
import os
import shutil
import subprocess
import sys
import tempfile
import unittest
from pathlib import Path

from command.tests.workshop import ROOT, write_program

VERDICT = "rt: ok; must-fail edits: 5 refused; kept"
PASSING = f"echo proving; echo '{VERDICT}'; echo 7 passed, 0 failed"
# stands in for Python where ./test calls it, and runs a step's file by the shell, which is quicker
PYTHON = 'if [ "$1" = -B ]; then exec sh command/built.py; fi; exec sh "$1"'
STEPS = ("reference/compare.py", "reference/examples.py", "screen/test_order.py", "command/test_command.py",
         "picture/test_picture.py", "library/test_install.py", "command/built.py")


class LastLine(unittest.TestCase):
    def setUp(self):
        room = tempfile.TemporaryDirectory(prefix="channel-test-")
        self.addCleanup(room.cleanup)
        self.tree = Path(room.name)
        shutil.copy(ROOT / "test", self.tree / "test")
        for step in STEPS:
            (self.tree / step).parent.mkdir(exist_ok=True)
            (self.tree / step).write_text(f"echo {step} ran")
        (self.tree / "bin").mkdir()
        for name in ("rt", "cc"):
            write_program(self.tree / "bin" / name, PASSING)
        write_program(self.tree / "bin" / "python3", PYTHON)
        write_program(self.tree / "bench", "echo bench ran \"$@\"")
        (self.tree / "target").mkdir()
        write_program(self.tree / "target" / "test_entries", "echo entries ran")

    def run_test(self, *words, test=None, folder=None):
        """Status, lines of standard output, and standard error."""
        path = f"{self.tree / 'bin'}:{os.environ['PATH']}"
        done = subprocess.run([sys.executable, test or self.tree / "test", *words], env=dict(os.environ, PATH=path),
                              cwd=folder, stdout=subprocess.PIPE, stderr=subprocess.PIPE, check=False)
        return done.returncode, done.stdout.decode().splitlines(), done.stderr.decode()

    def test_all_is_well(self):
        status, lines, _ = self.run_test()
        self.assertEqual((status, lines[-1], lines.count("7 passed, 0 failed")), (0, "7 passed, 0 failed", 1))
        for step in (*STEPS, "entries", "bench"):
            self.assertTrue(any(line.startswith(f"  {step} ran") for line in lines), step)
        self.assertIn("  bench ran --agree", lines)

    def test_each_step_counts(self):
        for step in STEPS:
            with self.subTest(step):
                before = (self.tree / step).read_text()
                (self.tree / step).write_text("exit 1")
                status, lines, _ = self.run_test()
                self.assertEqual((status, lines[-1]), (1, "7 passed, 1 failed"))
                (self.tree / step).write_text(before)
        for name in ("bench", "target/test_entries", "bin/cc"):
            with self.subTest(name):
                before = (self.tree / name).read_text()
                write_program(self.tree / name, "exit 3")
                status, lines, _ = self.run_test()
                self.assertEqual((status, lines[-1]), (1, "7 passed, 1 failed"))
                (self.tree / name).write_text(before)

    def test_two_steps(self):
        write_program(self.tree / "bench", "exit 1")
        (self.tree / "picture" / "test_picture.py").unlink()
        self.assertEqual(self.run_test()[1][-1], "7 passed, 2 failed")

    def test_a_gate_that_fails(self):
        for script, due in (("echo 6 passed, 1 failed; exit 1", "6 passed, 1 failed"),
                            (f"{PASSING}; exit 1", "7 passed, 1 failed"), ("echo 7 passed, 0 failed", "7 passed, 1 failed"),
                            ("echo 'rt: okay'; echo 7 passed, 0 failed", "7 passed, 1 failed"),
                            ("echo 5 passed, 2 failed", "5 passed, 2 failed"),
                            ("echo 7 passed, 0 failed; echo; echo more", "0 passed, 1 failed"),
                            ("echo 'rt: ok; must-fail edits: 5 refused, 2 bad; kept'; echo 7 passed, 0 failed",
                             "7 passed, 2 failed"),
                            ("exit 0", "0 passed, 1 failed"), ("kill -9 $$", "0 passed, 1 failed")):
            with self.subTest(script):
                write_program(self.tree / "bin" / "rt", script)
                status, lines, _ = self.run_test()
                self.assertEqual((status, lines[-1]), (1, due))
                self.assertFalse(any("ran" in line.split() for line in lines))

    def test_words_of_bad_edits_that_are_none(self):
        for line in (VERDICT, "lists: a note, 2 bad lines"):
            write_program(self.tree / "bin" / "rt", f"echo '{line}'; {PASSING}")
            self.assertEqual(self.run_test()[1][-1], "7 passed, 0 failed")

    def test_help_runs_nothing(self):
        write_program(self.tree / "bin" / "rt", "touch ran")
        status, lines, words = self.run_test("--help")
        self.assertEqual((status, words), (0, ""))
        self.assertIn("./test", lines[0])
        for words in (("x",), ("--help", "x"), ("--none",)):
            status, lines, words = self.run_test(*words)
            self.assertEqual((status, lines, words.count("\n")), (2, [], 1))
        self.assertFalse((self.tree / "ran").exists())

    def test_it_runs_from_anywhere_and_through_a_link(self):
        (self.tree / "bin" / "link").symlink_to("../test")
        _, lines, _ = self.run_test(test=self.tree / "bin" / "link", folder="/")
        self.assertEqual(lines[-1:], ["7 passed, 0 failed"])

    def test_the_gate_of_the_repository_calls_it(self):
        self.assertIn("exec ./test\n", (ROOT / ".ci" / "run").read_text())
