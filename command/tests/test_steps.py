"""No board is made where a step fails: the programs' statuses count, and only whole answers."""
import os
import resource
import signal
import subprocess
import time

from command.tests.workshop import A, LISTED, OLD, Workshop

WRONG_JUDGES = {
    "says nothing and fails": "exit 3",
    "says nothing": "exit 0",
    "says GOOD and fails": "echo GOOD 2; exit 1",
    "is ended by a signal": "echo GOOD 2; kill -SEGV $$",
    "leaves the line open": "printf 'GOOD 2'",
    "says more": "echo GOOD 2; echo more",
    "says it first": "echo; echo GOOD 2",
    "has no tracks": "echo GOOD",
    "speaks of other tracks": "echo GOOD 3",
    "has another word": "echo GOODS 2",
    "changes the board": "printf x >>board; echo GOOD 2",
    "refuses": "echo REFUSED 11 2",
    "has a refusal of no table": "echo REFUSED 99 1",
    "has the number that is not used": "echo REFUSED 6 1",
    "has a ring too short": "echo REFUSED 7 2; echo RING 1 1",
}


class WrongPrograms(Workshop):
    def refused(self, done, *words):
        """A failure: status 2, one line that names the step, and the board as it was."""
        self.assertEqual(done.status, 2, done.words)
        self.assertEqual(done.words.count("\n"), 1)
        for word in words:
            self.assertIn(word, done.words)
        self.assertEqual((self.room / "board").read_bytes(), OLD)
        self.assertEqual(self.files(), ["board", "pins"])

    def test_make_with_a_wrong_judge(self):
        for name, script in WRONG_JUDGES.items():
            with self.subTest(name):
                self.put("board", OLD)
                self.fake("board_judge", script)
                self.refused(self.run_channel("make", "pins", "board"))

    def test_the_step_is_named(self):
        self.put("board", OLD)
        self.fake("board_judge", "echo worn out >&2; exit 3")
        self.refused(self.run_channel("make", "pins", "board"), "the judge", "status 3", "worn out")
        self.fake("board_judge", "kill -SEGV $$")
        self.refused(self.run_channel("make", "pins", "board"), "the judge", "SIGSEGV")
        self.fake("listing", "exit 1")
        self.refused(self.run_channel("make", "pins", "board"), "the listing program", "status 1")

    def test_make_with_a_wrong_listing(self):
        for script in ("exit 1", "exit 0", "echo BOARD 4 2 8", "cat", "echo REFUSED", "echo REFUSED 6 1",
                       "echo BOARD 4 3 8; echo BOUND 2 2; echo END 11", f"printf '{LISTED.decode()}more'"):
            with self.subTest(script):
                self.put("board", OLD)
                self.fake("listing", script)
                self.refused(self.run_channel("make", "pins", "board"))

    def test_make_with_a_wrong_writer(self):
        for script in ("exit 1", "exit 0", "printf '\\001'", "echo REFUSED 7 0", "printf '\\001\\000\\100\\000'",
                       "cat"):
            with self.subTest(script):
                self.put("board", OLD)
                self.fake("board_writer", script)
                self.refused(self.run_channel("make", "pins", "board"))

    def test_a_program_that_is_missing_or_no_program(self):
        self.put("board", OLD)
        judge = self.home / "bin" / "board_judge"
        judge.unlink()
        self.refused(self.run_channel("make", "pins", "board"), "board_judge is missing")
        judge.write_bytes(b"")
        self.refused(self.run_channel("make", "pins", "board"), "the judge could not be run")

    def test_a_full_disk_for_the_judges_files(self):
        self.put("board", OLD)
        for most in (0, 8):
            limit = {"preexec_fn": lambda most=most: resource.setrlimit(resource.RLIMIT_FSIZE, (most, most))}
            self.refused(self.run_channel("make", "pins", "board", **limit), "the files for the judge")
            self.refused(self.run_channel("judge", "pins", "board", **limit), "the files for the judge")

    def test_a_fault_of_the_command_is_no_refusal(self):
        self.put("board", OLD)
        table = self.home / "command" / "refusals.tsv"
        whole = table.read_bytes()
        self.addCleanup(table.write_bytes, whole)
        table.write_bytes(b"")
        self.put("pins", b"")
        self.assertEqual(self.run_channel("list", "pins").status, 2)

    def test_judge_takes_only_whole_answers(self):
        self.put("board", self.board)
        for name, script in WRONG_JUDGES.items():
            if name not in ("refuses", "speaks of other tracks"):
                with self.subTest(name):
                    self.fake("board_judge", script)
                    done = self.run_channel("judge", "pins", "board")
                    self.assertEqual((done.status, done.output), (2, b""))

    def test_board_and_picture_show_no_unjudged_board(self):
        self.fake("board_judge", "exit 3")
        for command in ("board", "picture"):
            done = self.run_channel(command, "pins")
            self.assertEqual((done.status, done.output), (2, b""))


class Stopped(Workshop):
    def test_a_command_that_is_stopped_leaves_nothing(self):
        self.fake("board_judge", "touch begun; exec sleep 30")
        environment = dict(os.environ, TMPDIR=str(self.room))
        with subprocess.Popen([self.home / "channel", "make", "pins", "board"], cwd=self.room, env=environment) as make:
            while not list(self.room.glob("channel-*/begun")):
                time.sleep(0.01)
            make.terminate()
        self.assertEqual((make.returncode, self.files()), (128 + signal.SIGTERM, ["pins"]))


class RightPrograms(Workshop):
    def test_all_is_well(self):
        done = self.run_channel("make", "pins", "board")
        self.assertEqual((done.status, done.output, done.words), (0, LISTED, ""))
        self.assertEqual((self.room / "board").read_bytes(), self.board)
        self.assertEqual(self.run_channel("judge", "pins", "board").output, b"GOOD 2\n")
        self.assertEqual(self.run_channel("board", "pins").output, self.board)
        self.assertEqual(self.run_channel("list", "-", stdin=A).output, LISTED)

    def test_a_refusal_writes_no_file(self):
        self.put("pins", b"TOP 1 2\nBOT 2 1\n")
        done = self.run_channel("make", "pins", "board")
        self.assertEqual((done.status, done.output), (1, b"REFUSED 7 2\nRING 1 1\nRING 2 2\n"))
        self.assertEqual(self.files(), ["pins"])

    def test_an_endless_input_is_refused(self):
        small = {"preexec_fn": lambda: resource.setrlimit(resource.RLIMIT_AS, (1 << 29, 1 << 29))}
        with subprocess.Popen(["yes", "TOP"], stdout=subprocess.PIPE) as endless:
            done = self.run_channel("list", "-", stdin=endless.stdout, **small)
            endless.stdout.close()
            endless.kill()
        self.assertEqual((done.status, done.output), (1, b"REFUSED 0 65536\n"))
