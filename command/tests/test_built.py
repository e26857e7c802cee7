"""What is run is what the sources say: changed sources are built again, and nothing else is."""
import os
import shutil
from concurrent.futures import ThreadPoolExecutor
from pathlib import Path

from command.tests.workshop import LISTED, PROGRAMS, ROOT, Workshop, copy_command, write_program

# Stands in for the kit: notes its words and the crate that it is called in, tells of each crate as the kit does, and
# copies the program into that crate's `out`; its status is 0, as that of the program which it would run.
KIT = """
if [ "$1" = version ]; then echo "$KIT_VERSION"; exit; fi
name=$(basename "$PWD")
echo "$* $name" >>../../calls
exec >&2
prove() { echo "crate $1: modules loaded=0 checked=40"; echo "logic=$2 functions=1"; }
prove lists proved
if [ -e ../../broken ]; then prove $name not-proved; exit 1; fi
mkdir -p out
cp "PROGRAMS/$name" out/ && prove $name proved
echo "rt: running out/$name; to give it other input, run that file yourself"
exit 0
"""
CRATES = ("lists:\nother: lists\nlisting: lists io\nboard_writer: lists\nboard_judge: lists other\nring_finder: lists\n"
          "panel_joiner: lists\n")


class Sources(Workshop):
    def setUp(self):
        super().setUp()
        self.tree = self.room / "tree"
        self.tree.mkdir()
        copy_command(self.tree)
        (self.tree / "crates.txt").write_text(CRATES)
        for name in ("lists", "other", *PROGRAMS):
            (self.tree / "crates" / name / "src").mkdir(parents=True)
            (self.tree / "crates" / name / "src" / "main.rt").write_text(f"fn {name}")
        (self.room / "kit").mkdir()
        write_program(self.room / "kit" / "rt", KIT.replace("PROGRAMS", str(ROOT / "target" / "bin")))
        self.version = (ROOT / "VERSION").read_text().splitlines()[1].removeprefix("kit ")

    def channel(self, *words, path=None):
        environment = {"PATH": path or f"{self.room / 'kit'}:{os.environ['PATH']}", "KIT_VERSION": self.version}
        return self.run_channel(*words, command=self.tree / "channel", environment=environment)

    def listed(self):
        done = self.channel("list", "pins")
        self.assertEqual((done.status, done.output), (0, LISTED), done.words)
        return done.words

    def calls(self):
        """How often the kit was asked to build, since the last time this was asked."""
        calls = self.tree / "calls"
        lines = calls.read_text().splitlines() if calls.exists() else []
        calls.unlink(missing_ok=True)
        return lines

    def edit(self, name, text):
        path = self.tree / "crates" / name
        path.parent.mkdir(parents=True, exist_ok=True)
        path.write_text(text)

    def test_the_first_use_builds_and_tells(self):
        words = self.listed()
        self.assertIn("target/log/build_programs.txt", words)
        for line in ("lists proved, 1 of at most 2 (", "listing proved, 2 of at most 2 ("):
            self.assertIn(line, words)
        self.assertIn("crate listing: ", (self.tree / "target" / "log" / "build_programs.txt").read_text())
        self.assertEqual(self.calls(), ["run listing"])

    def test_no_second_build(self):
        self.listed()
        self.calls()
        self.assertEqual((self.listed(), self.calls()), ("", []))

    def test_what_is_built_again(self):
        main = "listing/src/main.rt"
        changes = {
            "a source of the program": lambda: self.edit(main, "fn listinG"),
            "one of a crate below": lambda: self.edit("lists/src/main.rt", "fn list2"),
            "a new source": lambda: self.edit("lists/specs/New.antt", ""),
            "a proof": lambda: self.edit("listing/proofs/f/Proof.antt", "x"),
            "a source less": lambda: (self.tree / "crates" / "lists" / "specs" / "New.antt").unlink(),
            "crates.txt": lambda: (self.tree / "crates.txt").write_text(CRATES + "more:\n"),
            "another program": lambda: write_program(self.tree / "target" / "bin" / "listing", "echo END 0"),
            "no program": lambda: (self.tree / "target" / "bin" / "listing").unlink(),
        }
        self.listed()
        self.calls()
        for name, change in changes.items():
            with self.subTest(name):
                change()
                self.listed()
                self.assertEqual((self.calls(), self.listed(), self.calls()), (["run listing"], "", []))

    def test_what_is_not(self):
        self.listed()
        self.calls()
        os.utime(self.tree / "crates" / "listing" / "src" / "main.rt")
        self.edit("other/src/main.rt", "fn other2")
        self.assertEqual((self.listed(), self.calls()), ("", []))

    def test_a_program_without_a_record_is_not_taken(self):
        (self.tree / "target" / "bin").mkdir(parents=True)
        write_program(self.tree / "target" / "bin" / "listing", "echo END 0")
        self.listed()
        self.assertEqual(self.calls(), ["run listing"])

    def test_the_gate_may_empty_the_folders_of_the_crates(self):
        self.listed()
        self.calls()
        shutil.rmtree(self.tree / "crates" / "listing" / "out")
        self.assertEqual((self.listed(), self.calls()), ("", []))

    def test_a_program_that_the_kit_does_not_run(self):
        kit = self.room / "kit" / "rt"
        for old, new, why in (("rt: running", "rt: not running", "did not come to run it"),
                              ("exit 0", "exit 3", "failed with status 3")):
            with self.subTest(new):
                before = kit.read_text()
                kit.write_text(before.replace(old, new))
                done = self.channel("list", "pins")
                self.assertEqual((done.status, done.output), (2, b""))
                self.assertIn(f"rt run in crates/listing {why}; the log is target/log/build_programs.txt", done.words)
                self.assertFalse((self.tree / "target" / "bin" / "listing").exists())
                kit.write_text(before)

    def test_a_kit_that_leaves_no_program(self):
        kit = self.room / "kit" / "rt"
        kit.write_text(kit.read_text().replace("cp ", ": "))
        done = self.channel("list", "pins")
        self.assertEqual((done.status, done.output), (2, b""))
        self.assertIn("crates/listing/out/listing cannot be put at target/bin/listing: No such file", done.words)

    def test_a_build_that_fails(self):
        self.listed()
        (self.tree / "broken").touch()
        self.edit("lists/src/main.rt", "fn no")
        done = self.channel("list", "pins")
        self.assertEqual((done.status, done.output), (2, b""))
        self.assertIn("listing not proved", done.words)
        self.assertIn("rt run in crates/listing failed with status 1; the log is target/log/build_programs.txt", done.words)

    def test_no_kit(self):
        tools = self.room / "tools"
        tools.mkdir()
        (tools / "python3").symlink_to(shutil.which("python3"))
        done = self.channel("list", "pins", path=str(tools))
        self.assertEqual((done.status, done.output), (2, b""))
        self.assertIn(f"rt is not there: the Rattle kit is needed to build ({self.version})", done.words)

    def test_another_kit(self):
        self.version = "rattle-kit-0"
        self.assertIn("the kit at hand is 'rattle-kit-0'", self.listed())

    def test_the_output_is_looked_at_before_the_build(self):
        (self.room / "folder").mkdir()
        self.assertEqual(self.channel("make", "pins", "folder").status, 2)
        self.assertEqual(self.channel("make", "pins", "none/board").status, 2)
        closed = self.run_channel("list", "pins", command=self.tree / "channel", preexec_fn=lambda: os.close(1))
        self.assertEqual(closed.status, 2)
        self.assertEqual(self.calls(), [])

    def test_two_uses_build_once(self):
        kit = self.room / "kit" / "rt"
        kit.write_text(kit.read_text().replace(">>../../calls", ">>../../calls; sleep 1"))
        with ThreadPoolExecutor(2) as pool:
            words = sorted(done.result() for done in [pool.submit(self.listed), pool.submit(self.listed)])
        self.assertEqual(self.calls(), ["run listing"])
        self.assertIn(words[0], ("", "channel: another use of the command is building; waiting for it\n"))

    def test_an_installed_command_never_builds(self):
        (self.home / "bin" / "listing").unlink()
        environment = {"PATH": f"{self.room / 'kit'}:{os.environ['PATH']}"}
        self.assertEqual(self.run_channel("list", "pins", environment=environment).status, 2)
        self.assertEqual(list(Path(self.home).glob("target")) + list(self.room.glob("calls")), [])
