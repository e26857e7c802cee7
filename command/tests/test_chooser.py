"""The blank chooser: what it prints of its words, and that it is compiled from its sources as they are, and no more."""
import os
import shutil
import subprocess

from command.tests.workshop import CHOOSER, LISTED, PROGRAMS, ROOT, Workshop, copy_command, write_program

ANSWERS = {  # words, and the line
    ("stock", "0"): "BLANK 8", ("stock", "9"): "BLANK 12", ("stock", "512"): "BLANK 512",
    ("stock", "513"): "REFUSED 14 513", ("stock", "4294967295"): "REFUSED 14 4294967295",
    ("own", "0", "3", "5"): "BLANK 3", ("own", "3", "3", "5"): "BLANK 3", ("own", "4", "3", "5"): "BLANK 5",
    ("own", "6", "3", "5"): "REFUSED 16 6", ("own", "5"): "REFUSED 15 0", ("own", "0", "0"): "REFUSED 15 1",
    ("own", "0", "512", "513"): "REFUSED 15 2", ("own", "0", "5", "5"): "REFUSED 15 2",
    ("own", "0", *map(str, range(1, 65))): "BLANK 1", ("own", "0", *map(str, range(1, 66))): "REFUSED 15 0",
    ("own", "0", "3", "4294967295"): "REFUSED 15 2", ("own", "513"): "REFUSED 14 513",
    ("own", "513", "0"): "REFUSED 14 513", ("own", "0", *["1"] * 32768): "REFUSED 15 0",
}
WRONG = ((), ("stock",), ("own",), ("stock", "1", "2"), ("none", "1"), ("", "1"), ("stock", ""), ("stock", "x"),
         ("stock", "+1"), ("stock", "-1"), ("stock", " 1"), ("stock", "1 "), ("stock", "01"), ("stock", "1.0"),
         ("stock", "4294967296"), ("stock", "18446744073709551617"), ("stock", "9" * 5000), ("own", "x", "1"),
         ("own", "1", "x"), ("own", "1", "2", ""), ("own", "1", "00"), ("own", "1", "4294967296", "5"))
# Stands in for the kit: copies the library or the program into the `out` of the crate that it is called in.
KIT = """
name=$(basename "$PWD")
case $1 in
version) echo none ;;
lib) mkdir -p out && cp "BUILT/staticlib/lib$name.a" out/ ;;
run) mkdir -p out && cp "BUILT/bin/$name" out/ && echo "rt: running out/$name; as it would" >&2 ;;
esac
"""


def run(*words, **options):
    """Status, what is written, and what is said."""
    options = {"stdout": subprocess.PIPE, **options}
    done = subprocess.run(words, stderr=subprocess.PIPE, stdin=subprocess.DEVNULL, check=False, **options)
    return done.returncode, (done.stdout or b"").decode(), done.stderr.decode()


class Words(Workshop):
    def test_answers(self):
        for words, line in ANSWERS.items():
            with self.subTest(words[:5]):
                self.assertEqual(run(CHOOSER, *words), (0, f"{line}\n", ""))

    def test_wrong_use(self):
        for words in WRONG:
            with self.subTest(words):
                status, output, said = run(CHOOSER, *words)
                self.assertEqual((status, output, said.count("\n")), (2, "", 1))
                self.assertTrue(said.startswith("choose: "))

    def test_a_write_that_fails(self):
        with open("/dev/full", "wb") as full:
            for words in (("stock", "5"), ("own", "5", "6"), ("own", "5")):
                due = (2, "", "choose: cannot write standard output\n")
                self.assertEqual(run(CHOOSER, *words, stdout=full), due)
                self.assertEqual(run(CHOOSER, *words, preexec_fn=lambda: os.close(1)), due)


class Build(Workshop):
    """A tree with the sources of the command and of the chooser, and a kit that only copies."""

    def setUp(self):
        super().setUp()
        self.tree = self.room / "tree"
        self.tree.mkdir()
        copy_command(self.tree)
        shutil.copytree(ROOT / "chooser", self.tree / "chooser")
        (self.tree / "screen").mkdir()
        shutil.copy(ROOT / "screen" / "channel.h", self.tree / "screen")
        (self.tree / "crates.txt").write_text("screen_api staticlib:\n" + "".join(f"{name}:\n" for name in PROGRAMS))
        for name in ("screen_api", *PROGRAMS):
            (self.tree / "crates" / name).mkdir(parents=True)
        (self.room / "kit").mkdir()
        write_program(self.room / "kit" / "rt", KIT.replace("BUILT", str(ROOT / "target")))
        self.program = self.tree / "target" / "choose"

    def channel(self, *words, **environment):
        environment = {"PATH": f"{self.room / 'kit'}:{os.environ['PATH']}", **environment}
        return self.run_channel(*words, command=self.tree / "channel", environment=environment)

    def made(self):
        """Asks for a blank; answers which program is there then."""
        done = self.channel("blank", "9")
        self.assertEqual((done.status, done.output), (0, b"BLANK 12\n"), done.words)
        return self.there()

    def there(self):
        """Which program is there: one that is put in its place is another."""
        status = self.program.stat() if self.program.exists() else None
        return status and (status.st_ino, status.st_mtime_ns)

    def add(self, name, text):
        with open(self.tree / name, "a", encoding="ascii") as file:
            file.write(text)

    def test_the_first_use_builds_and_the_second_does_not(self):
        self.assertIsNone(self.there())
        made = self.made()
        self.assertIsNotNone(made)
        self.assertEqual((self.made(), self.channel("blank", "9").words), (made, ""))

    def test_what_is_built_again(self):
        changes = {
            "its source": lambda: self.add("chooser/choose.c", "/* */\n"),
            "the header": lambda: self.add("screen/channel.h", "/* */\n"),
            "its build": lambda: self.add("chooser/build", "#\n"),
            "what builds have in common": lambda: self.add("command/compiling.sh", "#\n"),
            "another program": lambda: self.program.write_text("#!/bin/sh\necho BLANK 12\n"),
            "no program": self.program.unlink,
            "no record": (self.tree / "target" / "choose.made_of").unlink,
        }
        self.made()
        for name, change in changes.items():
            with self.subTest(name):
                change()
                before, after = self.there(), self.made()
                self.assertNotEqual(before, after)
                self.assertEqual(self.made(), after)

    def test_what_is_not(self):
        made = self.made()
        for name in ("chooser/choose.c", "chooser/build", "screen/channel.h", "target/choose"):
            os.utime(self.tree / name)
        self.add("command/blank.py", "#\n")
        self.assertEqual(self.made()[0], made[0])

    def test_no_compiler(self):
        made = self.made()
        for compiler in ("false", "none-of-this-name"):
            done = self.channel("blank", "9", CC=compiler)
            self.assertEqual((done.status, done.output, done.words.count("\n")), (2, b"", 1))
            self.assertIn("the blank chooser could not be built: chooser/build: a C compiler is missing: on Debian, "
                          "install the packages gcc and libc6-dev; the log is target/log/build_chooser.txt", done.words)
        self.assertEqual((self.there(), self.made()), (made, made))

    def test_a_source_that_does_not_compile(self):
        made = self.made()
        self.add("chooser/choose.c", "no C\n")
        done = self.channel("blank", "9")
        self.assertEqual((done.status, done.output, self.there()), (2, b"", made))
        self.assertIn("chooser/build: the blank chooser could not be compiled; the log is", done.words)

    def test_make_builds_it_for_a_table_alone(self):
        self.put("table", b"2 4 16")
        for words, there in ((("make", "pins", "board"), False), (("make", "pins", "board", "--laminate=table"), True)):
            done = self.channel(*words)
            self.assertEqual((done.status, done.output, self.program.exists()), (0, LISTED, there), done.words)
            self.assertEqual((self.tree / "target" / "staticlib").exists(), there)

    def test_the_builds_own_use(self):
        self.made()
        build = self.tree / "chooser" / "build"
        for words in ((), ("a", "b")):
            self.assertEqual(run(build, *words), (2, "", "usage: chooser/build OUTPUT\n"))
        place = self.tree / "none" / "choose"
        status, output, said = run(build, place)
        self.assertEqual((status, output, said.splitlines()[-1]), (2, "", f"chooser/build: cannot write {place}"))

    def test_an_installed_command_never_builds(self):
        (self.home / "bin" / "choose").unlink()
        shutil.copytree(ROOT / "chooser", self.home / "chooser")
        self.addCleanup(shutil.rmtree, self.home / "chooser")
        done = self.run_channel("blank", "9")
        missing = self.home / "bin" / "choose"
        self.assertEqual((done.status, done.words), (2, f"channel: {missing} is missing: install the command again\n"))
        self.assertFalse((self.home / "target").exists() or (self.home / "bin" / "choose").exists())
