#!/usr/bin/env python3
"""Installs into a folder of its own, and uses what is there: the command, the library from C and C++, the man page.

Usage: python3 library/test_install.py
"""
import os
import re
import shutil
import subprocess
import sys
import tempfile
import unittest
from pathlib import Path

sys.dont_write_bytecode = True
ROOT = Path(__file__).resolve().parent.parent
A = b"TOP 0 1 2 3\nBOT 1 2 0 3\n"
A_TURNED = b"TOP 1 2 0 3\nBOT 0 1 2 3\n"
PADDED = b"TOP   0   1   2   3\r\nBOT   1   2   0   3\r\n"
L = b"TOP 1 0\nBOT 0 0\n"
LONGER = b"TOP 1 2 3 4 2\nBOT 2 3 4 1 1\n"
LONGER_TOLD = b"2 nets: net 1 above net 2 in column 1, net 2 above net 1 in column 5"
A_AND_LONGER = b"TOP 0 1 2 3 4 5 6 7 5\nBOT 1 2 0 3 5 6 7 4 4\n"
A_TWICE = b"TOP 0 1 2 3 0 4 5 6\nBOT 1 2 0 3 4 5 0 6\n"
L_LISTED = b"BOARD 2 0 8\nBOUND 0 0\nEND 0\n"
USED = b"width 4, tracks 2, pieces 11, blank 8\n"
STRICT = ("-O2", "-Wall", "-Wextra", "-Wpedantic", "-Werror")


def run(*command, **options):
    return subprocess.run(command, stdout=subprocess.PIPE, stderr=subprocess.PIPE, check=False, **options)


# where ncursesw is missing the order screen's own tests tell of it, and the rest is tried without it
OPTIONS = () if run(ROOT / "screen" / "build", ROOT / "target" / "order").returncode == 0 else ("--without-order",)


class Installed(unittest.TestCase):
    @classmethod
    def setUpClass(cls):
        room = tempfile.TemporaryDirectory(prefix="channel-install-")
        cls.addClassCleanup(room.cleanup)
        cls.room = Path(room.name)
        cls.prefix = cls.room / "prefix"
        cls.done = run(ROOT / "install", *OPTIONS, cls.prefix)

    def setUp(self):
        self.assertEqual(self.done.returncode, 0, self.done.stderr.decode())

    def flags(self, *words):
        environment = dict(os.environ, PKG_CONFIG_PATH=str(self.prefix / "lib" / "pkgconfig"))
        done = run("pkg-config", *words, "cabjirt", env=environment)
        self.assertEqual(done.returncode, 0, done.stderr.decode())
        return done.stdout.decode().split()

    def built(self, name, *command):
        """Compiles a program of this folder with what pkg-config says, and runs it."""
        program = self.room / name
        done = run(*command, "-o", program, *self.flags("--cflags", "--libs"))
        self.assertEqual(done.returncode, 0, done.stderr.decode())
        done = run(program)
        self.assertEqual(done.returncode, 0, done.stderr.decode())
        return done.stdout

    def test_the_command(self):
        pins = self.room / "pins"
        pins.write_bytes(A)
        command = self.prefix / "bin" / "channel"
        no_kit = dict(os.environ, PATH=f"{Path(sys.executable).parent}:/usr/bin:/bin")
        done = run(command, "make", pins, self.room / "board", env=no_kit)
        self.assertEqual((done.returncode, done.stderr), (0, b""))
        self.assertEqual(run(command, "judge", pins, self.room / "board", env=no_kit).stdout, b"GOOD 2\n")
        self.assertIn(b"<svg", run(command, "picture", pins, env=no_kit).stdout)
        self.assertEqual(run(command, "turn", pins, env=no_kit).stdout, A_TURNED)
        self.assertEqual(run(command, "--version").stdout, (ROOT / "VERSION").read_bytes())
        self.assertFalse(list(self.prefix.rglob("__pycache__")) + list(self.prefix.rglob("target")))
        self.assertFalse(list(self.prefix.rglob("test*")))

    def test_a_padded_list(self):
        """Example A in columns, a carriage return before each line feed: the same board."""
        command = self.prefix / "bin" / "channel"
        plain, padded = (run(command, "board", "-", input=pins) for pins in (A, PADDED))
        self.assertEqual((padded.returncode, padded.stdout, padded.stderr), (0, plain.stdout, b""))

    def test_parked_pins(self):
        """Example L: a board without tracks and pieces, and a word on standard error."""
        pins, board = self.room / "parked", self.room / "parked.board"
        pins.write_bytes(L)
        command, told = self.prefix / "bin" / "channel", f"channel: {pins}: 1 pin is parked (net 1 at column 1, TOP): "
        for words, output in ((("list", pins), L_LISTED), (("make", pins, board), L_LISTED),
                              (("judge", pins, board), b"GOOD 0\n")):
            done = run(command, *words)
            self.assertEqual((done.returncode, done.stdout), (0, output))
            self.assertEqual(done.stderr.decode(), f"{told}its number stands just once\n")
        self.assertEqual(board.read_bytes(), bytes.fromhex("00800000"))
        self.assertIn(b'class="parked-pin"', run(command, "picture", pins).stdout)

    def test_blanks(self):
        """The chooser is installed beside the programs; where it is gone the command says so, and builds none."""
        command, pins, table = self.prefix / "bin" / "channel", self.room / "listed", self.room / "table"
        pins.write_bytes(A)
        table.write_bytes(b"3 5\r\n")
        listed = run(command, "list", pins).stdout
        told = f"channel: {pins}: its board goes on the 3-track blank of {table} (stock: 8)\n".encode()
        due = {("blank", "9"): (0, b"BLANK 12\n", b""), ("blank", "4", table): (0, b"BLANK 5\n", b""),
               ("make", pins, self.room / "own", "--laminate", table): (0, listed, told)}
        for words, answer in due.items():
            done = run(command, *words)
            self.assertEqual((done.returncode, done.stdout, done.stderr), answer)
        self.assertEqual(run(command, "blank", "6", table).stdout, b"REFUSED 16 6\n")
        program = self.prefix / "lib" / "cabjirt" / "bin" / "choose"
        kept = program.rename(self.room / "choose")
        self.addCleanup(kept.rename, program)
        done = run(command, "blank", "9")
        missing = f"channel: {program} is missing: install the command again\n".encode()
        self.assertEqual((done.returncode, done.stderr), (2, missing))

    def test_rings(self):
        """The ring finder is installed beside the other programs; where it is gone the command says so."""
        command = self.prefix / "bin" / "channel"
        done = run(command, "ring", "-", input=LONGER)
        self.assertEqual((done.returncode, done.stdout), (0, b"RING 1 1\nRING 2 5\n"))
        self.assertEqual(done.stderr, b"channel: standard input: the fewest wires to move: " + LONGER_TOLD + b"\n")
        self.assertEqual(run(command, "ring", "-", input=A).stdout, b"NONE\n")
        self.assertEqual(run(command, "ring", "-", input=b"").stdout, b"REFUSED 2 0\n")
        done = run(command, "picture", "-", input=LONGER)
        self.assertEqual((done.returncode, b'class="cap"' in done.stdout), (1, True))
        program = self.prefix / "lib" / "cabjirt" / "bin" / "ring_finder"
        kept = program.rename(self.room / "ring_finder")
        self.addCleanup(kept.rename, program)
        missing = f"channel: {program} is missing: install the command again\n".encode()
        done = run(command, "ring", "-", input=LONGER)
        self.assertEqual((done.returncode, done.stdout, done.stderr), (2, b"", missing))

    def test_panels(self):
        """The panel joiner is installed beside the other programs; where it is gone the command says so."""
        command, first, second = self.prefix / "bin" / "channel", self.room / "first", self.room / "second"
        first.write_bytes(A)
        second.write_bytes(LONGER)
        done = run(command, "panel", first, second)
        self.assertEqual((done.returncode, done.stdout), (0, A_AND_LONGER))
        done = run(command, "panel", "-", first, input=PADDED)
        self.assertEqual((done.returncode, done.stdout), (0, A_TWICE))
        self.assertEqual(run(command, "list", "-", input=A_TWICE).stdout[:12], b"BOARD 8 2 8\n")
        done = run(command, "panel", first, "-", input=b"TOP 509\nBOT 510\n")
        self.assertEqual((done.returncode, done.stdout), (1, b"REFUSED 18 512\n"))
        program = self.prefix / "lib" / "cabjirt" / "bin" / "panel_joiner"
        kept = program.rename(self.room / "panel_joiner")
        self.addCleanup(kept.rename, program)
        missing = f"channel: {program} is missing: install the command again\n".encode()
        done = run(command, "panel", first, second)
        self.assertEqual((done.returncode, done.stdout, done.stderr), (2, b"", missing))

    def test_the_order_screen(self):
        done = run(self.prefix / "bin" / "channel", "order", input=L + b"show\n")
        self.assertEqual(done.returncode, 2 if OPTIONS else 0, done.stderr.decode())
        self.assertTrue(OPTIONS or b"\nDENSITY 0 0\n" in done.stdout)
        self.assertTrue(OPTIONS or b"\n1 pin parked: net 1\n" in done.stdout)
        done = run(self.prefix / "bin" / "channel", "order", input=LONGER + b"show\n")
        self.assertTrue(OPTIONS or b"\nthe fewest wires to move: 2 nets\nnet 1 above net 2 in " in done.stdout)

    def test_a_c_program(self):
        self.assertEqual(self.built("c", "cc", "-std=c11", *STRICT, ROOT / "library" / "use.c"), USED)

    def test_a_cplusplus_program(self):
        if shutil.which("c++") is None:
            self.skipTest("there is no C++ compiler")
        source = ("-x", "c++", ROOT / "library" / "use.c", "-x", "none")
        self.assertEqual(self.built("cc", "c++", *STRICT, *source), USED)

    def test_the_refusals_that_the_manual_shows_of_c(self):
        printed = self.built("refused", "cc", "-std=c11", *STRICT, ROOT / "library" / "refused.c").decode()
        told = re.findall(r"refusal (\d+), place (\d+)$", (ROOT / "docs" / "MANUAL.md").read_text(), re.M)
        self.assertEqual(printed, "".join(f"REFUSED {number} {place}\n" for number, place in told))

    def test_the_draft_that_the_manual_shows(self):
        told = re.findall(r"^    (cabjirt_\w+\(.*\)) +value (\d+)$", (ROOT / "docs" / "MANUAL.md").read_text(), re.M)
        self.assertGreater(len(told), 5)
        source = self.room / "draft.c"
        source.write_text("#include <cabjirt.h>\n#include <stdio.h>\nstatic uint64_t words[CABJIRT_DRAFT];\n"
                          "int main(void)\n{\n" +
                          "".join(f'    printf("%llu\\n", (unsigned long long){call});\n' for call, _ in told) + "}\n")
        printed = self.built("draft", "cc", "-std=c11", *STRICT, source).decode()
        self.assertEqual(printed.split(), [value for _, value in told])

    def test_the_version(self):
        self.assertEqual(self.flags("--modversion"), (ROOT / "VERSION").read_text().split()[1:2])

    def test_threads(self):
        self.built("threads", "cc", "-std=c11", "-pthread", *STRICT, ROOT / "library" / "threads.c")

    def test_the_stack_is_as_the_manual_says(self):
        measured = self.built("stack", "cc", "-std=c11", "-pthread", *STRICT, ROOT / "library" / "stack.c").decode()
        told = dict(re.findall(r"^\| `(cabjirt_\w+)` \| (\d+) KiB \|", (ROOT / "docs" / "MANUAL.md").read_text(), re.M))
        for _, name, used in map(str.split, measured.splitlines()):
            self.assertLessEqual(int(used), 1024 * int(told[name]), name)
        self.assertEqual(len(told), 15)

    def test_the_man_page(self):
        page = self.prefix / "share" / "man" / "man1" / "channel.1"
        if shutil.which("groff") is None:
            self.skipTest("there is no groff")
        done = run("groff", "-man", "-ww", "-z", "-Tascii", page)
        self.assertEqual((done.returncode, done.stderr), (0, b""))


class Places(unittest.TestCase):
    def setUp(self):
        room = tempfile.TemporaryDirectory(prefix="channel-install-")
        self.addCleanup(room.cleanup)
        self.room = Path(room.name)

    def test_destdir_and_uninstall(self):
        staged = dict(os.environ, DESTDIR=str(self.room / "stage"))
        self.assertEqual(run(ROOT / "install", *OPTIONS, "/opt/cabjirt", env=staged).returncode, 0)
        place = self.room / "stage" / "opt" / "cabjirt"
        self.assertIn("prefix=/opt/cabjirt\n", (place / "lib" / "pkgconfig" / "cabjirt.pc").read_text())
        (place / "bin" / "other").touch()
        stale = place / "lib" / "cabjirt" / "command" / "gone.py"
        stale.touch()
        with open(place / "lib" / "cabjirt" / "installed.txt", "a", encoding="ascii") as names:
            names.write("lib/cabjirt/command/gone.py\n")
        self.assertEqual(run(ROOT / "install", *OPTIONS, "/opt/cabjirt", env=staged).returncode, 0)
        self.assertFalse(stale.exists())
        self.assertEqual(run(ROOT / "install", "--uninstall", "/opt/cabjirt", env=staged).returncode, 0)
        left = [str(path.relative_to(place)) for path in place.rglob("*") if not path.is_dir()]
        self.assertEqual(left, ["bin/other"])
        self.assertFalse((place / "lib" / "cabjirt").exists())

    def test_wrong_use(self):
        for words in (("--none",), ("a", "b"), ("--uninstall", "--without-order", "a"), ("",),
                      ("--uninstall", self.room / "none")):
            done = run(ROOT / "install", *words)
            self.assertEqual((done.returncode, done.stdout, done.stderr.count(b"\n")), (2, b"", 1), words)
        (self.room / "file").touch()
        self.assertEqual(run(ROOT / "install", *OPTIONS, self.room / "file").returncode, 2)

    def test_help_installs_nothing(self):
        self.assertEqual(run(ROOT / "install", "--help").returncode, 0)

    def test_a_list_that_names_other_files(self):
        place = self.room / "lib" / "cabjirt"
        place.mkdir(parents=True)
        (self.room / "kept").touch()
        (place / "installed.txt").write_text("../../kept\n")
        self.assertEqual(run(ROOT / "install", "--uninstall", place).returncode, 2)
        self.assertEqual(run(ROOT / "install", "--uninstall", self.room).returncode, 2)
        self.assertTrue((self.room / "kept").exists())


def main():
    result = unittest.TextTestRunner(stream=sys.stdout, verbosity=0).run(
        unittest.defaultTestLoader.loadTestsFromModule(sys.modules[__name__]))
    failed = len(result.failures) + len(result.errors)
    print(f"installation: {result.testsRun - failed} tests passed" + (f", {failed} failed" if failed else ""))
    return not result.wasSuccessful()


if __name__ == "__main__":
    sys.exit(main())
