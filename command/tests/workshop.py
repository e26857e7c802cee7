"""A folder with the command as it is installed, whose programs a test may replace by wrong ones."""
import compileall
import os
import shutil
import subprocess
import tempfile
import unittest
from pathlib import Path

ROOT = Path(__file__).resolve().parent.parent.parent
PROGRAMS = ("listing", "board_writer", "board_judge", "ring_finder", "panel_joiner")
CHOOSER = ROOT / "target" / "choose"
A = b"TOP 0 1 2 3\nBOT 1 2 0 3\n"
LISTED = b"BOARD 4 2 8\nBOUND 2 2\nNET 1 1 2 2\nNET 2 2 3 1\nNET 3 4 4 0\nEND 11\n"
TANGLED = b"TOP 1 2\nBOT 2 1\n"
REFUSED_LISTS = {  # lists that no command takes, and their refusals
    b"TOP" + b" 0" * 40000: b"REFUSED 0 65536\n",
    b"": b"REFUSED 2 0\n",
    b"TOP 1 02\nBOT 1 2\n": b"REFUSED 2 7\n",
    b"TOP 1 2\nBOT 2 1": b"REFUSED 2 15\n",
    b"TOP 1 \xff\nBOT 1\n": b"REFUSED 2 6\n",
    b"TOP" + b" 0" * 513 + b"\nBOT" + b" 0" * 513 + b"\n": b"REFUSED 3 513\n",
    b"TOP 1 2 2\nBOT 2 1\n": b"REFUSED 4 3\n",
    b"TOP 1 2\nBOT 2 512\n": b"REFUSED 5 4\n",
    b"TOP 1 2\nBOT 2 " + b"9" * 5000 + b"\n": b"REFUSED 5 4\n",
}
OLD = b"what stood here before"


class Done:
    """How a run ended, what it wrote, and its lines for people."""

    def __init__(self, done):
        self.status, self.output, self.words = done.returncode, done.stdout, (done.stderr or b"").decode()


def copy_command(folder):
    """The command and what it imports, without the tests."""
    for name in ("channel", "VERSION"):
        shutil.copy(ROOT / name, folder / name)
    for name in ("command", "picture"):
        shutil.copytree(ROOT / name, folder / name, ignore=shutil.ignore_patterns("test*", "__pycache__"))


def write_program(path, script):
    path.unlink(missing_ok=True)
    path.write_text(f"#!/bin/sh\n{script}\n", encoding="utf-8")
    path.chmod(0o755)


class Workshop(unittest.TestCase):
    @classmethod
    def setUpClass(cls):
        cls.rooms = tempfile.TemporaryDirectory(prefix="channel-test-")
        cls.addClassCleanup(cls.rooms.cleanup)
        cls.home = Path(cls.rooms.name, "home")
        cls.home.mkdir()
        copy_command(cls.home)
        compileall.compile_dir(cls.home, quiet=2)  # so that its many runs begin sooner
        (cls.home / "bin").mkdir()
        subprocess.run([ROOT / "chooser" / "build", CHOOSER], check=True)
        cls.board = subprocess.run([ROOT / "target" / "bin" / "board_writer"], input=A, stdout=subprocess.PIPE,
                                   check=True).stdout

    def setUp(self):
        for program in (CHOOSER, *(ROOT / "target" / "bin" / name for name in PROGRAMS)):
            (self.home / "bin" / program.name).unlink(missing_ok=True)
            shutil.copy(program, self.home / "bin" / program.name)
        self.room = Path(tempfile.mkdtemp(dir=self.rooms.name))
        self.pins = self.put("pins", A)

    def put(self, name, data):
        path = self.room / name
        path.write_bytes(data)
        return path

    def fake(self, program, script):
        write_program(self.home / "bin" / program, script)

    def run_channel(self, *words, stdin=b"", command=None, **options):
        """Runs the command in the test's room; its files for the judge go there too."""
        options = {"stdout": subprocess.PIPE, "stderr": subprocess.PIPE, **options}
        environment = dict(os.environ, TMPDIR=str(self.room), **options.pop("environment", {}))
        if "stdin" not in options and not hasattr(stdin, "fileno"):
            options["input"] = stdin
        elif hasattr(stdin, "fileno"):
            options["stdin"] = stdin
        return Done(subprocess.run([command or self.home / "channel", *words], cwd=self.room, env=environment,
                                   check=False, **options))

    def files(self):
        """What lies in the room, hidden files too."""
        return sorted(path.name for path in self.room.iterdir())
