"""Runs of ./channel picture for the tests of pictures, and the count of what held of them."""
import os
import subprocess
import sys
import tempfile
from pathlib import Path
from xml.etree.ElementTree import ParseError

from read_back import Sheet

ROOT = Path(__file__).resolve().parent.parent
LARGEST = 2_000_000
held, failures = [], []  # the names of checks


def check(name, holds):
    (held if holds else failures).append(name)


def picture(folder, pins, board=None, stdin=None, second=None):
    """Exit status, output and words on standard error; the programs' Python is the one that runs this."""
    place = Path(tempfile.mkdtemp(dir=folder))
    arguments = ["-" if stdin is not None else place / "pins"]
    (place / "pins").write_bytes(pins)
    if board is not None:
        (place / "board").write_bytes(board)
        arguments.append(place / "board")
    if second is not None:
        arguments.append(f"--second={second}")
    return run(*arguments, stdin=stdin)


def answered(program, pins):
    """What a proved program writes of a pin list."""
    return subprocess.run([ROOT / "target" / "bin" / program], input=pins, stdout=subprocess.PIPE, check=True).stdout


def run(*arguments, stdin=b""):
    environment = dict(os.environ, PATH=f"{Path(sys.executable).parent}{os.pathsep}{os.environ['PATH']}")
    done = subprocess.run([ROOT / "channel", "picture", *arguments], input=stdin, stdout=subprocess.PIPE,
                          stderr=subprocess.PIPE, env=environment, check=False)
    return done.returncode, done.stdout, done.stderr


def sheet_of(name, answer, tracks=0):
    check(f"{name}: size", len(answer[1]) < LARGEST)
    try:
        return Sheet(answer[1], tracks)
    except ParseError as error:
        sys.exit(f"pictures: {name} is no XML: {error}; standard error says {answer[2].decode(errors='replace')!r}")
