"""Sees that what is run is what the sources say, and builds it again where it is not.

Beside each built file stands a record of what it was built from, `NAME.built`: sizes and times of the sources, a digest
of their contents, and a digest of the built file itself. As long as sizes and times are the same nothing is read; if
they differ, the contents decide.

    python3 -m command.built programs | library     does so for ./bench, ./install and the like
"""
import fcntl
import hashlib
import json
import os
import sys
from contextlib import contextmanager
from pathlib import Path

from command import digest, places, prover
from command.failure import Failure, reason
from command.standard import say

PROGRAMS = ("listing", "board_writer", "board_judge", "ring_finder", "panel_joiner")
LIBRARY_CRATE = "screen_api"


def ready(names):
    """Sees to the programs. An installed command never builds: what is missing there is a failure."""
    if not places.IN_SOURCES:
        for name in names:
            if not (places.PROGRAMS / name).is_file():
                raise Failure(f"{places.PROGRAMS / name} is missing: install the command again")
        return
    files = {name: places.PROGRAMS / name for name in names}
    if stale(files):
        with locked():
            old = stale(files)  # another use may have built them meanwhile
            if old:
                prover.programs(old)
                record(old, files)


def library_ready():
    """Sees to the static library."""
    files = {LIBRARY_CRATE: places.LIBRARY}
    if stale(files):
        with locked():
            if stale(files):
                prover.static_library(LIBRARY_CRATE)
                record([LIBRARY_CRATE], files)


def stale(files):
    """The names whose built file is missing, changed, or not built from the sources as they are."""
    return [name for name, file in files.items() if not fresh(name, file)]


def fresh(name, file):
    known = recorded(file)
    if known is None or altered(file):
        return False
    sources = digest.sources_of(places.ROOT, [name])
    if known["files"] == sources:
        return True
    if known["digest"] != digest.digest_of(places.ROOT, sources):
        return False
    write_record(file, dict(known, files=sources))  # only times have changed
    return True


def altered(file):
    """Whether a built file is missing or not the one that its record speaks of; without a record it may be any."""
    known = recorded(file)
    return not file.is_file() or known is not None and known["built"] != digest_of_built(file)


def record(names, files):
    """Writes down what was built from what."""
    for name in names:
        if not files[name].is_file():
            raise Failure(f"{places.shown(files[name])} was built and is not there")
        sources = digest.sources_of(places.ROOT, [name])
        write_record(files[name], {"digest": digest.digest_of(places.ROOT, sources),
                                   "built": digest_of_built(files[name]), "files": sources})


def digest_of_built(file):
    return hashlib.sha256(file.read_bytes()).hexdigest()


def record_beside(file):
    return file.with_name(f"{file.name}.built")


def recorded(file):
    """The record beside a built file; None if there is none that can be read."""
    try:
        known = json.loads(record_beside(file).read_text(encoding="utf-8"))
        return known if {"digest", "built", "files"} <= known.keys() else None
    except (OSError, ValueError, AttributeError):
        return None


def write_record(file, known):
    """Puts a record in place whole. Where that fails the next use looks at the sources again."""
    new = record_beside(file).with_name(f".{file.name}.built.{os.getpid()}")
    try:
        new.write_text(json.dumps(known), encoding="utf-8")
        os.replace(new, record_beside(file))
    except OSError:
        new.unlink(missing_ok=True)


@contextmanager
def locked():
    """Lets one use at a time build."""
    try:
        places.TARGET.mkdir(exist_ok=True)
        with open(places.TARGET / ".building", "w", encoding="ascii") as file:
            try:
                fcntl.flock(file, fcntl.LOCK_EX | fcntl.LOCK_NB)
            except BlockingIOError:
                say("another use of the command is building; waiting for it")
                fcntl.flock(file, fcntl.LOCK_EX)
            yield
    except OSError as error:
        raise Failure(f"cannot build in {places.TARGET}: {reason(error)}") from error


def main(words):
    tasks = {"programs": lambda: ready(PROGRAMS), "library": library_ready}
    if len(words) != 1 or words[0] not in tasks:
        print("usage: python3 -m command.built programs | library", file=sys.stderr)
        return 2
    try:
        tasks[words[0]]()
    except Failure as error:
        print(f"channel: {error}", file=sys.stderr)
        return 2
    return 0


if __name__ == "__main__":
    sys.exit(main(sys.argv[1:]))
