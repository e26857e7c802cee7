"""Calls the Rattle kit's `rt` to prove and build, with one line a crate for the user and the whole log in a file."""
import os
import re
import shutil
import subprocess
import time

from command import digest, places
from command.failure import Failure, reason
from command.standard import say

# what `rt` prints of each crate that it proves: a line that names it, and one with the verdict
CRATE = re.compile(r"crate (\S+): modules ")
VERDICT = re.compile(r"logic=(proved|not-proved)\b")
# what `rt run` prints once a program is proved and linked
RUNS = "rt: running out/{};"


def kit_needed():
    """The identity of the kit that the sources were proved with, as `rt version` prints it."""
    lines = places.VERSION.read_text(encoding="ascii").splitlines()
    return next(line.removeprefix("kit ") for line in lines if line.startswith("kit "))


def programs(names):
    """Proves and builds programs, and puts each in its place. No word of `rt` only links one: `rt run` runs it too, here
    with standard input empty and what it writes dropped."""
    build("run", names, "build_programs.txt")
    for name in names:
        take(places.ROOT / "crates" / name / "out" / name, places.PROGRAMS / name)


def static_library(name):
    """Proves and builds the static library, and puts it in its place."""
    build("lib", [name], "build_library.txt")
    take(places.ROOT / "crates" / name / "out" / places.LIBRARY.name, places.LIBRARY)


def take(made, place):
    """Puts what `rt` made in its place whole: the gate takes away what was linked in a crate's `out`."""
    new = place.with_name(f".{place.name}.{os.getpid()}")
    try:
        place.parent.mkdir(parents=True, exist_ok=True)
        shutil.copy(made, new)
        os.replace(new, place)
    except OSError as error:
        raise Failure(f"{places.shown(made)} cannot be put at {places.shown(place)}: {reason(error)}") from error
    finally:
        new.unlink(missing_ok=True)


def crates_of(names):
    known = digest.dependencies((places.ROOT / "crates.txt").read_text(encoding="utf-8"))
    return digest.needed(names, known)


def warn_of_another_kit():
    """Says so if the kit at hand is another than the one that the sources name."""
    found = subprocess.run(["rt", "version"], capture_output=True, text=True, check=False).stdout.strip()
    if found != kit_needed():
        say(f"the kit at hand is '{found}'; these sources were proved with '{kit_needed()}'")


def build(word, names, log_name):
    """Has the kit build each crate in its folder, tells of what is proved, and keeps all that it prints in the log."""
    log = places.TARGET / "log" / log_name
    say(f"building from the sources, which may take some minutes; the log is {places.shown(log)}")
    try:
        warn_of_another_kit()
        log.parent.mkdir(parents=True, exist_ok=True)
        with open(log, "w", encoding="utf-8") as kept:
            told = Told(kept, len(crates_of(names)))
            for name in names:
                follow(word, name, told, log)
    except FileNotFoundError as error:
        raise Failure(f"{error.filename} is not there: the Rattle kit is needed to build ({kit_needed()})") from error
    except OSError as error:
        raise Failure(f"cannot build: {reason(error)}") from error


def follow(word, name, told, log):
    """Runs the kit in one crate's folder. The status of `rt run` is the program's own, once that runs: it too has to be
    good."""
    runs = word == "run"
    with subprocess.Popen(["rt", word], cwd=places.ROOT / "crates" / name, text=True, errors="replace",
                          stdin=subprocess.DEVNULL, stdout=subprocess.DEVNULL if runs else subprocess.PIPE,
                          stderr=subprocess.PIPE if runs else subprocess.STDOUT) as running:
        try:
            is_run = told.all(running.stderr if runs else running.stdout, RUNS.format(name))
        except BaseException:  # a stopped command does not wait for the kit
            running.terminate()
            raise
    if running.returncode != 0:
        raise Failure(f"rt {word} in crates/{name} failed with status {running.returncode}; the log is "
                      f"{places.shown(log)}")
    if runs and not is_run:
        raise Failure(f"rt {word} in crates/{name} did not come to run it; the log is {places.shown(log)}")


class Told:
    """A line for each crate that had to be proved; the kit is silent of those that have not changed."""

    def __init__(self, kept, count):
        self.kept, self.count, self.done = kept, count, 0
        self.began, self.crate = time.monotonic(), None

    def all(self, lines, sought):
        """Tells of a run of the kit; answers whether a line began as is sought."""
        found = False
        for line in lines:
            self.kept.write(line)
            found = found or line.startswith(sought)
            named, verdict = CRATE.match(line), VERDICT.match(line)
            if named is not None:
                self.crate = named.group(1)
            elif verdict is not None and self.crate is not None:
                self.done += 1
                took = time.monotonic() - self.began
                say(f"{self.crate} {verdict.group(1).replace('-', ' ')}, {self.done} of at most {self.count} ({took:.0f} s)")
                self.crate = None
        return found
