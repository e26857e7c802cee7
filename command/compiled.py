"""Sees that the programs in C, the order screen and the blank chooser, are there and compiled from their sources as
they are, which the `build` of each knows itself."""
import subprocess
from collections import namedtuple
from pathlib import Path

from command import built, places
from command.failure import Failure, reason

# lacking is what is said where an installed command does not have the program
Program = namedtuple("Program", "called build file log lacking")

ORDER_SCREEN = Program("the order screen", Path("screen/build"), places.ORDER_SCREEN, "build_order.txt",
                       "the order screen is not installed")
CHOOSER = Program("the blank chooser", Path("chooser/build"), places.CHOOSER, "build_chooser.txt",
                  f"{places.CHOOSER} is missing: install the command again")


def ready(program):
    """An installed command has a program or none; it compiles nothing."""
    if not places.IN_SOURCES:
        if not program.file.is_file():
            raise Failure(program.lacking)
        return
    built.library_ready()
    with built.locked():
        compile_it(program)


def compile_it(program):
    """Calls the program's `build`; what that says when it fails is told, and its log named."""
    build, log = places.ROOT / program.build, places.TARGET / "log" / program.log
    try:
        log.parent.mkdir(parents=True, exist_ok=True)
        with open(log, "wb") as kept:
            done = subprocess.run([build, program.file], cwd=places.ROOT, stdin=subprocess.DEVNULL, stdout=kept,
                                  stderr=kept, check=False)
    except OSError as error:
        raise Failure(f"{program.called} could not be built: {build}: {reason(error)}") from error
    if done.returncode != 0:
        said = log.read_text(encoding="utf-8", errors="replace").strip().splitlines()[-1:]
        raise Failure(f"{program.called} could not be built: " + "; ".join([*said, f"the log is {places.shown(log)}"]))
