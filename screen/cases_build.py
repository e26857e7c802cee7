"""How the order screen is built."""
import os
import subprocess

from order_keys import ORDER
from pseudo_terminal import check

BUILD = ORDER.parent.parent / "screen" / "build"


def build(*arguments, **environment):
    """Exit status, and what is said."""
    done = subprocess.run([str(BUILD), *map(str, arguments)], stdout=subprocess.PIPE, stderr=subprocess.STDOUT,
                          env={**os.environ, **environment}, check=False)
    return done.returncode, done.stdout.decode()


def run(folder):
    status, said = build(ORDER)
    check(f"the order screen is built {said}", status, 0)
    made = ORDER.stat().st_mtime_ns
    check("built again", build(ORDER), (0, ""))
    check("nothing was done", ORDER.stat().st_mtime_ns, made)
    (folder / "order").write_bytes(b"old")
    status, said = build(folder / "order", CC="false")
    check("no compiler, or no ncursesw", (status, "libncurses-dev" in said), (2, True))
    check("what was there stays", (folder / "order").read_bytes(), b"old")
    check("wrong use", build(), (2, "usage: screen/build OUTPUT\n"))
