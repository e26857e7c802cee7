"""A program that runs in a pseudo-terminal of its own, for tests: keys go in, the cells of its screen are looked at."""
import fcntl
import os
import pty
import resource
import select
import signal
import struct
import subprocess
import termios
import time

from terminal_grid import Grid, Unknown

PATIENCE = 5.0  # seconds until something that should be shown counts as missing

passed = 0


class Failure(Exception):
    """A check that failed, with what was expected and seen."""


def check(what, seen, due):
    global passed
    if seen != due:
        raise Failure(f"{what}\n  expected {due!r}\n  seen     {seen!r}")
    passed += 1


def prepare():
    """In the new process: the terminal becomes its own, and a signal that ends it leaves no file behind."""
    fcntl.ioctl(0, termios.TIOCSCTTY, 0)
    resource.setrlimit(resource.RLIMIT_CORE, (0, 0))


class Session:
    """A program in a pseudo-terminal of its own."""

    def __init__(self, program, *arguments, rows=24, across=80, folder=None, file_size=None, ignored=(), **environment):
        self.master, self.slave = pty.openpty()
        self.grid = Grid(rows, across)
        self.window(rows, across)
        self.before = termios.tcgetattr(self.slave)
        outside = {name: value for name, value in os.environ.items() if name not in ("NO_COLOR", "LINES", "COLUMNS")}
        settings = {**outside, "TERM": "xterm", "LC_ALL": "C", **environment}

        def start():
            prepare()
            for number in ignored:
                signal.signal(number, signal.SIG_IGN)
            if file_size is not None:
                resource.setrlimit(resource.RLIMIT_FSIZE, (file_size, file_size))

        self.process = subprocess.Popen(
            [str(program), *map(str, arguments)], stdin=self.slave, stdout=self.slave, stderr=self.slave, env=settings,
            cwd=folder, start_new_session=True, preexec_fn=start)

    def window(self, rows, across):
        fcntl.ioctl(self.slave, termios.TIOCSWINSZ, struct.pack("HHHH", rows, across, 0, 0))

    def quiet(self):
        """Waits until nothing more is sent."""
        while self.take(0.1):
            pass

    def resize(self, rows, across):
        self.quiet()
        self.grid.resize(rows, across)
        self.window(rows, across)

    def take(self, seconds):
        """Feeds what the program sends next, if anything comes within so many seconds."""
        if select.select([self.master], [], [], seconds)[0]:
            try:
                self.grid.feed(os.read(self.master, 65536))
            except OSError:
                return False
            except Unknown as unknown:
                raise Failure(str(unknown)) from unknown
            return True
        return False

    def type(self, keys):
        data = keys.encode()
        while data:
            readable, writable, _ = select.select([self.master], [self.master], [], PATIENCE)
            if not readable and not writable:
                raise Failure(f"the program takes no keys: {data[:20]!r} is left")
            if readable:
                self.take(0)
            if writable:
                data = data[os.write(self.master, data[:512]):]

    def expect(self, what, seen, due):
        """Waits until seen() is what is due."""
        end = time.monotonic() + PATIENCE
        while seen() != due and time.monotonic() < end:
            self.take(0.05)
        if seen() != due:
            print("\n".join(self.grid.line(y) for y in range(self.grid.rows)))
        check(what, seen(), due)

    def expect_line(self, what, y, due):
        self.expect(what, lambda: self.grid.line(y), due)

    def expect_start(self, what, y, due):
        self.expect(what, lambda: self.grid.line(y)[:len(due)], due)

    def expect_lines(self, what, y, due):
        self.expect(what, lambda: [self.grid.line(y + i) for i in range(len(due))], due)

    def settings_change(self):
        return termios.tcgetattr(self.slave) != self.before

    def finish(self, what, status):
        """Waits for the end; the terminal has to be as it was."""
        end = time.monotonic() + PATIENCE
        while self.process.poll() is None and time.monotonic() < end:
            self.take(0.02)
        while self.take(0.02):
            pass
        check(f"{what}: exit status", self.process.poll(), status)
        check(f"{what}: terminal settings changed", self.settings_change(), False)
        check(f"{what}: screen modes left on", self.grid.modes, Grid.FIRST_MODES)
        os.close(self.master)
        os.close(self.slave)
