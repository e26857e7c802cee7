"""The proved programs by themselves: a read or a write that fails is an error, with status 1 and words on standard error."""
import os
import subprocess

from command.tests.workshop import A, LISTED, PROGRAMS, ROOT, Done, Workshop

ON_STANDARD_INPUT = ("listing", "board_writer", "ring_finder")
ON_FILES = {"board_judge": ("pins", "board"), "panel_joiner": ("first", "second")}
EMPTY = b"REFUSED 2 0\n"
HANDING_OUT = {b"malloc", b"calloc", b"realloc", b"reallocarray", b"posix_memalign", b"aligned_alloc", b"memalign",
               b"valloc", b"strdup", b"mmap", b"mmap64", b"brk", b"sbrk"}


class Ends(Workshop):
    def run_program(self, name, **options):
        options = {"stdin": subprocess.DEVNULL, "stdout": subprocess.PIPE, "stderr": subprocess.PIPE, **options}
        return Done(subprocess.run([ROOT / "target" / "bin" / name], cwd=self.room, check=False, **options))

    def failed(self, done):
        self.assertEqual((done.status, done.output or b""), (1, b""))
        self.assertTrue(done.words.startswith("Error: "), done.words)

    def test_a_whole_list(self):
        with open(self.pins, "rb") as pins:
            done = self.run_program("listing", stdin=pins)
        self.assertEqual((done.status, done.output, done.words), (0, LISTED, ""))

    def test_nothing_on_standard_input(self):
        for name in ON_STANDARD_INPUT:
            with self.subTest(name):
                done = self.run_program(name)
                self.assertEqual((done.status, done.output, done.words), (0, EMPTY, ""))

    def test_standard_input_that_cannot_be_read(self):
        folder = os.open(self.room, os.O_RDONLY)
        self.addCleanup(os.close, folder)
        for name in ON_STANDARD_INPUT:
            with self.subTest(name, stdin="a folder"):
                self.failed(self.run_program(name, stdin=folder))
            with self.subTest(name, stdin="closed"):
                self.failed(self.run_program(name, stdin=None, preexec_fn=lambda: os.close(0)))

    def test_files_that_are_not_there(self):
        self.pins.unlink()
        for name in ON_FILES:
            with self.subTest(name):
                done = self.run_program(name)
                self.assertEqual((done.status, done.output, done.words), (0, EMPTY, ""))

    def test_files_that_cannot_be_read(self):
        for name, files in ON_FILES.items():
            for i, folder in enumerate(files):
                with self.subTest(name, folder=folder):
                    for before in files[:i]:
                        self.put(before, A)
                    (self.room / folder).unlink(missing_ok=True)
                    (self.room / folder).mkdir()
                    self.failed(self.run_program(name))
                    (self.room / folder).rmdir()

    def test_standard_output_that_cannot_be_written(self):
        for name in PROGRAMS:
            with self.subTest(name, stdout="full"), open("/dev/full", "wb") as full:
                self.failed(self.run_program(name, stdout=full))
            with self.subTest(name, stdout="closed"):
                self.failed(self.run_program(name, stdout=None, preexec_fn=lambda: os.close(1)))

    def test_none_asks_for_memory(self):
        """So none can run out of it, nor can the gate's program: they call nothing of the C library that hands it out."""
        gates = ROOT / "crates" / "cases" / "out" / "cases"
        self.assertTrue(gates.is_file(), f"{gates} is missing: the gate, rt ci, leaves it there")
        for program in (*(ROOT / "target" / "bin" / name for name in PROGRAMS), gates):
            with self.subTest(program.name):
                names = set(program.read_bytes().split(b"\0"))
                self.assertIn(b"memcpy", names)
                self.assertFalse(names & HANDING_OUT)

    def test_a_reader_that_is_gone(self):
        for name in PROGRAMS:
            with self.subTest(name):
                ours, theirs = os.pipe()
                os.close(ours)
                self.failed(self.run_program(name, stdout=theirs))
                os.close(theirs)
