"""Where `make` puts the board: plain files are replaced whole, all else is written into or refused."""
import errno
import os
import pty
import socket
import stat
import subprocess
import sys
import threading
import tty
import unittest.mock

from command import output
from command.failure import Failure
from command.tests.workshop import A, LISTED, OLD, ROOT, Workshop


class PlainFiles(Workshop):
    def made(self, *words, **options):
        done = self.run_channel("make", *words, **options)
        self.assertEqual((done.status, done.output, done.words), (0, LISTED, ""))

    def test_a_new_file_has_the_usual_mode(self):
        self.made("pins", "board", preexec_fn=lambda: os.umask(0o027))
        self.assertEqual(stat.S_IMODE((self.room / "board").stat().st_mode), 0o640)

    def test_an_old_file_keeps_its_mode(self):
        self.put("board", OLD).chmod(0o604)
        self.made("pins", "board")
        self.assertEqual((self.room / "board").read_bytes(), self.board)
        self.assertEqual(stat.S_IMODE((self.room / "board").stat().st_mode), 0o604)
        self.assertEqual(self.files(), ["board", "pins"])

    def test_a_link_stays_and_its_target_is_replaced(self):
        (self.room / "far").mkdir()
        self.put("far/board", OLD)
        (self.room / "link").symlink_to("far/board")
        self.made("pins", "link")
        self.assertEqual(os.readlink(self.room / "link"), "far/board")
        self.assertEqual((self.room / "far" / "board").read_bytes(), self.board)
        self.assertEqual(os.listdir(self.room / "far"), ["board"])

    def test_a_links_file_is_written_beside_its_target(self):
        (self.room / "far").mkdir()
        (self.room / "link").symlink_to("far/board")
        place = output.Place(str(self.room / "link"), str(self.pins))
        place.prepare(self.board)
        self.assertEqual(os.path.dirname(place.beside), str(self.room / "far"))
        place.discard()

    def test_a_link_to_nothing_yet(self):
        (self.room / "link").symlink_to("new")
        self.made("pins", "link")
        self.assertEqual((self.room / "new").read_bytes(), self.board)

    def test_names_that_begin_with_a_dash(self):
        self.put("-pins", A)
        self.made("--", "-pins", "-board")
        self.assertEqual((self.room / "-board").read_bytes(), self.board)


class Refused(Workshop):
    def refused(self, done, word):
        self.assertEqual((done.status, done.output), (2, b""))
        self.assertIn(word, done.words)
        self.assertEqual((self.room / "pins").read_bytes(), A)

    def test_the_pin_list_itself(self):
        (self.room / "link").symlink_to("pins")
        os.link(self.room / "pins", self.room / "twin")
        for name in ("pins", "./pins", "link", "twin"):
            self.refused(self.run_channel("make", "pins", name), "the pin list itself")
        with open(self.room / "pins", "rb") as file:
            self.refused(self.run_channel("make", "-", "pins", stdin=file), "the pin list itself")

    def test_one_pipe_for_both(self):
        os.mkfifo(self.room / "pipe")
        self.refused(self.run_channel("make", "pipe", "pipe"), "the pin list itself")

    def test_standard_output_into_the_pin_list(self):
        with open(self.room / "pins", "ab") as file:
            done = self.run_channel("make", "pins", "-", stdout=file)
        self.assertEqual((done.status, (self.room / "pins").read_bytes()), (2, A))

    def test_a_folder(self):
        (self.room / "folder").mkdir()
        self.refused(self.run_channel("make", "pins", "folder"), "it is a folder")
        self.refused(self.run_channel("make", "pins", "none/board"), "No such file or directory")
        self.refused(self.run_channel("make", "pins", "none/"), "No such file or directory")
        self.refused(self.run_channel("make", "pins", ""), "No such file or directory")

    def test_a_socket(self):
        with socket.socket(socket.AF_UNIX) as end:
            end.bind(str(self.room / "socket"))
            self.refused(self.run_channel("make", "pins", "socket"), "socket")
        self.assertTrue(stat.S_ISSOCK((self.room / "socket").stat().st_mode))


class WrittenInto(Workshop):
    def test_a_pipe(self):
        os.mkfifo(self.room / "pipe")
        got = []
        reader = threading.Thread(target=lambda: got.append((self.room / "pipe").read_bytes()))
        reader.start()
        done = self.run_channel("make", "pins", "pipe")
        reader.join()
        self.assertEqual((done.status, done.output, got), (0, LISTED, [self.board]))
        self.assertTrue(stat.S_ISFIFO((self.room / "pipe").stat().st_mode))

    def test_a_device(self):
        ours, theirs = pty.openpty()  # a device of the test's own
        tty.setraw(theirs)
        name = os.ttyname(theirs)
        done = self.run_channel("make", "pins", name)
        self.assertEqual((done.status, os.read(ours, 4096)), (0, self.board))
        self.assertTrue(stat.S_ISCHR(os.stat(name).st_mode))
        os.close(theirs)
        os.close(ours)

    def test_standard_output(self):
        for name in ("-", "/dev/stdout"):
            done = self.run_channel("make", "pins", name)
            self.assertEqual((done.status, done.output, done.words), (0, self.board, LISTED.decode()))


class WritesThatFail(Workshop):
    """The old file stays, and nothing is left beside it."""

    def failing(self, call, code):
        old = self.put("board", OLD)
        place = output.Place(str(old), str(self.pins))
        with unittest.mock.patch(call, side_effect=OSError(code, os.strerror(code))):
            with self.assertRaises(Failure) as told:
                place.prepare(self.board)
                place.put(self.board)
        place.discard()
        self.assertIn(os.strerror(code), str(told.exception))
        self.assertEqual((old.read_bytes(), self.files()), (OLD, ["board", "pins"]))

    def test_a_full_disk(self):
        self.failing("command.standard.write_all", errno.ENOSPC)

    def test_a_sync_that_fails(self):
        self.failing("os.fsync", errno.EIO)

    def test_a_rename_that_fails(self):
        self.failing("os.rename", errno.EACCES)

    def test_a_file_that_reads_otherwise(self):
        old = self.put("board", OLD)
        place = output.Place(str(old), str(self.pins))
        with unittest.mock.patch("command.standard.write_all"):
            self.assertRaises(Failure, place.prepare, self.board)
        self.assertEqual((old.read_bytes(), self.files()), (OLD, ["board", "pins"]))

    def test_a_listing_that_cannot_be_written(self):
        self.put("board", OLD)
        with open("/dev/full", "wb") as full:
            done = self.run_channel("make", "pins", "board", stdout=full)
        self.assertEqual(done.status, 2)
        self.assertEqual(((self.room / "board").read_bytes(), self.files()), (OLD, ["board", "pins"]))

    def test_no_file_takes_the_number_of_a_closed_standard_file(self):
        code = "import os; from command import standard; standard.secure(); os._exit(os.open('/dev/null', 0))"
        done = subprocess.run([sys.executable, "-B", "-c", code], cwd=ROOT, check=False,
                              preexec_fn=lambda: os.closerange(0, 3))
        self.assertEqual(done.returncode, 3)

    def test_a_closed_standard_output_takes_no_files_number(self):
        self.put("board", OLD)
        done = self.run_channel("make", "pins", "board", preexec_fn=lambda: os.close(1))
        self.assertEqual(done.status, 2)
        self.assertEqual((self.room / "board").read_bytes(), OLD)
