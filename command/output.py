"""Putting a board file at the place that was named for it, whole or not at all.

A plain file is written beside its place, read back, and renamed into it; through a symbolic link the link stays and its
target is replaced. A pipe or a character device is written into. A folder, a disk or a socket is refused, and so are
the files that the pin list and a table of blanks are read from.
"""
import os
import stat
import tempfile

from command import inputs, standard
from command.failure import Failure, reason

STANDARD = "-"


class Place:
    """Where a board is to go. Making one refuses the places that can't take it, before any work is done."""

    def __init__(self, name, pins_name, table_name=None):
        self.name, self.beside = name, None
        try:
            self.status = None if name == STANDARD else status_of(name)
            self.standard = name == STANDARD or is_standard_output(self.status)
            if self.standard:
                self.status = os.fstat(standard.OUTPUT)
            self.refuse({"the pin list": pins_name, "the table of blanks": table_name})
        except (OSError, ValueError) as error:
            raise self.failure(error) from error

    def failure(self, error):
        return Failure(f"cannot write {self.name}: {reason(error) if isinstance(error, OSError) else error}")

    def refuse(self, read):
        """Refuses a place that is a file that is read, or no file, or in a folder that can't be written."""
        if self.is_plain():
            folder = os.path.dirname(os.path.realpath(self.name))
            os.stat(folder)
            if not os.access(folder, os.W_OK | os.X_OK):
                raise Failure(f"cannot write {self.name}: the folder {folder} cannot be written")
        if self.status is None:
            return
        for called, name in read.items():
            if name is not None and self.is_input(inputs.status_of(name)):
                raise Failure(f"{self.name} is {called} itself, which the board would replace")
        if self.standard:
            return
        if stat.S_ISDIR(self.status.st_mode):
            raise Failure(f"cannot write {self.name}: it is a folder")
        if stat.S_ISBLK(self.status.st_mode) or stat.S_ISSOCK(self.status.st_mode):
            raise Failure(f"cannot write {self.name}: it is a disk or a socket, and no file")

    def is_input(self, status):
        """Whether a file that is read stands at the place. A terminal may be both."""
        same = status is not None and os.path.samestat(self.status, status)
        return same and (not self.standard or stat.S_ISREG(status.st_mode))

    def is_plain(self):
        return not self.standard and (self.status is None or stat.S_ISREG(self.status.st_mode))

    def prepare(self, data):
        """Writes a plain file's new contents beside its place, down to the disk, and looks at them again."""
        if self.is_plain():
            try:
                self.beside = self.written_beside(os.path.realpath(self.name), data)
            except OSError as error:
                raise self.failure(error) from error

    def written_beside(self, real, data):
        number, beside = tempfile.mkstemp(prefix=".channel-", dir=os.path.dirname(real))
        try:
            try:
                standard.write_all(number, data)
                self.keep_mode(number)
                os.fsync(number)
            finally:
                os.close(number)
            with open(beside, "rb") as file:
                if file.read() != data:
                    raise Failure(f"cannot write {self.name}: the file reads otherwise than it was written")
        except BaseException:
            os.unlink(beside)
            raise
        return beside

    def keep_mode(self, number):
        """The mode of the file that is replaced, or that of a new one; the owner too, where the system allows it."""
        if self.status is None:
            mask = os.umask(0o077)
            os.umask(mask)
            os.fchmod(number, 0o666 & ~mask)
            return
        if (self.status.st_uid, self.status.st_gid) != (os.geteuid(), os.getegid()):
            try:
                os.fchown(number, self.status.st_uid, self.status.st_gid)
            except PermissionError:
                pass
        os.fchmod(number, stat.S_IMODE(self.status.st_mode))

    def put(self, data):
        """Puts the board in its place."""
        if self.standard:
            standard.write_output(data)
            return
        try:
            if self.beside is not None:
                real = os.path.realpath(self.name)
                os.rename(self.beside, real)
                self.beside = None
                sync_folder(os.path.dirname(real))
            else:
                write_into(self.name, data)
        except OSError as error:
            raise self.failure(error) from error

    def discard(self):
        """Leaves no file beside the place."""
        if self.beside is not None:
            os.unlink(self.beside)
            self.beside = None


def status_of(name):
    """What stands at a name, links followed; None if nothing does."""
    try:
        return os.stat(name)
    except FileNotFoundError:
        if name.endswith("/") or name == "":
            raise
        return None


def is_standard_output(status):
    """Whether a name such as /dev/stdout is where standard output goes."""
    try:
        return status is not None and os.path.samestat(status, os.fstat(standard.OUTPUT))
    except OSError:
        return False


def write_into(name, data):
    """Writes into a pipe or device, which is not replaced. Raises OSError."""
    number = os.open(name, os.O_WRONLY | os.O_NOCTTY | os.O_CLOEXEC)
    try:
        standard.write_all(number, data)
    finally:
        os.close(number)


def sync_folder(folder):
    """Brings a rename down to the disk, where the folder can be opened for that."""
    try:
        number = os.open(folder, os.O_RDONLY | os.O_DIRECTORY | os.O_CLOEXEC)
    except OSError:
        return
    try:
        os.fsync(number)
    except OSError:
        pass
    finally:
        os.close(number)
