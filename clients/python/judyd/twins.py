"""The files of a copy's directory, and a segment that grows without a moment at which it is not whole."""

import os
import re
import secrets
from contextlib import suppress

from .dumpfile import write_all
from .journalfiles import PIECE, Damage, own, remove_if_there, segment_name

NEW = ".new"
"""How the names end of files that are not finished. judyd passes over them."""


class Disk:
    """The files of the directory."""

    def __init__(self, folder: str) -> None:
        self.folder = folder

    def path(self, name: str) -> str:
        """The path of a file."""
        return os.path.join(self.folder, name)

    def make(self, name: str) -> int:
        """Makes a file anew. One of this name is removed."""
        remove_if_there(self.path(name))
        file = os.open(self.path(name), os.O_RDWR | os.O_CREAT | os.O_EXCL | os.O_CLOEXEC, 0o600)
        own(self.folder, file)
        return file

    def open(self, name: str) -> int:
        """Opens a file for reading."""
        return os.open(self.path(name), os.O_RDONLY | os.O_CLOEXEC)

    def size(self, name: str) -> int:
        """How many bytes a file has."""
        return os.stat(self.path(name)).st_size

    def rename(self, old: str, new: str) -> None:
        """Gives a file another name."""
        os.rename(self.path(old), self.path(new))

    def sync(self) -> None:
        """Syncs the directory: the names of its files."""
        sync_directory(self.folder)

    def put(self, name: str, text: bytes) -> None:
        """Gives a file this text, for good. The file before stays until the new one is synced."""
        file = self.make(name + NEW)
        try:
            write_all(file, text)
            os.fsync(file)
        finally:
            os.close(file)
        self.rename(name + NEW, name)
        self.sync()


def sync_directory(path: str) -> None:
    """Syncs the names of a directory's files."""
    file = os.open(path, os.O_RDONLY | os.O_DIRECTORY | os.O_CLOEXEC)
    try:
        os.fsync(file)
    finally:
        os.close(file)


class Twin:
    """A segment that grows in two files that take turns. The new bytes are appended to the one without the name,
    which is synced and then renamed over the other one.

    If the bytes were appended in place, a loss of power could leave a later page of them without an earlier one.
    The notes in them tell what was synced on the first machine, so judyd would take such a torn end for damage.

    `size` is how many bytes the file with the name has; all of them are synced. `end` is how many there will be
    once it is settled."""

    def __init__(self, disk: Disk, number: int, is_there: bool) -> None:
        self.number = number
        self._disk, self._name = disk, segment_name(number)
        self._named = os.open(disk.path(self._name), os.O_RDWR | os.O_CLOEXEC) if is_there else -1
        self.size = self.end = os.fstat(self._named).st_size if is_there else 0
        self._other, self._copied = disk.make(self._name + NEW), 0

    def add(self, data: bytes) -> None:
        """Appends to the file without the name. Before that it gets what the other one has more."""
        while self._copied < self.size:
            piece = os.pread(self._named, min(PIECE, self.size - self._copied), self._copied)
            if not piece:
                raise Damage("%s: it was cut" % self._disk.path(self._name))
            self._write(piece)
        self._write(data)
        self.end = self._copied

    def _write(self, data: bytes) -> None:
        """Appends to the file without the name."""
        os.lseek(self._other, self._copied, os.SEEK_SET)
        write_all(self._other, data)
        self._copied += len(data)

    def settle(self) -> None:
        """Syncs the file without the name, and gives it the name, for good. Then the other one has none."""
        os.fsync(self._other)
        name, new, old = self._name, self._name + NEW, self._name + ".old" + NEW
        if self._named >= 0:
            remove_if_there(self._disk.path(old))
            os.link(self._disk.path(name), self._disk.path(old))
        self._disk.rename(new, name)
        self._disk.sync()
        self._named, self._other = self._other, self._named
        self._copied, self.size = self.size, self.end
        if self._other >= 0:
            self._disk.rename(old, new)
        if self._other < 0 or os.fstat(self._other).st_nlink > 1:  # there is none yet, or somebody keeps it
            self._begin_other()

    def _begin_other(self) -> None:
        """Makes a new file without the name."""
        if self._other >= 0:
            os.close(self._other)
        self._other, self._copied = self._disk.make(self._name + NEW), 0

    def close(self) -> None:
        """Removes the file without the name."""
        remove_if_there(self._disk.path(self._name + NEW))
        for file in (self._named, self._other):
            if file >= 0:
                os.close(file)


def make_directory(folder: str) -> None:
    """Makes a directory for this user alone, if it is not there. Its name is synced."""
    with suppress(FileExistsError):
        os.mkdir(folder, 0o700)
        sync_directory(os.path.dirname(os.path.abspath(folder)))


def is_id(text: str) -> bool:
    """Whether a text is the id of a journal."""
    return re.fullmatch(r"[0-9a-f]{32}", text) is not None


def id_of(folder: str, name: str) -> str:
    """The id of a journal, in a hidden file of its directory. It is made if it is not there."""
    path = os.path.join(folder, name)
    for _ in range(2):
        with suppress(FileNotFoundError), open(path, encoding="ascii", errors="replace") as file:
            text = file.read(100).strip()
            if is_id(text):
                return text
        Disk(folder).put(name, secrets.token_hex(16).encode() + b"\n")
    raise Damage("%s: it has no id" % path)
