"""Losses of power while `judy receive` writes: a record of what it asks of its disk, and what may be left of it.

What was synced stands. Of what was not synced in a file, any pages of 4 KB are there, or zeros or other bytes in
their place, and any changes of the directory's names took place.
"""

import os
import stat
from contextlib import contextmanager
from unittest import mock

PAGE = 4096
CALLS = ("write", "fsync", "rename", "link", "unlink", "open")


class Disk:
    """What a directory has: files by numbers of their own, with what is synced and what is there, and names. `states`
    has each moment: the number of lines that were answered, and what could be left."""

    def __init__(self, folder):
        self.folder = folder
        self.files, self.inodes = [], {}
        self.names, self.pending = {}, []
        self.moments, self.answered = [], []
        for name in os.listdir(folder) if os.path.exists(folder) else ():
            with open(os.path.join(folder, name), "rb") as file:
                text = file.read()
                self.names[name] = self.known(file.fileno())
                self.files[self.names[name]] = [text, text]

    def known(self, file):
        """The number of an open file."""
        inode = os.fstat(file).st_ino
        if inode not in self.inodes:
            self.inodes[inode] = len(self.files)
            self.files.append([b"", b""])
        return self.inodes[inode]

    def name(self, path):
        """A name in the directory; None for a path elsewhere."""
        place, name = os.path.split(os.path.abspath(path))
        return name if place == os.path.abspath(self.folder) else None

    def note(self):
        """Keeps what could be left at this moment."""
        self.moments.append((len(self.answered), dict(self.names), list(self.pending), [tuple(it) for it in self.files]))

    def done(self, call, words, result):
        """Notes a call that was made."""
        if call == "open" and words[1] & os.O_CREAT and self.name(words[0]):
            name = self.name(words[0])
            if words[1] & os.O_EXCL or name not in self.present():
                self.inodes.pop(os.fstat(result).st_ino, None)
                self.pending.append(("make", self.known(result), name))
        elif call == "write" and stat.S_ISREG(os.fstat(words[0]).st_mode):
            file, at = self.files[self.known(words[0])], os.lseek(words[0], 0, os.SEEK_CUR)
            text = bytes(words[1][:result])
            file[1] = file[1][: at - len(text)] + text + file[1][at:]
        elif call == "fsync" and stat.S_ISDIR(os.fstat(words[0]).st_mode):
            if os.path.samestat(os.fstat(words[0]), os.stat(self.folder)):
                self.names, self.pending = self.present(), []
        elif call == "fsync":
            file = self.files[self.known(words[0])]
            file[0] = file[1]
        elif call in ("rename", "link", "unlink"):
            self.pending.append((call, *map(self.name, words)))
        self.note()

    def present(self):
        """The names of the files that are there."""
        names = dict(self.names)
        for change in self.pending:
            changed(names, change)
        return names

    @contextmanager
    def recorded(self):
        """Notes all calls while the block runs."""

        def wrapped(call):
            real = getattr(os, call)

            def wrapper(*words, **how):
                result = real(*words, **how)
                self.done(call, words, result)
                return result

            return wrapper

        with mock.patch.multiple(os, **{call: wrapped(call) for call in CALLS}):
            yield

    def weight(self, moment):
        """How much can be lost at a moment."""
        _, names, pending, files = self.moments[moment]
        return 1 + min(6, 2 * len(pending)) + 5 * any(files[it][0] != files[it][1] for it in names.values())

    def leave(self, draw, moment, folder):
        """Writes to a directory what may be left at a moment."""
        _, names, pending, files = self.moments[moment]
        names, without = dict(names), draw.randrange(len(pending) * 2 or 1)
        for at, change in enumerate(pending):
            if draw.random() < 0.5 if without >= len(pending) else at != without:  # in half of the cases one alone is lost
                changed(names, change)
        os.mkdir(folder)
        for name, number in names.items():
            with open(os.path.join(folder, name), "wb") as file:
                file.write(left_of(draw, *files[number]))


def changed(names, change):
    """Makes a change of a directory's names, if the file that it is about is there."""
    call, first, *second = change
    if call == "make":
        names[second[0]] = first
    elif first in names and call == "unlink":
        del names[first]
    elif first in names:
        names[second[0]] = names[first] if call == "link" else names.pop(first)


def left_of(draw, synced, written):
    """What may be left of a file."""
    end = draw.choice((len(synced), len(written), draw.randint(len(synced), max(len(synced), len(written)))))
    text = bytearray(written[:end])
    for page in range(len(synced) // PAGE * PAGE, end, PAGE):
        kind, start, stop = draw.randrange(4), max(page, len(synced)), min(page + PAGE, end)
        if kind < 2:
            text[start:stop] = bytes(stop - start) if kind == 0 else draw.randbytes(stop - start)
    text[: len(synced)] = synced
    return bytes(text)
