"""Lines that are sent together, and their replies, as bytes. So a large number of lines costs little more than
the bytes."""

from typing import Any, Callable, Collection, Iterable, List, Optional, Sequence

PIECE = 250
"""How many lines that are alike are made at once. A server works on them while the next ones are made."""


class Lines:
    """Lines: their bytes, each with its LF, and how many there are."""

    def __init__(self, data: bytes, count: int) -> None:
        self._data = data
        self.count = count
        self.meanwhile: Optional[Callable[[], None]] = None

    @classmethod
    def of(cls, lines: Collection[bytes]) -> "Lines":
        """These lines, each without an LF."""
        return cls(joined(lines), len(lines))

    def pieces(self) -> Iterable[bytes]:
        """The bytes, in pieces of whole lines."""
        return (self._data,)

    def data(self) -> bytes:
        """The bytes as one."""
        return self._data

    def told_sent(self) -> None:
        """What to do once all lines are sent, while the server works on them."""
        if self.meanwhile is not None:
            self.meanwhile()

    def each(self) -> List[bytes]:
        """Each line by itself."""
        return cut(self.data())

    def whole(self) -> "Lines":
        """The same lines, made in full."""
        return self


class FormedLines(Lines):
    """Lines that are alike: a form, and the fields of one line after the other. They are made piece by piece."""

    def __init__(self, form: bytes, fields: Sequence[Any], count: int) -> None:
        super().__init__(b"", count)
        self._form = form + b"\n"
        self._fields = fields

    def pieces(self) -> Iterable[bytes]:
        """The bytes, in pieces of whole lines."""
        width = len(self._fields) // self.count
        for at in range(0, self.count, PIECE):
            count = min(PIECE, self.count - at)
            yield self._form * count % tuple(self._fields[at * width : (at + count) * width])

    def data(self) -> bytes:
        """The bytes as one."""
        return b"".join(self.pieces())

    def whole(self) -> Lines:
        """The same lines, made in full."""
        return Lines(self.data(), self.count)


def joined(lines: Collection[bytes]) -> bytes:
    """Lines or replies as bytes, each with its LF."""
    return b"\n".join(lines) + b"\n" if lines else b""


def cut(data: bytes) -> List[bytes]:
    """Each of these lines or replies by itself. Bytes without an LF yet are left out."""
    return data.split(b"\n")[:-1]
