"""What `judy ship` sends, and what it makes of the answers. receiving.py has what the two say to each other.

At most two answers are awaited at once, so that what waits in pipes and programs between the two does not grow. What
comes meanwhile is read later, and more at once.
"""

import hashlib
import re
import time
from collections import deque
from typing import Deque, NamedTuple, Optional, Tuple

from .errors import Error
from .journalfiles import NAME, Damage, segment_name
from .source import Fileless, Journal, Segment, Snapshot, Told
from .twins import id_of, is_id

BATCH = 16 << 20
"""After how many bytes the receiver is told to settle them, also if there are more."""

UNANSWERED = 2
"""How many answers may be awaited at once."""

BUSY, IDLE = 0.005, 0.03
"""How many seconds it waits before it looks again: if there was something in the last second, and otherwise."""

ID = ".ship"
"""The file with the id of a journal. Its copy has the same id, so that it is known also after a compaction."""

_HAS = re.compile(r"HAS (\S+) ([0-9]{1,15}) ([0-9a-f]{64})")
_AT = re.compile(r"AT ([0-9]{1,15}):([0-9]{1,15})")


class Broken(Error):
    """The receiver has ended, or says what it should not."""


class Awaited(NamedTuple):
    """An answer that will come: the place, how many bytes were sent by then, and the moment of which all will be
    there then, if it is known."""

    place: Tuple[int, int]
    total: int
    moment: Optional[float]


class Feed:
    """A journal that is sent. `place` is what the receiver has confirmed."""

    def __init__(self, folder: str, is_once: bool) -> None:
        self._journal = Journal(folder)
        self._journal.manifest()
        self._id = id_of(folder, ID)
        self._is_once = is_once
        self._told: Optional[Told] = None
        self._is_ready = False  # the receiver has told what it has
        self._has_begun = self._has_synced = self._has_all = self._prefers_snapshot = False
        self._segment: Optional[Segment] = None
        self._snapshot: Optional[Snapshot] = None
        self._is_behind = False  # it needs a snapshot before more of the segments
        self._newest = 0  # the snapshot that it has, or gets now
        self._sent = self.place = (0, 0)
        self._awaited: Deque[Awaited] = deque()
        self._total = self._confirmed = self._unsynced = 0
        self._moment = self._busy = time.monotonic()

    def is_done(self) -> bool:
        """Whether all that was there at the start is confirmed, and nothing else is wanted."""
        return self._is_once and self._has_all and not self._awaited and self._snapshot is None

    def wait_time(self) -> float:
        """How long to wait before the next look at the journal."""
        return BUSY if time.monotonic() - self._busy < 1 else IDLE

    def status(self) -> str:
        """Where the receiver is, how many bytes it has not confirmed, and how many seconds ago all that was there
        had been confirmed."""
        unconfirmed = self._total - self._confirmed + self._left()
        seconds = time.monotonic() - self._moment if unconfirmed else 0
        return "segment %d\nbyte %d\nunconfirmed %d\nseconds %.1f\n" % (*self.place, unconfirmed, seconds)

    def _left(self) -> int:
        """How many bytes of the journal were not sent yet, but for a snapshot that can wait."""
        if self._segment is not None:
            return self._segment.left() + self._journal.size_after(self._segment.number)
        snapshot = self._snapshot.size if self._snapshot is not None else 0
        return snapshot + self._journal.size_after(max(self._sent[0], self._journal.manifest().snapshot))

    def close(self) -> None:
        """Closes the files."""
        self._drop_segment()
        if self._snapshot is not None:
            self._snapshot.close()
            self._snapshot = None

    # ---- what the receiver says ----

    def hear(self, line: str) -> None:
        """Takes a line of the receiver."""
        if not self._is_ready:
            self._hear_start(line)
            return
        found = _AT.fullmatch(line)
        if not found or not self._awaited:
            raise Broken("the receiver says %r" % line[:200])
        awaited, place = self._awaited.popleft(), (int(found[1]), int(found[2]))
        if place != awaited.place:
            raise Broken("the receiver is at %d:%d, and should be at %d:%d" % (*place, *awaited.place))
        self.place, self._confirmed = place, awaited.total
        if awaited.moment is not None:
            self._moment = awaited.moment

    def _hear_start(self, line: str) -> None:
        """Takes a line of what the receiver says at its start."""
        words, found = line.split(" "), _HAS.fullmatch(line)
        if self._told is None:
            if words[:2] != ["judy", "receive"] or len(words) != 4 or not (is_id(words[3]) or words[3] == "-"):
                raise Broken("the receiver says %r, and judy receive begins otherwise" % line[:200])
            if words[2] != "1":
                raise Broken("the receiver is a judy receive of version %s: this judy ship knows version 1" % words[2])
            self._told = Told(words[3], {})
        elif found and NAME.fullmatch(found[1]):
            self._told.files[found[1]] = (int(found[2]), found[3])
        elif line == "READY":
            self._begin(self._told)
        else:
            raise Broken("the receiver says %r" % line[:200])

    def _begin(self, told: Told) -> None:
        """Begins where a copy goes on."""
        self._is_behind = self._journal.is_behind(self._id, told)
        segments, self._newest = told.numbers(True), max(told.numbers(False), default=0)
        if segments:
            self._sent = (segments[-1], told.files[segment_name(segments[-1])][0])
        elif self._newest:
            self._sent = (self._newest + 1, 0)
        self.place, self._is_ready = self._sent, True
        if segments and not self._is_behind:
            self._open(*self._sent)

    # ---- what is sent ----

    def next_bytes(self) -> bytes:
        """What to send next: nothing if there is nothing to send now."""
        if not self._is_ready:
            return b""
        if not self._has_begun:
            self._has_begun = True
            return b"judy ship 1 %s\n" % self._id.encode()
        if len(self._awaited) >= UNANSWERED:
            return b""
        self._look_for_snapshot()
        message = self._from_snapshot() if self._prefers_snapshot else self._from_segment()
        if message:
            self._prefers_snapshot = not self._prefers_snapshot  # in turns, if there is something of both
        else:
            message = self._from_segment() if self._prefers_snapshot else self._from_snapshot()
        if message:
            self._busy = time.monotonic()
        return message

    def _look_for_snapshot(self) -> None:
        """Opens the snapshot that the manifest names, if the receiver has not got it."""
        is_wanted = self._snapshot is None and (self._is_behind or not self._has_all)
        if is_wanted and self._journal.manifest().snapshot > self._newest:
            self._snapshot = self._journal.open_snapshot()
            self._newest = self._snapshot.number if self._snapshot is not None else self._newest

    def _from_segment(self) -> bytes:
        """The next whole commits, with a SYNC if nothing follows them."""
        if self._is_behind or self._has_all:
            return b""
        moment = time.monotonic()
        if self._segment is None:
            number = self._newest + 1
            if self._journal.has_segment(number) or self._journal.manifest().snapshot >= number:
                self._open(number, 0)
            return self._sync(moment) if self._segment is None and not self._is_behind else b""
        # A segment that is closed is not written anew any more. So this comes before the file is opened anew.
        is_closed = self._journal.has_segment(self._segment.number + 1)
        try:
            self._segment.renew()
            return self._commits(self._segment, is_closed, moment)
        except Fileless:
            self._fall_behind(self._segment.number)
            return b""

    def _commits(self, segment: Segment, is_closed: bool, moment: float) -> bytes:
        """The next whole commits of a segment, with a SYNC if nothing follows them."""
        before = segment.at
        data, is_all = segment.next_piece()
        if not data and is_closed and not self._unsynced:
            self._go_on(segment)
            return b""
        message = piece(segment.name, before, data) if data else b""
        if data:
            self._sent = (segment.number, segment.at)
            self._total += len(data)
            self._unsynced += len(data)
        if is_all or self._unsynced >= BATCH:
            message += self._sync(moment if is_all and not is_closed else None)
        return message

    def _go_on(self, segment: Segment) -> None:
        """Goes on with the next segment."""
        segment.check_end()
        try:
            self._segment = self._journal.open_next(segment)
            segment.close()
        except Fileless:
            self._fall_behind(segment.number + 1)

    def _sync(self, moment: Optional[float]) -> bytes:
        """A SYNC, if there is something to settle, or if it is the first. With a moment, all that was there then is
        sent."""
        if moment is not None and self._is_once:
            self._has_all = True
        if self._unsynced or not self._has_synced:
            self._unsynced, self._has_synced = 0, True
            self._awaited.append(Awaited(self._sent, self._total, moment))
            return b"SYNC\n"
        if moment is not None and not self._awaited:
            self._moment = moment
        return b""

    def _open(self, number: int, at: int) -> None:
        """Goes on with a segment from a place on."""
        try:
            self._segment = self._journal.open_segment(number, at)
        except Fileless:
            self._fall_behind(number)

    def _fall_behind(self, number: int) -> None:
        """Goes on with the snapshot that stands for this segment, which is not there any more."""
        if self._journal.manifest().snapshot < number:
            raise Damage("%s: missing" % self._journal.path(segment_name(number)))
        self._drop_segment()
        self._is_behind = True

    def _drop_segment(self) -> None:
        """Ends with the segment that is read."""
        segment, self._segment = self._segment, None
        if segment is not None:
            segment.close()

    def _from_snapshot(self) -> bytes:
        """The next piece of a snapshot, or that it is whole."""
        snapshot = self._snapshot
        if snapshot is None:
            return b""
        at, data = snapshot.at, snapshot.next_piece()
        if data:
            return piece(snapshot.name, at, data)
        snapshot.close()
        self._snapshot, self._unsynced, self._has_synced = None, 0, True
        if self._sent[0] <= snapshot.number:  # it stands for all that was sent
            self._sent = (snapshot.number + 1, 0)
            self._total += snapshot.size
            self._drop_segment()
            self._is_behind = False
            self._open(*self._sent)
        self._awaited.append(Awaited(self._sent, self._total, None))
        return b"WHOLE %s %d\n" % (snapshot.name.encode(), snapshot.size)


def piece(name: str, at: int, data: bytes) -> bytes:
    """A piece of a file, with its header."""
    return b"DATA %s %d %d %s\n" % (name.encode(), at, len(data), hashlib.sha256(data).hexdigest().encode()) + data
