"""What the clients of a recorded run asked and were answered, beside its disk: which records there are, in
which order, what arrays they make, and which of them must be there at each moment."""

import functools
import sys
from bisect import bisect_left, insort
from collections import namedtuple

from commands import COMMANDS
from disks import after, renumbered

WORD = 2**64
STEP = 16384  # bytes between two places of a text whose arrays are kept
KEPT = 256  # of so many places
QUEUE = b"q"  # begins the names of the arrays whose keys are kept in order: of them some calls search

# The arrays that texts make, by a sum of each text. The newest stand last.
PLAYED = {}

# A moment of a run: the disk, how many records must be there after a loss, how many may be, and the place of the
# last event.
Moment = namedtuple("Moment", "disk must may at")


def fail(text):
    """Ends the test."""
    sys.exit("losses: %s" % text)


class Arrays:
    """The entries of all tenants, and a sum over them that two sets of entries have alike only if they are
    equal."""

    def __init__(self, other=None):
        self.entries = dict(other.entries) if other else {}
        self.queues = {array: list(keys) for array, keys in other.queues.items()} if other else {}
        self.sum = other.sum if other else 0

    def put(self, place, value):
        """Puts an entry, or with None takes it away."""
        old = self.entries.pop(place, None)
        if old is not None:
            self.sum -= hash((place, old))
        if value is not None:
            self.entries[place] = value
            self.sum += hash((place, value))
        self.sum %= WORD
        if place[2].startswith(QUEUE) and (old is None) != (value is None):
            keys = self.queues.setdefault(place[:3], [])
            if old is None:
                insort(keys, place[3])
            else:
                keys.remove(place[3])

    def found(self, place, operation, numbers):
        """The keys that a call finds from a place on, and changes: at most as many as it may."""
        keys, key = self.queues.get(place[:3], []), place[3]
        if operation == "Fill":
            while (*place[:3], key) in self.entries:
                key += 1
            return [key] if key < WORD else []
        last, most = (numbers[0], 1) if operation == "Pop" else numbers
        return [it for it in keys[bisect_left(keys, key) :] if it <= last][:most]

    def changes(self, record):
        """What the line of a record changes: places, each with its new value, or None if the entry goes."""
        tenant, word, name, key, *more = record.split(b" ")
        kind, operation = COMMANDS.get(word.decode(), (None, None))
        numbers = list(map(int, more)) or [0]
        if kind in ("One", "Long"):
            key = int(key)
        place = (tenant, kind, name, key)
        before = self.entries.get(place)
        if operation in ("Pop", "Fill", "Cut"):
            value = numbers[0] if operation == "Fill" else None
            return [((*place[:3], it), value) for it in self.found(place, operation, numbers)]
        if operation == "Take" or (operation == "Remove" and (not more or before == numbers[0])):
            return [(place, None)]
        if operation == "Add":
            return [(place, ((before or 0) + numbers[0]) % WORD)]
        if operation == "Insert" or (operation == "Keep" and before is None):
            return [(place, numbers[0])]
        if operation == "Exchange" and before == numbers[0]:
            return [(place, numbers[1])]
        if operation not in ("Remove", "Keep", "Exchange"):
            raise ValueError("a record of an unknown call: %r" % record[:100])
        return []

    def play(self, record):
        """Runs the line of a record. Returns the places that it changed."""
        changes = self.changes(record)
        for place, value in changes:
            self.put(place, value)
        return [place for place, _ in changes]


class Story:
    """A recorded run: its events, the text of the records before it, the arrays that these make, and the records
    that may have come since, each only once."""

    def __init__(self, disk, text, arrays, events, asked):
        self.disk, self.text, self.arrays = disk, text, arrays
        self.events = renumbered(events)
        self.asked = asked
        self.records, self.places = [], {}
        self.written_at()
        self.texts = [0]
        self.sums = {arrays.sum: [0, 0]}
        self.play()

    def written_at(self):
        """Finds the records, in the order in which they were first written, and how many were after each event."""
        rests, self.counts = {}, []
        for event in self.events:
            if event.kind == "W":
                # Zeros that were written ahead do not begin a line that is written over them.
                behind, rest = rests.get(event.number, (0, b""))
                *lines, rest = ((rest if behind == event.at else b"") + event.text).split(b"\n")
                rests[event.number] = (event.at + len(event.text), rest)
                for line in lines:
                    if line in self.asked and line not in self.places:
                        self.places[line] = len(self.records)
                        self.records.append(line)
            self.counts.append(len(self.records))

    def play(self):
        """Finds the sum of the arrays after each record."""
        arrays = Arrays(self.arrays)
        for count, record in enumerate(self.records, 1):
            arrays.play(record)
            self.texts.append(self.texts[-1] + len(record) + 1)
            self.sums.setdefault(arrays.sum, [count, count])[1] = count
        self.record_text = b"".join(record + b"\n" for record in self.records)
        self.last = arrays

    def arrays_after(self, count):
        """The arrays after this many records."""
        arrays = Arrays(self.arrays)
        for record in self.records[:count]:
            arrays.play(record)
        return arrays

    @functools.cached_property
    def answered(self):
        """How many records must be there after each event: those of all lines that were answered, and those
        that an answer showed."""
        asked, tenants, must, found = {}, {}, 0, []
        for event in self.events:
            if event.kind == "I":
                *lines, rest = (asked.get(event.number, [b""]).pop() + event.text).split(b"\n")
                asked[event.number] = asked.get(event.number, []) + [*lines, rest]
            if event.kind == "O" and event.number in asked:
                for reply in event.text.split(b"\n")[:-1]:
                    must = max(must, self.told(asked[event.number].pop(0), reply, tenants, event.number))
            found.append(must)
        return found

    def told(self, line, reply, tenants, number):
        """How many records are there if this line was answered so."""
        fields = line.split(b" ")
        if fields[0] == b"AUTH":
            tenants[number] = fields[1]
        tenant = tenants.get(number, b"")
        if fields[0] == b"J1C" and fields[1].startswith(b"r"):
            counted = [self.places[record] for record in self.records if record.startswith(b"%s J1S %s " % (tenant, fields[1]))]
            return counted[int(reply[2:]) - 1] + 1 if reply != b"N 0" else 0
        record = tenant + b" " + line
        if record not in self.asked:
            return 0
        if record not in self.places:
            fail("%r was answered, and no record of it was written" % record[:100])
        return self.places[record] + 1

    def moments(self, left_out=()):
        """The moments of the run: before it, and after each event of the disk. Events of these places are left
        out, as if they had not been asked."""
        disk, found = self.disk, [Moment(self.disk, 0, 0, -1)]
        for at, (event, must) in enumerate(zip(self.events, self.answered)):
            if event.kind in "IO":
                if must > found[-1].must:
                    found.append(Moment(disk, must, self.counts[at], at))
                continue
            if at not in left_out:
                disk = after(disk, event)
            found.append(Moment(disk, must, self.counts[at], at))
        return found

    def begins_segment(self, at):
        """Whether the next change of the directory after this event gives a segment its name."""
        change = next((event for event in self.events[at:] if event.kind in "CRU"), None)
        return change is not None and change.kind == "R" and change.text.endswith(b".journal")

    def cuts(self):
        """Of each file that was cut before the next segment began, whether it was synced before that has its name."""
        found = []
        for at, event in enumerate(self.events):
            if event.kind == "F" and self.begins_segment(at):
                named = next(place for place, one in enumerate(self.events[at:], at) if one.kind == "R")
                found.append(any(one.kind == "S" and one.number == event.number for one in self.events[at:named]))
        return found

    def left_out(self):
        """The places of the syncs of each kind, by a name, except those of files that were cut."""
        made = {event.number for event in self.events if event.kind == "C"}
        named = {event.number: at for at, event in enumerate(self.events) if event.kind == "R"}
        kinds, changes, before = {}, [], {}
        for at, event in enumerate(self.events):
            number, last = event.number, before.get(event.number)
            before[number] = event.kind
            if event.kind in "CR":
                changes.append((event.kind, number))
            if event.kind == "S" and last == "F":
                continue
            if event.kind == "S" and at < named.get(number, -1):
                kinds.setdefault("of a file before it is renamed", set()).add(at)
            elif event.kind == "S":
                # A compaction makes the file of a segment at once. Without its first line it is begun again.
                if number not in made or number in named:
                    kinds.setdefault("of what was appended", set()).add(at)
            if event.kind == "D":
                if any(kind == "R" for kind, _ in changes):
                    kinds.setdefault("of the directory after a file was renamed", set()).add(at)
                if any(kind == "C" and number not in named for kind, number in changes):
                    kinds.setdefault("of the directory after a file was made", set()).add(at)
                changes = []
        return kinds

    def all_places(self):
        """The places of all entries that there ever were, by tenant."""
        arrays, places = Arrays(self.arrays), set(self.arrays.entries)
        for record in self.records:
            places.update(arrays.play(record))
        found = {}
        for place in sorted(places, key=repr):
            found.setdefault(place[0], []).append(place)
        return found

    def found(self, text):
        """How many records a printed journal has at least and at most, or None if it has other arrays."""
        if text.startswith(self.text) and self.record_text.startswith(memoryview(text)[len(self.text) :].tobytes()):
            length = len(text) - len(self.text)
            count = bisect_left(self.texts, length)
            return [count, count] if self.texts[count] == length else None
        try:
            return self.sums.get(played(text).sum)
        except ValueError:
            return None


def played(text):
    """The arrays that the records of a text make. Many texts begin alike, so what the last ones made at some places is
    kept."""
    ends = [text.rfind(b"\n", 0, at) + 1 for at in range(STEP, len(text), STEP)]
    marks = [hash(text[:end]) for end in ends]
    known = next((at for at in reversed(range(len(marks))) if marks[at] in PLAYED), None)
    arrays = Arrays(PLAYED[marks[known]] if known is not None else None)
    begin = ends[known] if known is not None else 0
    for end, mark in [*zip(ends, marks), (len(text), None)][0 if known is None else known + 1 :]:
        for record in text[begin:end].split(b"\n")[:-1]:
            arrays.play(record)
        begin = end
        if mark is not None:
            PLAYED[mark] = Arrays(arrays)
    while len(PLAYED) > KEPT:
        del PLAYED[next(iter(PLAYED))]
    return arrays
