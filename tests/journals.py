"""Journals as docs/FORMAT.md has them, written and read by a program that shares no code with the
server; and a library that kills a process at a step."""

import os
import re

SUM = 16  # digits of a checksum
ZEROS = "0" * SUM
SEGMENT = 64 * 2**20  # bytes from which on a segment is full
LONG = b"JHSI a x" + b"61" * 1000  # a line without its value
FACTOR = 1099511628211

# Kills the process before the step DIES_AT of those that change a disk, counted from 1.
DYING = r"""
#define _GNU_SOURCE
#include <dlfcn.h>
#include <fcntl.h>
#include <signal.h>
#include <stdarg.h>
#include <stdlib.h>
#include <string.h>
#include <sys/types.h>
#include <unistd.h>

static void step(void)
{
    static long count;
    const char *at = getenv("DIES_AT");
    if (at && ++count == atol(at))
        kill(getpid(), SIGKILL);
}

/* Zeros are written in many calls, of which only the first is a step. */
ssize_t write(int fd, const void *bytes, size_t count)
{
    static ssize_t (*real)(int, const void *, size_t);
    static int before;
    int zeros = count >= 4096 && *(const char *)bytes == 0 && memcmp(bytes, (const char *)bytes + 1, count - 1) == 0;
    if (!real) real = dlsym(RTLD_NEXT, "write");
    if (fd > 2 && !(zeros && before)) step();
    before = zeros;
    return real(fd, bytes, count);
}

int fsync(int fd) { static int (*real)(int); if (!real) real = dlsym(RTLD_NEXT, "fsync"); step(); return real(fd); }
int fdatasync(int fd) { static int (*real)(int); if (!real) real = dlsym(RTLD_NEXT, "fdatasync"); step(); return real(fd); }
int unlink(const char *path) { static int (*real)(const char *); if (!real) real = dlsym(RTLD_NEXT, "unlink"); step(); return real(path); }

int rename(const char *from, const char *to)
{
    static int (*real)(const char *, const char *);
    if (!real) real = dlsym(RTLD_NEXT, "rename");
    step();
    return real(from, to);
}

int ftruncate(int fd, off_t size)
{
    static int (*real)(int, off_t);
    if (!real) real = dlsym(RTLD_NEXT, "ftruncate");
    step();
    return real(fd, size);
}

int open(const char *path, int flags, ...)
{
    static int (*real)(const char *, int, ...);
    va_list more;
    va_start(more, flags);
    int mode = va_arg(more, int);
    va_end(more);
    if (!real) real = dlsym(RTLD_NEXT, "open");
    if (flags & (O_CREAT | O_TRUNC)) step();
    return real(path, flags, mode);
}
"""


def sum_of(before, text):
    """The checksum after a text."""
    number = 0
    for byte in before.encode() + text:
        number = (number * FACTOR + byte) % 2**64
    return "%0*x" % (SUM, number)


def mark(count, checksum):
    """The line that ends a commit."""
    return b"# %d %s\n" % (count, checksum.encode())


def note(number, place, sure):
    """The note at a byte of a segment: this many bytes of the segment are certainly synced."""
    return b"@ %d %s" % (sure, sum_of("%0*x" % (SUM, number), b"%d %d" % (place, sure)).encode())


def commits_text(checksum, commits):
    """The text of commits, each a list of records, and the checksum after them."""
    parts = []
    for records in commits:
        text = b"".join(record + b"\n" for record in records)
        checksum = sum_of(checksum, text)
        parts += [text, mark(len(records), checksum)]
    return b"".join(parts), checksum


def segment_text(number, checksum, commits):
    """The text of a segment, and the checksum after it."""
    text, after = commits_text(checksum, commits)
    return b"judyd journal 1 %d %s\n" % (number, checksum.encode()) + text, after


def noted_text(number, checksum, rounds):
    """The text of a segment as a server writes it: a commit of each of these lists of records with its note,
    each synced before the next one is written. Returns the places where they end, the first line's first."""
    text = b"judyd journal 1 %d %s\n" % (number, checksum.encode())
    ends = [len(text)]
    for records in rounds:
        place = len(text) + sum(len(record) + 1 for record in records)
        more, checksum = commits_text(checksum, [[*records, note(number, place, ends[-1])]])
        text += more
        ends.append(len(text))
    return text, ends


def snapshot_text(number, checksum, commits):
    """The text of a snapshot of the segments up to a number, whose last commit has this checksum."""
    text, after = commits_text(checksum, commits)
    return b"judyd snapshot 1 %d %s\n" % (number, checksum.encode()) + text + mark(0, sum_of(after, b""))


def segment_path(folder, number):
    """The path of a segment."""
    return os.path.join(folder, "%012d.journal" % number)


def snapshot_path(folder, number):
    """The path of a snapshot."""
    return os.path.join(folder, "%012d.snapshot" % number)


def manifest_path(folder):
    """The path of the manifest."""
    return os.path.join(folder, "manifest")


def manifest_text(snapshot, last):
    """The text of the manifest of a directory with this snapshot and this last segment, 0 for none."""
    text = b"judyd manifest 1 %d %d " % (snapshot, last)
    return text + sum_of("", text).encode() + b"\n"


def numbers_of(folder, ending):
    """The numbers of the files of a directory whose names end so."""
    return sorted(int(name[:12]) for name in os.listdir(folder) if re.fullmatch(r"\d{12}\." + ending, name))


def write_manifest(folder):
    """Writes the manifest of the files that a directory has."""
    snapshots, segments = numbers_of(folder, "snapshot"), numbers_of(folder, "journal")
    with open(manifest_path(folder), "wb") as file:
        file.write(manifest_text((snapshots or [0])[-1], (segments or [0])[-1]))


def begin(folder):
    """Writes the manifest of a directory that has none."""
    if not os.path.exists(manifest_path(folder)):
        write_manifest(folder)


def write(folder, segments, first=1, checksum=ZEROS):
    """Writes segments, each a list of commits, and the manifest. Returns the checksum after them."""
    for number, commits in enumerate(segments, first):
        text, checksum = segment_text(number, checksum, commits)
        with open(segment_path(folder, number), "wb") as file:
            file.write(text)
    write_manifest(folder)
    return checksum


def nearly_full(folder, tenant=b"alice", limit=SEGMENT):
    """Writes a segment of nearly this many bytes, so that a few lines fill it: the same commit of a tenant again
    and again. Returns how many bytes it has, and the checksum after it."""
    text, checksum = b"".join(b"%s %s %d\n" % (tenant, LONG, n) for n in range(8)), ZEROS
    parts, own = [b"judyd journal 1 1 %s\n" % checksum.encode()], int(sum_of("", text), 16)
    factor = pow(FACTOR, len(text), 2**64)
    for _ in range((limit - 100) // len(text + mark(8, checksum))):
        before = int(sum_of(checksum, b""), 16)
        checksum = "%016x" % ((before * factor + own) % 2**64)
        parts += [text, mark(8, checksum)]
    with open(segment_path(folder, 1), "wb") as file:
        file.write(b"".join(parts))
    return sum(len(part) for part in parts), checksum


def contents(folder):
    """The bytes of each file of a directory but its locks and its manifest, and but the zeros behind the end of a
    segment."""
    found = {}
    for name in sorted(os.listdir(folder)):
        if not name.endswith("lock") and name != "manifest":
            with open(os.path.join(folder, name), "rb") as file:
                text = file.read()
                found[name] = text.rstrip(b"\0") if name.endswith(".journal") else text
    return found


def records_of(folder):
    """The records of all whole commits of a journal, and how many bytes follow the last. Ends with an
    AssertionError if the journal is not as docs/FORMAT.md says."""
    files = contents(folder)
    snapshots = sorted(name for name in files if re.fullmatch(r"\d{12}\.snapshot", name))
    checksum, first, records, torn = ZEROS, 1, [], 0
    if snapshots:
        number = int(snapshots[-1][:12])
        head, _, text = files[snapshots[-1]].partition(b"\n")
        assert head.startswith(b"judyd snapshot 1 %d " % number), head
        checksum, first = head[-SUM:].decode(), number + 1
        commits, _, torn = commits_in(text, checksum)
        assert torn == 0 and commits and commits[-1] == [], "the snapshot does not end"
        records += [record for commit in commits for record in commit]
    last = max(int(name[:12]) for name in files if re.fullmatch(r"\d{12}\.journal", name))
    for number in range(first, last + 1):
        text = files["%012d.journal" % number]
        head = b"judyd journal 1 %d %s\n" % (number, checksum.encode())
        if not text.startswith(head):
            assert number == last and head.startswith(text), (number, text[:100])
            return records, len(text)
        commits, checksum, torn = commits_in(text[len(head) :], checksum, number, len(head))
        assert torn == 0 or number == last, "segment %d is not whole" % number
        records += [record for commit in commits for record in commit]
    return records, torn


def commits_in(text, checksum, number=None, start=0):
    """The whole commits of a text, each without its note, the checksum after them, and how many bytes
    follow. The text begins at byte `start` of segment `number`; a snapshot's has no notes."""
    commits, records, at, whole, sure = [], [], 0, 0, 0
    while True:
        end = text.find(b"\n", at)
        if end < 0:
            return commits, checksum, len(text) - whole
        line, place, at = text[at:end], start + at, end + 1
        if not line.startswith(b"#"):
            records.append((place, line))
            continue
        checksum = sum_of(checksum, b"".join(record + b"\n" for _, record in records))
        assert line + b"\n" == mark(len(records), checksum), line
        if records and records[-1][1].startswith(b"@"):
            place, last = records.pop()
            told = int(last.split()[1])
            assert last == note(number, place, told) and sure <= told <= start + whole, last
            sure = told
        commits.append([record for _, record in records])
        records, whole = [], at
