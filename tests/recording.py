"""Records what processes ask of a directory and of their sockets, in one order: by a library that is loaded
before the C library. A lock of the log makes a call and its event one step, over all processes."""

import os
import struct
from collections import namedtuple

from shim import compiled

# What was asked. Numbers name a file or a socket.
#   C name: made         W bytes, at: written   F at: cut to this size    S: synced     D: the directory synced
#   Z count, at: this many zeros written, in one or several calls
#   R names: renamed     U name: removed        I bytes: received         O bytes: sent
Event = namedtuple("Event", "kind number at text")

HEADER = struct.Struct("=cxxxIqq")  # the kind, the length of the text, the number, the place

LIBRARY = r"""
#define _GNU_SOURCE
#include <errno.h>
#include <fcntl.h>
#include <stdarg.h>
#include <stdio.h>
#include <stdlib.h>
#include <string.h>
#include <sys/file.h>
#include <sys/socket.h>
#include <sys/stat.h>
#include <sys/syscall.h>
#include <sys/types.h>
#include <sys/uio.h>
#include <unistd.h>

struct header { char kind, none[3]; unsigned length; long long number, at; };

static int record = -1;
static const char *folder;
static size_t length;

__attribute__((constructor)) static void begin(void)
{
    const char *path = getenv("RECORD_LOG");
    folder = getenv("RECORD_FOLDER");
    if (!path || !folder)
        return;
    length = strlen(folder);
    int fd = syscall(SYS_openat, AT_FDCWD, path, O_WRONLY | O_APPEND | O_CLOEXEC);
    record = syscall(SYS_fcntl, fd, F_DUPFD_CLOEXEC, 900);
    syscall(SYS_close, fd);
    if (record < 0)
        abort();
}

static void lock(void) { while (syscall(SYS_flock, record, LOCK_EX) != 0 && errno == EINTR) {} }

static void note(char kind, long long number, long long at, const void *text, size_t count)
{
    struct header header = { kind, { 0 }, count, number, at };
    struct iovec parts[] = { { &header, sizeof header }, { (void *)text, count } };
    if (syscall(SYS_writev, record, parts, 2) != (long)(sizeof header + count))
        abort();
}

/* Ends a step. What was asked keeps its errno. */
static long unlocked(long result, int error)
{
    syscall(SYS_flock, record, LOCK_UN);
    errno = error;
    return result;
}

static int is_folder(const char *path) { return strncmp(path, folder, length) == 0 && (path[length] == 0 || path[length] == '/'); }

/* The name of a file of the directory, or nothing. */
static const char *name_of(const char *path)
{
    return record >= 0 && is_folder(path) && path[length] == '/' && path[length + 1] ? path + length + 1 : 0;
}

/* Whether this is a socket, a file of the directory, the directory: 's', 'f', 'd', or nothing. */
static char kind_of(int fd, struct stat *found)
{
    char link[64], path[4096];
    if (record < 0 || fstat(fd, found) != 0)
        return 0;
    if (S_ISSOCK(found->st_mode))
        return 's';
    snprintf(link, sizeof link, "/proc/self/fd/%d", fd);
    long n = syscall(SYS_readlink, link, path, sizeof path - 1);
    if (n < 1)
        return 0;
    path[n] = 0;
    return !is_folder(path) ? 0 : S_ISDIR(found->st_mode) ? 'd' : 'f';
}

/* Where a write begins. */
static long long place_of(int fd, const struct stat *found)
{
    struct stat now;
    if (!S_ISREG(found->st_mode))
        return 0;
    if (fcntl(fd, F_GETFL) & O_APPEND)
        return fstat(fd, &now) == 0 ? now.st_size : -1;
    return lseek(fd, 0, SEEK_CUR);
}

/* Whether these are pages of zeros. */
static int are_zeros(const char *bytes, long count)
{
    return count >= 4096 && bytes[0] == 0 && memcmp(bytes, bytes + 1, count - 1) == 0;
}

/* Notes what was written to a file: of zeros how many. */
static void note_file(long long number, long long at, const void *bytes, long count)
{
    char text[32];
    if (!are_zeros(bytes, count)) {
        note('W', number, at, bytes, count);
        return;
    }
    note('Z', number, at, text, snprintf(text, sizeof text, "%ld", count));
}

ssize_t write(int fd, const void *bytes, size_t count)
{
    struct stat found;
    char kind = kind_of(fd, &found);
    if (kind != 's' && kind != 'f')
        return syscall(SYS_write, fd, bytes, count);
    lock();
    long long at = place_of(fd, &found);
    long n = syscall(SYS_write, fd, bytes, count);
    int error = errno;
    if (n > 0 && kind == 's')
        note('O', found.st_ino, at, bytes, n);
    else if (n > 0)
        note_file(found.st_ino, at, bytes, n);
    return unlocked(n, error);
}

ssize_t sendto(int fd, const void *bytes, size_t count, int flags, const struct sockaddr *to, socklen_t size)
{
    struct stat found;
    if (kind_of(fd, &found) != 's')
        return syscall(SYS_sendto, fd, bytes, count, flags, to, size);
    lock();
    long n = syscall(SYS_sendto, fd, bytes, count, flags, to, size);
    int error = errno;
    if (n > 0)
        note('O', found.st_ino, 0, bytes, n);
    return unlocked(n, error);
}

ssize_t send(int fd, const void *bytes, size_t count, int flags) { return sendto(fd, bytes, count, flags, 0, 0); }

ssize_t recvfrom(int fd, void *bytes, size_t count, int flags, struct sockaddr *from, socklen_t *size)
{
    struct stat found;
    if (kind_of(fd, &found) != 's')
        return syscall(SYS_recvfrom, fd, bytes, count, flags, from, size);
    lock();
    long n = syscall(SYS_recvfrom, fd, bytes, count, flags, from, size);
    int error = errno;
    if (n > 0)
        note('I', found.st_ino, 0, bytes, n);
    return unlocked(n, error);
}

ssize_t recv(int fd, void *bytes, size_t count, int flags) { return recvfrom(fd, bytes, count, flags, 0, 0); }

ssize_t read(int fd, void *bytes, size_t count)
{
    struct stat found;
    if (record < 0 || fstat(fd, &found) != 0 || !S_ISSOCK(found.st_mode))
        return syscall(SYS_read, fd, bytes, count);
    return recvfrom(fd, bytes, count, 0, 0, 0);
}

static int synced(int fd, long call)
{
    struct stat found;
    char kind = kind_of(fd, &found);
    if (kind != 'f' && kind != 'd')
        return syscall(call, fd);
    lock();
    int result = syscall(call, fd);
    int error = errno;
    if (result == 0)
        note(kind == 'd' ? 'D' : 'S', found.st_ino, 0, "", 0);
    return unlocked(result, error);
}

int fsync(int fd) { return synced(fd, SYS_fsync); }
int fdatasync(int fd) { return synced(fd, SYS_fdatasync); }

int ftruncate(int fd, off_t size)
{
    struct stat found;
    if (kind_of(fd, &found) != 'f')
        return syscall(SYS_ftruncate, fd, size);
    lock();
    int result = syscall(SYS_ftruncate, fd, size);
    int error = errno;
    if (result == 0)
        note('F', found.st_ino, size, "", 0);
    return unlocked(result, error);
}

int ftruncate64(int fd, off_t size) { return ftruncate(fd, size); }

static int opened(int folder_fd, const char *path, int flags, int mode)
{
    struct stat before, after;
    const char *name = name_of(path);
    if (!name || !(flags & (O_CREAT | O_TRUNC)))
        return syscall(SYS_openat, folder_fd, path, flags, mode);
    lock();
    int was = stat(path, &before) == 0;
    int fd = syscall(SYS_openat, folder_fd, path, flags, mode);
    int error = errno;
    if (fd >= 0 && fstat(fd, &after) == 0) {
        if (!was)
            note('C', after.st_ino, 0, name, strlen(name));
        else if (flags & O_TRUNC)
            note('F', after.st_ino, 0, "", 0);
    }
    return unlocked(fd, error);
}

static int mode_of(int flags, va_list more) { return flags & O_CREAT ? va_arg(more, int) : 0; }

#define OPENS(name) \
    int name(const char *path, int flags, ...) \
    { \
        va_list more; \
        va_start(more, flags); \
        int mode = mode_of(flags, more); \
        va_end(more); \
        return opened(AT_FDCWD, path, flags, mode); \
    }
OPENS(open)
OPENS(open64)

#define OPENS_AT(name) \
    int name(int folder_fd, const char *path, int flags, ...) \
    { \
        va_list more; \
        va_start(more, flags); \
        int mode = mode_of(flags, more); \
        va_end(more); \
        return opened(folder_fd, path, flags, mode); \
    }
OPENS_AT(openat)
OPENS_AT(openat64)

int rename(const char *from, const char *to)
{
    struct stat found;
    char names[8192];
    if (!name_of(from) || !name_of(to))
        return syscall(SYS_rename, from, to);
    lock();
    int was = stat(from, &found) == 0;
    int result = syscall(SYS_rename, from, to);
    int error = errno;
    int size = snprintf(names, sizeof names, "%s/%s", name_of(from), name_of(to));
    if (result == 0 && was)
        note('R', found.st_ino, 0, names, size);
    return unlocked(result, error);
}

int unlink(const char *path)
{
    struct stat found;
    const char *name = name_of(path);
    if (!name)
        return syscall(SYS_unlink, path);
    lock();
    int was = stat(path, &found) == 0;
    int result = syscall(SYS_unlink, path);
    int error = errno;
    if (result == 0 && was)
        note('U', found.st_ino, 0, name, strlen(name));
    return unlocked(result, error);
}
"""


def build(folder):
    """Builds the library in a folder. Returns its path."""
    return compiled(folder, "recording.so", LIBRARY, ["-shared"])


def recording(library, log, folder):
    """The environment of a process whose calls for this directory are recorded in this log, which is there."""
    return {**os.environ, "LD_PRELOAD": library, "RECORD_LOG": log, "RECORD_FOLDER": folder}


def events_of(log):
    """The events of a log, in order."""
    with open(log, "rb") as file:
        text = file.read()
    events, at = [], 0
    while at < len(text):
        kind, length, number, place = HEADER.unpack_from(text, at)
        at += HEADER.size
        put(events, Event(kind.decode(), number, place, text[at : at + length]))
        at += length
    return events


def put(events, event):
    """Puts an event behind others. Zeros behind zeros of the same file are one event."""
    last = events[-1] if events else event
    if event.kind == "Z" and last.kind == "Z" and last.number == event.number and last.at + int(last.text) == event.at and events:
        events[-1] = last._replace(text=b"%d" % (int(last.text) + int(event.text)))
    else:
        events.append(event)
