"""Counts a process's requests for memory, refuses one of them, and signals that with a byte: with a
library that is loaded before the C library, or an object that a program is linked with. It needs a C
compiler: cc, or the one of the kit."""

import os
import shutil
import subprocess

# Counts the requests, refuses one, and reports it by a byte.
COUNT = r"""
extern char *getenv(const char *);
extern long strtol(const char *, char **, int);
extern long write(int, const void *, unsigned long);

static long refused, told, count;

__attribute__((constructor)) static void begin(void)
{
    const char *at = getenv("REFUSED_REQUEST"), *to = getenv("REFUSAL_TOLD_TO");
    told = to ? strtol(to, 0, 10) : -1;
    refused = at ? strtol(at, 0, 10) : 0;
    count = 0;
}

static int is_refused(void)
{
    if (refused == 0 || __atomic_add_fetch(&count, 1, __ATOMIC_SEQ_CST) != refused)
        return 0;
    write(told, "x", 1);
    return 1;
}
"""

# Replaces the C library's functions.
SHIM = (
    COUNT
    + r"""
extern void *__libc_malloc(unsigned long);
extern void *__libc_calloc(unsigned long, unsigned long);
extern void *__libc_realloc(void *, unsigned long);
extern void *__libc_memalign(unsigned long, unsigned long);

void *malloc(unsigned long size) { return is_refused() ? 0 : __libc_malloc(size); }
void *calloc(unsigned long n, unsigned long size) { return is_refused() ? 0 : __libc_calloc(n, size); }
void *realloc(void *old, unsigned long size) { return is_refused() ? 0 : __libc_realloc(old, size); }
void *memalign(unsigned long to, unsigned long size) { return is_refused() ? 0 : __libc_memalign(to, size); }
void *aligned_alloc(unsigned long to, unsigned long size) { return memalign(to, size); }
int posix_memalign(void **at, unsigned long to, unsigned long size) { return (*at = memalign(to, size)) ? 0 : 12; }
"""
)

# Replaces the kit's functions, by which a program asks for memory. One that is compiled with checks has
# its own `malloc`, so that no library comes before it. A request of OFF bytes turns refusals off, and one
# of ON bytes turns them on, counted again: so a test says which of its requests are refused.
HEAP = (
    COUNT
    + r"""
extern void *malloc(unsigned long);
extern void *realloc(void *, unsigned long);
extern void free(void *);

enum { OFF = 4093, ON = 4099, MANY = 1 << 30 };
struct tried { _Bool ok; void *at; };
static char nothing;

static struct tried tried(void *at)
{
    struct tried it = { at != 0, at ? at : &nothing };
    return it;
}

struct tried rattle_alloc(unsigned long size, unsigned long to)
{
    if (size == OFF || size == ON) {
        __atomic_store_n(&count, size == ON ? 0 : MANY, __ATOMIC_SEQ_CST);
        return tried(malloc(size));
    }
    return tried(is_refused() ? 0 : malloc(size ? size : to));
}

struct tried rattle_realloc(void *old, unsigned long kept, unsigned long size, unsigned long to)
{
    (void)kept;
    return tried(is_refused() ? 0 : realloc(old, size ? size : to));
}

void rattle_dealloc(void *at) { free(at); }
"""
)


def compiled(folder, name, text, words):
    """Compiles a text with these words. Returns the path of what is made, in the folder."""
    source, made = os.path.join(folder, name + ".c"), os.path.join(folder, name)
    with open(source, "w", encoding="utf-8") as file:
        file.write(text)
    kit = os.path.dirname(os.path.dirname(os.path.realpath(shutil.which("rt") or "/opt/rattle/bin/rt")))
    own = os.path.join(kit, "toolchain", "bin", "clang")
    cc = ["cc"] if shutil.which("cc") else [own, "-Wno-unused-command-line-argument", "-fuse-ld=lld", "-B" + os.path.dirname(own)]
    subprocess.run([*cc, "-fPIC", "-O1", "-fno-builtin", *words, "-o", made, source], check=True)
    return made


def build(folder, text=SHIM):
    """Builds the shim, or another library of this text, in a folder."""
    return compiled(folder, "shim.so", text, ["-shared", "-nostdlib"])


def heap(folder):
    """Builds the object that a program is linked with, in a folder."""
    return compiled(folder, "heap.o", HEAP, ["-c"])


def told(number, tell):
    """The environment of a process whose request of this number is refused, counted from 1. Then a
    byte is written to the file descriptor `tell`. Number 0 refuses nothing."""
    return {"REFUSED_REQUEST": str(number), "REFUSAL_TOLD_TO": str(tell)}


def refusing(shim, number, tell):
    """This environment, with the library."""
    return {"LD_PRELOAD": shim, **told(number, tell)}
