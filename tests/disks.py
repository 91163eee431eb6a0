"""A disk, as its calls leave it: which files a directory has and what they have, after each event of a
recording; and what a loss of power may leave of that."""

import operator
import os
from bisect import bisect_left
from collections import namedtuple
from itertools import compress

PAGE = 4096
ZEROS = bytes(PAGE)
MANY_ZEROS = (ZEROS,) * 256
KINDS = ("new", "old", "between", "zeros", "noise", "lines", "stale")

# What a file has: its pages, the last of which may be shorter, and its bytes.
Content = namedtuple("Content", "pages size")
EMPTY = Content((), 0)

# A file: what is secured, and what it had after each change since.
File = namedtuple("File", "secured later")

# A change of the directory: the name it takes away, the one it gives, and the file.
Change = namedtuple("Change", "old new number")

# A disk after an event: the secured names, the changes since, and the files, by number.
Disk = namedtuple("Disk", "names changes files")

# What `touched` found of files, each with the file, so that no other one gets its identity.
TOUCHED = {}

# What a loss leaves: the contents by name, and what was chosen for it.
Left = namedtuple("Left", "contents chosen")


def pages_of(text):
    """The pages of a text. All that are zeros are one object."""
    pages = (text[at : at + PAGE] for at in range(0, len(text), PAGE))
    return tuple(ZEROS if page == ZEROS else page for page in pages)


def content_of(text):
    """The content of a file with this text."""
    return Content(pages_of(text), len(text))


def solid(content):
    """How many bytes the pages have that are not zeros."""
    return PAGE * (len(content.pages) - content.pages.count(ZEROS))


def shortened(content, most):
    """The content with at most this many pages of zeros at its end."""
    count = len(content.pages)
    while content.pages[max(0, count - len(MANY_ZEROS)) : count] == MANY_ZEROS:
        count -= len(MANY_ZEROS)
    while count > 0 and content.pages[count - 1] is ZEROS:
        count -= 1
    return cut(content, (count + most) * PAGE) if content.size > (count + most) * PAGE else content


def cut(content, size):
    """The content, cut or filled up with zeros to a size."""
    if size < content.size:
        whole = size // PAGE
        rest = (content.pages[whole][: size % PAGE],) if size % PAGE else ()
        return Content(content.pages[:whole] + rest, size)
    return written(content, size, b"")


def written(content, at, text):
    """The content after a write."""
    first, behind = min(at, content.size) // PAGE, (at + len(text) + PAGE - 1) // PAGE
    old = b"".join(content.pages[first:behind]).ljust(at - first * PAGE, b"\0")
    new = old[: at - first * PAGE] + text + old[at - first * PAGE + len(text) :]
    return Content(content.pages[:first] + pages_of(new) + content.pages[behind:], max(content.size, at + len(text), at))


def filled(content, at, count):
    """The content after a write of this many zeros."""
    edge = min(-at % PAGE, count)
    content = written(content, at, bytes(edge))
    whole = (count - edge) // PAGE
    first = (at + edge) // PAGE
    if whole:
        pages = content.pages[:first] + (ZEROS,) * whole + content.pages[first + whole :]
        content = Content(pages, max(content.size, at + edge + whole * PAGE))
    return written(content, at + edge + whole * PAGE, bytes(count - edge - whole * PAGE))


def newest(file):
    """What a file has if nothing is lost."""
    return file.later[-1] if file.later else file.secured


def changed(names, changes):
    """The names after some changes."""
    names = dict(names)
    for change in changes:
        if change.old is not None and names.get(change.old) == change.number:
            del names[change.old]
        if change.new is not None:
            names[change.new] = change.number
    return names


def disk_of(folder):
    """The disk that has a directory, with all secured. Files have their own numbers."""
    names, files = {}, {}
    for name in sorted(os.listdir(folder)):
        path = os.path.join(folder, name)
        number = os.stat(path).st_ino
        with open(path, "rb") as file:
            names[name], files[number] = number, File(content_of(file.read()), ())
    return Disk(names, (), files)


def renumbered(events):
    """The events, with a number of its own, below 0, for each file that is made: a system may give a number
    again."""
    numbers, found = {}, []
    for at, event in enumerate(events):
        if event.kind == "C":
            numbers[event.number] = -1 - at
        if event.kind in "CWZFSRU":
            event = event._replace(number=numbers.get(event.number, event.number))
        found.append(event)
    return found


def after(disk, event):
    """The disk after an event."""
    names, changes, files = disk
    number = event.number
    if event.kind == "C":
        return Disk(names, (*changes, Change(None, event.text.decode(), number)), {**files, number: File(EMPTY, ())})
    if event.kind == "R":
        old, new = event.text.decode().split("/")
        return Disk(names, (*changes, Change(old, new, number)), files)
    if event.kind == "U":
        return Disk(names, (*changes, Change(event.text.decode(), None, number)), files)
    if event.kind == "D":
        names = changed(names, changes)
        return Disk(names, (), files)
    if event.kind not in ("W", "Z", "F", "S"):
        return disk
    file = files[number]
    if event.kind == "S":
        return Disk(names, changes, {**files, number: File(newest(file), ())})
    now = newest(file)
    if event.kind == "Z":
        now = filled(now, event.at, int(event.text))
    else:
        now = written(now, event.at, event.text) if event.kind == "W" else cut(now, event.at)
    return Disk(names, changes, {**files, number: File(file.secured, (*file.later, now))})


def unsynced(disk):
    """How many changes of the directory and of files are not secured."""
    return len(disk.changes) + sum(len(file.later) for file in disk.files.values())


def whole(disk):
    """The contents of a disk if nothing is lost."""
    return {name: newest(disk.files[number]) for name, number in changed(disk.names, disk.changes).items()}


# ---- what a loss leaves ----


def left_of(disk, draw, fronts, stale):
    """What a loss of power leaves of a disk: drawn. With `fronts` a file has a front of what was written. `stale`
    is a text of which old pages come."""
    chosen = set()
    names = changed(disk.names, left_changes(disk.changes, draw, chosen))
    contents = {}
    for name, number in names.items():
        file = disk.files[number]
        if file.later:
            contents[name] = front_of(file, draw) if fronts else mixture_of(file, draw, stale, chosen)
        else:
            contents[name] = file.secured
    return Left(contents, chosen)


def left_changes(changes, draw, chosen):
    """Those changes of the directory that a loss leaves: all, none, the first, or any."""
    how = draw.choice(("all", "none", "first", "any", "any"))
    if how == "all" or not changes:
        return changes
    chosen.add("names")
    if how == "none":
        return ()
    if how == "first":
        return changes[: draw.randrange(len(changes) + 1)]
    return tuple(change for change in changes if draw.random() < 0.5)


def front_of(file, draw):
    """What a file has after one of its changes, or a front of the bytes that the next one appended."""
    had = (file.secured, *file.later)
    at = draw.randrange(len(had))
    if at + 1 < len(had) and had[at + 1].size > had[at].size:
        return cut(had[at + 1], draw.randrange(had[at].size, had[at + 1].size + 1))
    return had[at]


def sizes_of(file, draw):
    """The size of a file of which something was lost: the old one, the new one, or one between."""
    sizes = [file.secured.size, *(content.size for content in file.later)]
    dice = draw.random()
    if dice < 0.5:
        return sizes[-1]
    if dice < 0.65:
        return sizes[0]
    return draw.choice(sizes) if dice < 0.8 else draw.randint(min(sizes), max(sizes))


def mixture_of(file, draw, stale, chosen):
    """A file each of whose pages that were changed has new bytes, old ones, zeros or others. Secured bytes
    that no change has touched stay."""
    how = draw.choice(("front", "one", "any", "any"))
    if how == "front":
        chosen.add("front")
        return front_of(file, draw)
    size = sizes_of(file, draw)
    first, numbers = touched(file)
    last = (size + PAGE - 1) // PAGE
    numbers = numbers[: bisect_left(numbers, last)]
    if last > first and last - 1 not in numbers[-1:]:
        numbers.append(last - 1)
    only = draw.choice(numbers) if numbers and how == "one" else None
    pages = list(file.later[-1].pages[first:last])
    pages += [ZEROS] * (last - first - len(pages))
    for number in numbers:
        if how == "any":
            kind = draw.choice(("new", "new", *KINDS))
        else:
            kind = draw.choice(KINDS[1:]) if number == only else "new"
        chosen.add(kind)
        pages[number - first] = left_page(file, number, min(PAGE, size - number * PAGE), kind, draw, stale)
    return Content(file.secured.pages[:first] + tuple(pages), size)


def touched(file):
    """The first page of a file that some change touched, and the pages from there on that are other ones than those
    that are secured, by their numbers."""
    if id(file) not in TOUCHED:
        first = min(same_pages(file.secured, content) for content in file.later)
        TOUCHED[id(file)] = (file, first, changed_pages(file.secured.pages, file.later[-1].pages, first))
    return TOUCHED[id(file)][1:]


def changed_pages(old, new, first):
    """Which pages from the first on are other ones, by their numbers. Each change writes behind the ones before, or
    cuts. A page that only one of the two has is another one."""
    both = min(len(old), len(new))
    changed = map(operator.is_not, new[first:both], old[first:both])
    return [*compress(range(first, both), changed), *range(max(first, both), max(len(old), len(new)))]


def same_pages(one, other):
    """How many pages two contents begin with that no change has touched."""
    same = list(map(operator.is_, one.pages, other.pages))
    count = same.index(False) if False in same else len(same)
    return count - 1 if count > 0 and len(one.pages[count - 1]) < PAGE else count


def page_of(content, number):
    """A page of a content, which has no byte behind its end."""
    return content.pages[number] if number < len(content.pages) else b""


def left_page(file, number, width, kind, draw, stale):
    """What a loss leaves of a page, in this many bytes."""
    old = page_of(file.secured, number)
    news = [page_of(content, number) for content in file.later]
    stands = min(common(old, new) for new in news)
    if kind == "new":
        page = news[-1]
    elif kind == "between":
        page = draw.choice(news)
    elif kind in ("old", "zeros"):
        page = old if kind == "old" else ZEROS
    elif kind == "stale":
        at = draw.randrange(max(1, len(stale) - PAGE))
        page = stale[at : at + PAGE]
    else:
        page = draw.randbytes(PAGE)
        page = page.replace(b"\n", b"x") if kind == "noise" else page.replace(b"x", b"\n").replace(b"y", b"\n")
    return (old[:stands] + page[stands:])[:width].ljust(width, b"\0")


def common(one, other):
    """With how many bytes two texts begin alike."""
    least, most = 0, min(len(one), len(other))
    if one[:most] == other[:most]:
        return most
    while least < most:
        middle = (least + most + 1) // 2
        if one[:middle] == other[:middle]:
            least = middle
        else:
            most = middle - 1
    return least


def mark_of(left):
    """A number that two states have alike only if they are equal."""
    return hash(tuple(sorted((name, content.size, content.pages) for name, content in left.contents.items())))
