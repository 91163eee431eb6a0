#!/usr/bin/env python3
"""Draws the pictures of the pages into a folder, by default docs: architecture.svg, the crates of crates.txt in their
layers; line.svg, the way of a line; lost.svg, what is left of a lost machine; memory.svg, the bytes for each entry,
from bench/words.txt; memory_entries.svg, the memory of judyd, redis and libjudy, from bench/memory.json; restart.svg,
what a start with a journal does, with the times of docs/SPEED.md.

usage: docs/pictures.py [FOLDER]

The same sources give the same bytes. Each text has a light box, or a grey that is readable on white and on dark
pages.
"""

import json
import math
import os
import re
import sys
from html import escape

TOP = os.path.dirname(os.path.dirname(os.path.abspath(__file__)))
INK, GREY, BLUE, ORANGE, PALE, SAND, GREEN = "#1f2328", "#737b84", "#3b78b8", "#d1722e", "#dbe8f5", "#f7e6d7", "#dff0dc"
LEAF = "#2f8f5b"

# The layers of the program from the top, with the crates of each and the colour of its boxes. A crate uses only crates of
# its own layer and of those below. judy_model, which has the definitions, is used by nearly all.
LAYERS = [
    ("the program", PALE, ("judyd", "judy_command", "judy_server", "judy_upkeep", "judy_programs")),
    ("many clients", PALE, ("judy_many",)),
    ("the journal", SAND, ("judy_recovery", "judy_journal", "judy_disk")),
    ("lines and replies", PALE, ("judy_protocol", "judy_stream")),
    ("tenants", GREEN, ("judy_tenants", "judy_kinds", "judy_directory", "judy_table")),
    ("the kinds of array", GREEN, ("judy_string", "judy_bytes", "judy_words", "judy_packing")),
    ("digital trees", GREEN, ("judy_query", "judy_tree", "judy_branch", "judy_leaf", "judy_bitmap", "judy_refs")),
    ("memory", SAND, ("judy_arena", "judy_region")),
    ("definitions", PALE, ("judy_model",)),
]

# The way of a line: who works, what becomes what, and the colour of the box.
WAY = [
    ("client", "writes a line: JSLI words x7472 3", SAND),
    ("judy_many", "a round: one read of each ready client, at most 4,096 bytes", PALE),
    ("judy_protocol", "bytes become a request: Insert of \"tr\", 3, into words", PALE),
    ("judy_tenants", "the right and the quota are checked, or the reply is a refusal", GREEN),
    ("judy_directory", "tenant, kind and name lead to the root of an array", GREEN),
    ("judy_string", "the string becomes words of 8 bytes", GREEN),
    ("judy_tree", "a word leads to its leaf", GREEN),
    ("judy_leaf, judy_arena", "key and value are written into a block", SAND),
    ("judy_protocol", "the answer becomes a reply: V 0", PALE),
    ("judy_journal, judy_disk", "with --journal: the round's records, then one sync", SAND),
    ("judy_many", "the replies of a connection are written at once", PALE),
    ("client", "reads its reply", SAND),
]

# What a start with a journal does, in its order: with what, and what becomes of it. It does not wait for clients before the sockets.
START = [
    ("the table", "is read, and the memory of --reserve is taken", PALE),
    ("the directory", "is taken: no second server; the files of its manifest are there", SAND),
    ("the snapshot, the segments", "are read, and each record is played, without quotas", SAND),
    ("the quotas of the table", "are put in force; a tenant that holds more: status 3", GREEN),
    ("the last segment", "is written anew without a torn end; or the next one begins", SAND),
    ("the sockets", "are made, and the clients that waited connect", PALE),
    ("the first round", "answers", PALE),
]

# What is left of a lost machine A, what the operator does with it at a machine B, and which lines are there then.
# docs/OPERATE.md, "Take over by hand", has the same in words.
LEFT = [
    ("A's disk is left", ("B gets A's table and journal", "the journal's files: user judyd", "start judyd: it plays the journal", "clients or haproxy: B's address"), ("There: all that was synced,", "with --sync round all answered"), GREEN),
    ("a copy of the journal is left", ("B gets A's table and the copy", "the journal's files: user judyd", "start judyd: it plays the copy", "clients or haproxy: B's address"), ("There: all up to the copy.", "Lost: what was answered since"), SAND),
    ("the dumps are left", ("B gets A's table, a new journal", "start judyd: no arrays yet", "judy restore, tenant by tenant", "clients or haproxy: B's address"), ("There: the arrays of each dump.", "Lost: what was answered since"), SAND),
]  # fmt: skip

# Whose memory is compared, with the colour and the dashes of each line.
COMPARED = (("judyd", ORANGE, "none"), ("redis", LEAF, "2 3"), ("libjudy", BLUE, "7 4"))


def read(path):
    """The text of a file of the repository."""
    with open(os.path.join(TOP, path), encoding="utf-8") as file:
        return file.read()


def text(x, y, words, size=13, colour=INK, anchor="start", weight="normal"):
    """A line of text."""
    return '<text x="%g" y="%g" font-size="%g" fill="%s" text-anchor="%s" font-weight="%s">%s</text>' % (x, y, size, colour, anchor, weight, escape(words))


def box(x, y, width, height, colour):
    """A box with round corners."""
    return '<rect x="%g" y="%g" width="%g" height="%g" rx="5" fill="%s" stroke="%s"/>' % (x, y, width, height, colour, GREY)


def arrow(x, y, to):
    """An arrow downwards."""
    return '<path d="M%g %gV%g" stroke="%s" stroke-width="1.5"/><path d="M%g %gl-4 -7h8z" fill="%s"/>' % (x, y, to - 6, GREY, x, to, GREY)


def picture(width, height, title, parts):
    """The text of a picture."""
    head = '<svg xmlns="http://www.w3.org/2000/svg" width="%d" height="%d" viewBox="0 0 %d %d" role="img" font-family="DejaVu Sans, Verdana, sans-serif" fill="none">\n<title>%s</title>\n'
    return head % (width, height, width, height, escape(title)) + "\n".join(parts) + "\n</svg>\n"


def uses():
    """For each crate of the program the crates of the repository that it uses."""
    rows = dict(re.findall(r"(?m)^(\w+):(.*)$", read("crates.txt")))
    program = {name: used.split() for name, used in rows.items() if not name.startswith("test_") and name not in ("bench", "judy_reference")}
    return {name: [it for it in used if it in program] for name, used in program.items()}


def check_layers():
    """Ends if a crate of the program is in no layer or uses one of a higher layer."""
    place = {name: at for at, (_, _, names) in enumerate(LAYERS) for name in names}
    used = uses()
    if place.keys() != used.keys():
        sys.exit("pictures: crates.txt and the layers differ: %s" % ", ".join(sorted(place.keys() ^ used.keys())))
    for name, others in used.items():
        for other in others:
            if place[other] < place[name]:
                sys.exit("pictures: %s uses %s, which is in a higher layer" % (name, other))


def architecture():
    """The crates in their layers."""
    check_layers()
    parts, width, row = [], 800, 54
    for at, (title, colour, names) in enumerate(LAYERS):
        y = 12 + at * row
        parts.append(text(12, y + 22, title, colour=GREY))
        room = (width - 160 - 12) / len(names)
        for number, name in enumerate(names):
            parts += [box(160 + number * room, y, room - 8, 34, colour), text(160 + number * room + room / 2 - 4, y + 21, name, 12, anchor="middle")]
        if at:
            parts.append(arrow(140, y - row + 34, y - 2))
    parts.append(text(12, 12 + len(LAYERS) * row + 8, "A crate uses crates of its own layer and of those below, by their contracts alone.", colour=GREY))
    return picture(width, 12 + len(LAYERS) * row + 24, "The crates of judyd in their layers", parts)


def way():
    """The way of a line and of its reply."""
    unknown = {name for who, _, _ in WAY for name in re.findall(r"judy_\w+", who)} - uses().keys()
    if unknown:
        sys.exit("pictures: no such crates: %s" % ", ".join(sorted(unknown)))
    parts, row = [], 48
    for at, (who, what, colour) in enumerate(WAY):
        y = 12 + at * row
        parts += [box(12, y, 190, 32, colour), text(107, y + 20, who, 12, anchor="middle"), text(222, y + 20, what, colour=GREY)]
        if at:
            parts.append(arrow(107, y - row + 32, y - 1))
    return picture(800, 12 + len(WAY) * row, "The way of a line from the client and back", parts)


def measured():
    """The rows of the first table of bench/words.txt: keys, and bytes for each in Judy1, libjudy's Judy1, JudyL and
    libjudy's JudyL."""
    rows = [[float(cell) for cell in row.split()[:5]] for row in read("bench/words.txt").splitlines() if re.match(r" *\d", row)]
    if len(rows) < 5:
        sys.exit("pictures: the first table of bench/words.txt was not read")
    return rows


def memory():
    """Bytes for each entry against the number of entries."""
    rows, left, right, top, bottom = measured(), 70, 560, 40, 330
    low, high, most = math.log10(rows[0][0]), math.log10(rows[-1][0]), 60

    def x(keys):
        return left + (right - left) * (math.log10(keys) - low) / (high - low)

    def y(number):
        return bottom - (bottom - top) * number / most

    parts = [text(left, 22, "Bytes of live blocks for each random key", 14, GREY)]
    for number in range(0, most + 1, 10):
        parts += ['<path d="M%g %gH%g" stroke="%s" stroke-opacity="0.4"/>' % (left, y(number), right, GREY), text(left - 8, y(number) + 4, str(number), 12, GREY, "end")]
    for keys, *_ in rows:
        if keys in (1e4, 1e5, 1e6):
            parts.append(text(x(keys), bottom + 20, "{:,.0f}".format(keys), 12, GREY, "middle"))
    parts.append(text((left + right) / 2, bottom + 42, "keys in the array", 13, GREY, "middle"))
    for column, name, colour, dash in ((3, "JudyL, judyd", ORANGE, ""), (1, "Judy1, judyd", BLUE, ""), (4, "JudyL, libjudy", ORANGE, "6 4"), (2, "Judy1, libjudy", BLUE, "6 4")):
        points = [(x(row[0]), y(row[column])) for row in rows]
        line = "M" + "L".join("%.1f %.1f" % point for point in points)
        parts.append('<path d="%s" stroke="%s" stroke-width="2.5" stroke-dasharray="%s"/>' % (line, colour, dash or "none"))
        parts += ['<circle cx="%.1f" cy="%.1f" r="3" fill="%s"/>' % (*point, colour) for point in points]
        parts.append(text(right + 12, points[-1][1] + 4, "%s: %g" % (name, rows[-1][column]), 13, colour, weight="bold"))
    return picture(760, 390, "Bytes for each random key in judyd and libjudy, against the number of keys", parts)


def powers(low, high):
    """The powers of ten from one to another."""
    return [10**power for power in range(low, high + 1)]


def apart(places, gap):
    """The places of labels, moved down so that each is at least so far from the one above."""
    moved, above = list(places), -gap
    for at in sorted(range(len(places)), key=places.__getitem__):
        moved[at] = above = max(places[at], above + gap)
    return moved


def panel(left, top, load, found):
    """A panel: the bytes of each subject against its entries. Both axes have powers of ten."""
    width, height, entries, sizes = 225, 168, powers(4, 7), powers(3, 9)

    def x(number):
        return left + width * math.log10(number / entries[0]) / math.log10(entries[-1] / entries[0])

    def y(number):
        return top + height - height * math.log10(number / sizes[0]) / math.log10(sizes[-1] / sizes[0])

    parts = [text(left, top - 10, load, 13, GREY, weight="bold")]
    for number, name in zip(sizes, ("1 KB", "10 KB", "100 KB", "1 MB", "10 MB", "100 MB", "1 GB")):
        parts += ['<path d="M%g %gH%g" stroke="%s" stroke-opacity="0.4"/>' % (left, y(number), left + width, GREY), text(left - 8, y(number) + 4, name, 11, GREY, "end")]
    parts += [text(x(number), top + height + 18, format(number, ","), 11, GREY, "middle") for number in entries]
    rows = [(name, colour, dash, sorted((int(count), size) for count, size in found[name].items())) for name, colour, dash in COMPARED if name in found]
    ends = apart([y(points[-1][1]) for *_, points in rows], 15)
    for (name, colour, dash, points), end in zip(rows, ends):
        line = "M" + "L".join("%.1f %.1f" % (x(count), y(size)) for count, size in points)
        parts.append('<path d="%s" stroke="%s" stroke-width="2.5" stroke-dasharray="%s"/>' % (line, colour, dash))
        parts += ['<circle cx="%.1f" cy="%.1f" r="3" fill="%s"/>' % (x(count), y(size), colour) for count, size in points]
        count, size = points[-1]
        each = size / count
        parts.append(text(left + width + 10, end + 4, "%s: %s" % (name, "%.2f" % each if each < 1 else "%.3g" % each), 12, colour, weight="bold"))
    return parts


def entries_memory():
    """The memory that entries take, of each load in a panel of its own."""
    parts = [text(12, 22, "Memory of one array against its entries; behind each line the bytes an entry at 10,000,000", 14, GREY)]
    loads = json.loads(read("bench/memory.json"))["loads"]
    for at, (load, found) in enumerate(loads.items()):
        parts += panel(66 + at % 2 * 400, 66 + at // 2 * 236, load, found)
    return picture(800, 26 + 236 * ((len(loads) + 1) // 2), "Resident memory of judyd, redis and libjudy against the number of entries, load by load", parts)


def start_times():
    """The published seconds from a start to the first answer: the heads of the columns, and the rows."""
    head, rows = re.search(r"(?m)^\| from a start to the first answer, s \| (.*) \|\n\|[-|]+\n((?:\|.*\n)+)", read("docs/SPEED.md")).groups()
    table = [[cell.strip() for cell in row.strip("|").split("|")] for row in rows.splitlines()]
    return head.split(" | "), [(name, [float(cell) for cell in cells]) for name, *cells in table]


def restart():
    """The steps of a start, and the seconds that it takes."""
    parts, row, left = [], 44, 232
    for at, (what, how, colour) in enumerate(START):
        y = 12 + at * row
        parts += [box(12, y, 200, 30, colour), text(112, y + 19, what, 12, anchor="middle"), text(left, y + 19, how, colour=GREY)]
        if at:
            parts.append(arrow(112, y - row + 30, y - 1))
    heads, rows = start_times()
    top, most = 12 + len(START) * row + 24, max(max(times) for _, times in rows)
    parts.append(text(12, top, "Seconds from a start to the first answer, measured", 14, GREY))
    y = top + 12
    for column, head in enumerate(heads):
        for name, times in rows:
            width = 400 * times[column] / most
            parts += [box(left, y, width, 16, ORANGE if name == "judyd" else SAND), text(left + width + 8, y + 13, "%s: %.2f" % (name, times[column]), 12, GREY)]
            y += 20
        parts.append(text(left - 10, y - 20 * len(rows) / 2 + 4, head, 12, GREY, "end"))
        y += 10
    return picture(800, y + 4, "What a start with a journal does, and how long it takes", parts)


def bar(left, right, y, colour, words):
    """A stretch of time, with what happens in it."""
    return [box(left, y, right - left, 30, colour), text((left + right) / 2, y + 19, words, 12, anchor="middle")]


def time_line():
    """The time of A and of B: a backup, and the loss."""
    parts = [text(12, 31, "A", 14, GREY), text(12, 99, "B", 14, GREY)]
    parts += bar(36, 286, 12, PALE, "answers, and syncs its journal") + bar(290, 560, 12, PALE, "goes on answering") + bar(564, 788, 12, SAND, "is lost: nothing answers")
    parts += [text(288, 60, "the timer's dumps, or a copy", 12, GREY, "end"), text(288, 74, "of the journal, go to B", 12, GREY, "end"), arrow(298, 44, 78)]
    parts += bar(290, 788, 80, GREEN, "keeps the copy of the journal, or the dumps") + [text(574, 60, "the operator acts:", 12, GREY), text(574, 74, "nothing does so by itself", 12, GREY)]
    return parts + ['<path d="M562 6V48" stroke="%s" stroke-width="3"/>' % ORANGE, arrow(564, 44, 78)]


def column(left, top, row, left_over):
    """What is left of a machine, the steps below each other, and what is there then."""
    what, steps, results, colour = left_over
    parts, y = [text(left + 126, top, what, 13, GREY, "middle", "bold")], top + 12
    for at, step in enumerate(steps):
        parts += [box(left, y, 252, 28, PALE), text(left + 126, y + 18, "%d. %s" % (at + 1, step), 12, anchor="middle"), arrow(left + 126, y + 28, y + row - 1)]
        y += row
    return [*parts, box(left, y, 252, 46, colour), *(text(left + 126, y + 19 + 16 * at, words, 12, anchor="middle") for at, words in enumerate(results))]


def lost():
    """A machine is lost: its time, what the operator does, and what is there then."""
    parts, row, top = time_line(), 44, 140
    for number, it in enumerate(LEFT):
        parts += column(12 + number * 262, top, row, it)
    return picture(800, top + 12 + len(LEFT[0][1]) * row + 58, "A machine is lost: what is left, what the operator does, and which lines are there then", parts)


def main():
    """Draws all."""
    if len(sys.argv) > 2 or any(word.startswith("-") for word in sys.argv[1:]):
        sys.exit(__doc__)
    folder = sys.argv[1] if len(sys.argv) == 2 else os.path.join(TOP, "docs")
    for name, draw in (("architecture.svg", architecture), ("line.svg", way), ("lost.svg", lost), ("memory.svg", memory), ("memory_entries.svg", entries_memory), ("restart.svg", restart)):
        with open(os.path.join(folder, name), "w", encoding="utf-8") as file:
            file.write(draw())


if __name__ == "__main__":
    main()
