#!/usr/bin/env python3
"""Counts the instructions of one line in user mode, of judyd and of libjudy behind the same protocol.

usage: bench/instructions.py [--lines N] [--only WORD] [--out FOLDER]
       bench/instructions.py --show FILE

Each load runs from a file through `judyd run --batch` and through judy_lines.c, under valgrind's tool
callgrind, with the replies into /dev/null. judyd writes those of a read at once, judy_lines.c each
alone; what the system takes for a write is not counted. The program's start, the table of tenants and the lines
that fill an array before the load are run alone too, and subtracted. So other work on the machine
does not change the figures. They leave out the system's part of reads and writes.

The first table also has what the arrays alone take (of judyd the layers arena, strings and trees;
of libjudy its calls), and what judy_lines.c takes in vsnprintf, which writes its replies. The
second splits judyd's instructions by the symbol that they stand under. The compiler puts small
functions into their callers, so a layer has what was put into it. The C library's functions (as
memset and memcpy) count where they are called. callgrind counts each byte of the processor's
instructions that fill and copy as an instruction of its own (a block of 512 words as 4,096), so
both programs run with a C library that does without these.

FOLDER (bench/out) gets instructions.md and instructions.json. --show prints the tables of such a
file; bench/instructions.json has the figures that the pages show. valgrind, libjudy-dev and a C
compiler are Debian's packages. The program is the path in the environment's JUDYD, otherwise what
./judyd built.
"""

import argparse
import json
import os
import random
import re
import subprocess
import sys
import tempfile
import time
from collections import Counter, namedtuple

import run

TOP = os.path.dirname(os.path.dirname(os.path.abspath(__file__)))
PROGRAM = os.environ.get("JUDYD") or os.path.join(TOP, "crates", "judyd", "out", "judyd")

# Which layer a symbol belongs to: the first that its name begins with.
LAYERS = (
    ("SHA-256", ("sha2::", "judy_bytes::hash::")),
    ("read, cut, hold, send", ("judy_protocol::connection::", "judy_protocol::gathering::", "judy_protocol::held::", "judy_programs::", "judy_stream::", "std_io::")),
    ("parse: numbers", ("judy_protocol::numbers::",)),
    ("parse: fields, name, command", ("judy_protocol::turns::hear", "judy_protocol::requests::read_line", "judy_protocol::fields::", "judy_protocol::commands::")),
    ("parse: request of a key, with its digits", ("judy_protocol::requests::", "hex::")),
    ("text of the reply", ("judy_protocol::replies::", "itoa::")),
    ("right, place, quota, account", ("judy_protocol::turns::", "judy_tenants::", "judy_server::", "judy_table::")),
    ("directory", ("judy_directory::",)),
    ("kind, call", ("judy_kinds::", "judy_words::")),
    ("arena (blocks, clearing)", ("judy_refs::", "judy_arena::", "judy_region::")),
    ("strings, chains", ("judy_string::", "judy_bytes::", "judy_packing::")),
    ("tree, leaf, branch", ("judy_tree::", "judy_leaf::", "judy_branch::", "judy_bitmap::", "judy_query::")),
)
REST = "the rest"
ARRAYS = ("SHA-256", "arena (blocks, clearing)", "strings, chains", "tree, leaf, branch")

# The C library's memset and memcpy use `rep stosb` and `rep movsb` for no block.
NO_REPEATS = "glibc.cpu.x86_rep_stosb_threshold=0x10000000:glibc.cpu.x86_rep_movsb_threshold=0x10000000"

# The instructions of a line of a load: of judyd, of judy_lines.c, of this in libjudy's calls and in
# vsnprintf, and of judyd by layer.
Row = namedtuple("Row", "load judyd libjudy calls texts layers")


# ---- loads ----


def lookups(name, command, filled):
    """Look-ups of each entry of a load in another order, over the load."""
    order = list(filled.lines)
    random.Random(7).shuffle(order)
    lines = [b" ".join([command, *line.split()[1:3]]) + b"\n" for line in order]
    return run.Load(name, filled.lines, lines, None, None, "", filled.entries)


def loads(count):
    """The eight loads beside libjudy, and look-ups of random keys."""
    some = [load for load in run.loads(count) if "FirstEmpty" not in load.name]
    named = {load.name: load for load in some}
    some.append(lookups("Judy1 Test, random", b"J1T", named["Judy1 Set, random"]))
    some.append(lookups("JudyL Get, random", b"JLG", named["JudyL Insert, random"]))
    return some


# ---- callgrind ----


class Callgrind:
    """Runs programs under callgrind, once for each input."""

    def __init__(self, folder):
        self.folder = folder
        self.kept = {}

    def costs(self, words, data):
        """The instructions of a program with this input, as `read_costs` has them."""
        if (words[0], data) not in self.kept:
            given, out = (os.path.join(self.folder, name) for name in ("input", "callgrind.out"))
            with open(given, "wb") as file:
                file.write(data)
            with open(given, "rb") as file:
                command = ["valgrind", "-q", "--tool=callgrind", "--callgrind-out-file=" + out, *words]
                subprocess.run(command, stdin=file, stdout=subprocess.DEVNULL, env=dict(os.environ, GLIBC_TUNABLES=NO_REPEATS), check=True)
            with open(out, encoding="utf-8", errors="replace") as file:
                self.kept[words[0], data] = read_costs(file)
        return self.kept[words[0], data]

    def of_a_line(self, words, head, load):
        """The instructions of one line of a load, as `costs` has them."""
        before = self.costs(words, head + b"".join(load.before))
        after = self.costs(words, head + b"".join(load.before) + b"".join(load.lines))
        return {name: (after[name] - before[name]) / len(load.lines) for name in after}


def read_costs(file):
    """The costs in a file of callgrind: all; those of each Rattle function with the C functions that
    it calls; and those of calls of libjudy and of vsnprintf."""
    names, costs = {}, Counter()
    here, called, is_call = None, None, False
    for line in file:
        found = re.match(r"(c?fn)=\((\d+)\)(?: (.*))?", line)
        if found:
            names.setdefault(found[2], found[3])
            if found[1] == "fn":
                here = names[found[2]]
            else:
                called = names[found[2]]
        elif line.startswith("calls="):
            is_call = True
        elif line.startswith(("summary:", "totals:")):
            costs["all"] = int(line.split()[1])
        elif re.match(r"[\d+*-]", line):
            cost = int(line.split()[1])
            if "::" in here and not (is_call and "::" in called):
                costs[here] += cost
            elif is_call and called.startswith("Judy") and not here.startswith(("Judy", "j__udy")):
                costs["calls"] += cost
            elif is_call and "vsnprintf" in called and "vsnprintf" not in here:
                costs["texts"] += cost
            is_call = False
    return costs


def layer_of(symbol):
    """The layer of a function."""
    for layer, starts in LAYERS:
        if symbol.startswith(starts):
            return layer
    return REST


def layers_of(costs):
    """The costs of a line by layer."""
    layers = Counter()
    for symbol, cost in costs.items():
        if "::" in symbol:
            layers[layer_of(symbol)] += cost
    layers[REST] += costs["all"] - sum(layers.values())
    return {layer: round(layers[layer]) for layer in [name for name, _ in LAYERS] + [REST]}


# ---- tables ----


def tables(numbers):
    """Both tables, as Markdown."""
    rows = [Row(**row) for row in numbers["rows"]]
    lines = ["| load | judyd | libjudy | ratio | arrays alone: judyd | libjudy | judy_lines.c in vsnprintf |", "|---" * 7 + "|"]
    for row in rows:
        figures = (row.judyd, row.libjudy, "%.2f" % (row.libjudy / row.judyd), sum(row.layers[it] for it in ARRAYS), row.calls, row.texts)
        lines.append("| %s | " % row.load + " | ".join(it if isinstance(it, str) else f"{it:,}" for it in figures) + " |")
    lines += ["", "| layer | " + " | ".join(row.load for row in rows) + " |", "|---" * (len(rows) + 1) + "|"]
    for layer in rows[0].layers if rows else ():
        lines.append("| %s | " % layer + " | ".join(f"{row.layers[layer]:,}" for row in rows) + " |")
    return "\n".join([*lines, "", "%s, %d lines a load, on %s." % (numbers["date"], numbers["lines"], numbers["machine"]), ""])


def measure(folder, count, only):
    """The rows of all loads."""
    valgrind = Callgrind(folder)
    judyd, libjudy = run.Judyd(folder), run.Libjudy(folder)
    if not libjudy.is_there:
        print("libjudy is not here: left out", file=sys.stderr)
    words = [PROGRAM, "run", "--words", "--batch"]
    for load in loads(count):
        if only in load.name:
            costs = valgrind.of_a_line(words, judyd.run_words()[1] + run.LOG_IN, load)
            theirs = valgrind.of_a_line(libjudy.run_words()[0], run.LOG_IN, load) if libjudy.is_there else Counter()
            row = Row(load.name, round(costs["all"]), *(round(theirs.get(it, 0)) for it in ("all", "calls", "texts")), layers_of(costs))
            print("%-28s %6d, libjudy %6d" % row[:3], file=sys.stderr)
            yield row


def main():
    """Counts, and writes the tables and the numbers."""
    parser = argparse.ArgumentParser(description=__doc__, formatter_class=argparse.RawDescriptionHelpFormatter)
    parser.add_argument("--lines", type=int, default=300000, help="lines of a load (%(default)s)")
    parser.add_argument("--only", default="", metavar="WORD", help="the loads alone whose names have this in them")
    parser.add_argument("--out", default=os.path.join(TOP, "bench", "out"), metavar="FOLDER", help="where the results go (bench/out)")
    parser.add_argument("--show", metavar="FILE", help="print the tables of this file of numbers, and count nothing")
    options = parser.parse_args()
    if options.show:
        with open(options.show, encoding="utf-8") as file:
            print(tables(json.load(file)), end="")
        return
    if not os.environ.get("JUDYD"):
        subprocess.run([os.path.join(TOP, "judyd"), "--version"], stdout=subprocess.DEVNULL, check=True)
    with tempfile.TemporaryDirectory(prefix="judyd-bench-") as folder:
        rows = [row._asdict() for row in measure(folder, options.lines, options.only)]
    numbers = {"date": time.strftime("%Y-%m-%d"), "lines": options.lines, "machine": run.machine(), "rows": rows}
    os.makedirs(options.out, exist_ok=True)
    for name, text in (("instructions.json", json.dumps(numbers, indent=1) + "\n"), ("instructions.md", tables(numbers))):
        with open(os.path.join(options.out, name), "w", encoding="utf-8") as file:
            file.write(text)
    print(tables(numbers), end="")


if __name__ == "__main__":
    main()
