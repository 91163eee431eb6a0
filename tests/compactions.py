"""Compactions of a journal: what they leave, also if they are killed, out of memory, or beside a server under load."""

import os
import random
import shutil
import subprocess
import tempfile
import threading
import time

import journals
from harness import connect, exchange, program, skip
from journaled import CLIENTS, FINDS, LAST_REQUESTS, TENANTS, Journaled, Told, compact, entries, is_slow, line_of, load, questions, settle
from oracle import Store
from shim import build, refusing
from talks import must, want


def many(folder, draw, segments=5):
    """Writes a journal of some hundred lines. Returns the arrays of each tenant that it makes."""
    stores = {}
    written = []
    for _ in range(segments):
        commits = []
        for _ in range(20):
            records = []
            for _ in range(draw.randrange(1, 20)):
                tenant, array = draw.choice((b"alice", b"bob")), b"a%d" % draw.randrange(3)
                records.append(tenant + b" " + line_of(draw, array))
            commits.append(records)
        written.append(commits)
    journals.write(folder, written)
    for tenant, token in ((b"alice", b"abc"), (b"bob", b"hello")):
        stores[tenant] = (token, all_of(tenant, token, [r for c in written for k in c for r in k]))
    return stores


def all_of(tenant, token, records):
    """The replies that show what records make of a tenant's arrays."""
    speaker = Store(TENANTS).connect()
    speaker.answer(b"AUTH %s %s" % (tenant, token))
    for record in records:
        name, line = record.split(b" ", 1)
        if name == tenant:
            speaker.answer(line)
    return [speaker.answer(line) for line in questions([b"a0", b"a1", b"a2"])]


def served(folder, stores, what):
    """A server on the folder has these arrays."""
    with Journaled(folder=folder) as server:
        for tenant, (token, wanted) in stores.items():
            script = b"".join(line + b"\n" for line in (b"AUTH %s %s" % (tenant, token), *questions([b"a0", b"a1", b"a2"]), b"QUIT"))
            with connect(server.path) as client:
                replies = exchange(client, script).split(b"\n")
            want("%s: %s" % (what, tenant.decode()), wanted, replies[1:-2])


def compaction(draw):
    """A compaction keeps all arrays and writes each entry once; a second one has nothing to do."""
    with tempfile.TemporaryDirectory() as folder:
        stores = many(folder, draw)
        ran = compact(folder)
        want("a compaction", (0, b"", b""), (ran.returncode, ran.stdout, ran.stderr))
        want("the files", ["000000000005.snapshot", "000000000006.journal"], sorted(journals.contents(folder)))
        with open(journals.snapshot_path(folder, 5), "rb") as file:
            _, _, text = file.read().partition(b"\n")
        records = [line for line in text.split(b"\n") if line and not line.startswith(b"#")]
        keys = [tuple(record.split(b" ")[:4]) for record in records]
        want("each entry once", len(keys), len(set(keys)))
        must("only insertions", all(record.split(b" ")[1] in (b"J1S", b"JLI", b"JSLI", b"JHSI") for record in records))
        served(folder, stores, "after a compaction")
        files = sorted(journals.contents(folder))
        want("a second compaction", 0, compact(folder).returncode)
        want("the files after it", files, sorted(journals.contents(folder)))


def spellings():
    """Each spelling of an insertion, also of the least absent word, an addition, a keep or an exchange gives its entry
    in the snapshot, and no other request gives one."""
    lines = [
        b"J1S a 5", b"JLI b 7 9", b"  JLA  b  007 9 ", b"JSLI s x61 4", b"JSLA s x61 1", b"JHSA h x 1", b"JHSI h x00 2",
        b"JLA g 3 4", b"JSLA i x61 2",
        b"JLK k 1 5", b"JLK k 1 6", b"JLX k 1 5 8", b"JLX k 1 5 9", b"JSLK m x61 3", b"JSLD m x61 4", b"JHSK n x 3", b"JHSX n x 3 6",
        b"JHSK o x 3", b"JHST o x", b"JSLK p x61 3", b"JSLD p x61 3", b"JLK q 1 0", b"JLT q 1", b"JLX r 1 0 1",
        b"JLI c 1 2", b"JLD c 1", b"J1S d 1", b"J1FA d", b"JSLI e x61 1", b"JSLD e x61", b"JHSI f x 1", b"JHSFA f",
        b"J1SE t  07", b"J1SE t 7", b"J1UF t 0 7", b"JLIE u -1  4", b"JLIE u 6 5", b"JLDF u 0 06", b"J1SE v 1", b"J1UR v 0 -1 9", b"JLIE w 1 1", b"JLDR w 1 1 1",
        b"JSLI x x61 1", b"JSLI x x62 2", b"JSLDF x x", b"JLIE y 3 4", b"JLDF y 0 -1", b"JSLI z x 1", b"JSLDF z x",
    ]  # fmt: skip
    with tempfile.TemporaryDirectory() as folder:
        journals.write(folder, [[[b"alice " + line] for line in lines]])
        want("a compaction of odd lines", 0, compact(folder).returncode)
        with open(journals.snapshot_path(folder, 1), "rb") as file:
            fields = [line.split() for line in file.read().split(b"\n")[1:] if line and not line.startswith(b"#")]
    entries = sorted((tenant, word, name, key.lstrip(b"0"), value) for tenant, word, name, key, *value in fields)
    wanted = [(b"J1S", b"a", b"5", []), (b"J1S", b"t", b"8", []), (b"JHSI", b"h", b"x", [b"1"]), (b"JHSI", b"h", b"x00", [b"2"]), (b"JHSI", b"n", b"x", [b"6"]),
              (b"JLI", b"b", b"7", [b"18"]), (b"JLI", b"g", b"3", [b"4"]), (b"JLI", b"k", b"1", [b"8"]), (b"JLI", b"u", b"%d" % (2**64 - 1), [b"4"]),
              (b"JSLI", b"i", b"x61", [b"2"]), (b"JSLI", b"m", b"x61", [b"3"]), (b"JSLI", b"s", b"x61", [b"5"]), (b"JSLI", b"x", b"x62", [b"2"])]  # fmt: skip
    want("the entries of odd lines", [(b"alice", *entry) for entry in wanted], entries)


def finds(entries, place, word, rest):
    """The same of a line that changes what it finds from a key on. What it removes has no end but a number."""
    keys = {entry[3] if place[1] == b"JSL" else int(entry[3]): entry for entry in entries if entry[:3] == place}
    low = rest[0] if place[1] == b"JSL" else int(rest[0])
    if word[-1:] == b"E":
        while low in keys:
            low += 1
        entries[(*place, b"%d" % low)] = int(rest[1]) if len(rest) > 1 else 0
        return
    for key in sorted(key for key in keys if key >= low)[: int(rest[2]) if len(rest) > 2 else 1]:
        del entries[keys[key]]


def plays(entries, tenant, line):
    """Makes a line's change in a plain table of entries."""
    word, array, *rest = line.split(b" ")
    if word in FINDS:
        finds(entries, (tenant, word[: 3 if word.startswith(b"JS") else 2], array), word, rest)
        return
    kind = next(kind for kind in (b"J1", b"JL", b"JSL", b"JHS") if word.startswith(kind) and word[len(kind) :] in (b"S", b"U", b"I", b"A", b"D", b"FA"))
    does, entry = word[len(kind) :], (tenant, kind, array, rest[0] if rest else b"")
    if does == b"FA":
        for other in [other for other in entries if other[:3] == entry[:3]]:
            del entries[other]
    elif does in (b"U", b"D"):
        entries.pop(entry, None)
    elif does == b"A":
        entries[entry] = (entries.get(entry, 0) + int(rest[1])) % 2**64
    else:
        entries[entry] = int(rest[1]) if does == b"I" else 0


def eight(draw):
    """A compaction writes exactly the entries that eight tenants have, some of whom left, and came again."""
    for leavers in ([], [b"t1"], [b"t2", b"t5", b"t7"], [b"t%d" % n for n in range(8)]):
        entries, segments = {}, []
        for segment in range(3):
            commits = []
            for _ in range(20):
                records = []
                for _ in range(12):
                    tenant, line = b"t%d" % draw.randrange(8), line_of(draw, b"a%d" % draw.randrange(3))
                    records.append(tenant + b" " + line)
                    plays(entries, tenant, line)
                commits.append(records)
            if segment < 2 and leavers:
                commits.append([b" ".join([leavers[0], b"GONE", *leavers[1:]])])
                entries = {entry: value for entry, value in entries.items() if entry[0] not in leavers}
            segments.append(commits)
        with tempfile.TemporaryDirectory() as folder:
            journals.write(folder, segments)
            what = "%d who left" % len(leavers)
            for name in leavers:
                lines = subprocess.run([program(), "journal", folder, "--tenant", name], stdout=subprocess.PIPE, check=True).stdout.split(b"\n")
                want("the lines of a leaver", 2, lines.count(b"GONE"))
            want("a compaction of " + what, (0, b""), (lambda ran: (ran.returncode, ran.stderr))(compact(folder)))
            with open(journals.snapshot_path(folder, 3), "rb") as file:
                lines = [line for line in file.read().split(b"\n")[1:] if line and not line.startswith(b"#")]
            found = {}
            for line in lines:
                tenant, rest = line.split(b" ", 1)
                plays(found, tenant, rest)
            want("the entries of " + what, entries, found)
            want("each once", len(entries), len(lines))


def many_arrays():
    """A compaction writes the entries of those of thousands of arrays that have some still."""
    tenants, commits, left = (b"alice", b"bob"), [], set()
    for at in range(0, 6000, 20):
        records = []
        for number in range(at, at + 20):
            tenant, kind = tenants[number % 2], (b"J1S n%d 7", b"JLI n%d 7 1", b"JSLI n%d x37 1", b"JHSI n%d x37 1")[number % 4]
            records.append(tenant + b" " + kind % number)
            if number % 100 == 3:
                left.add(records[-1])
            else:
                remove = (b"J1U n%d 7", b"JLD n%d 7", b"JSLD n%d x37", b"JHSD n%d x37")[number % 4]
                records.append(tenant + b" " + remove % number)
        commits.append(records)
    with tempfile.TemporaryDirectory() as folder:
        journals.write(folder, [commits])
        want("a compaction of many arrays", 0, compact(folder).returncode)
        with open(journals.snapshot_path(folder, 1), "rb") as file:
            lines = [line for line in file.read().split(b"\n")[1:] if line and not line.startswith(b"#")]
    want("the entries of many arrays", sorted(left), sorted(lines))


def killed(draw):
    """A compaction that is killed at any step leaves a journal of the same arrays, and the next one
    ends well."""
    with tempfile.TemporaryDirectory() as place:
        try:
            library = build(place, journals.DYING)
        except (OSError, subprocess.CalledProcessError):
            skip("journal", "there is no C compiler")
            return
        step, status = 0, -9
        while status == -9:
            step += 1
            folder = os.path.join(place, "journal%d" % step)
            os.makedirs(folder)
            stores = many(folder, draw, segments=3)
            status = compact(folder, env={**os.environ, "LD_PRELOAD": library, "DIES_AT": str(step)}).returncode
            must("a compaction that dies at step %d" % step, status in (0, -9))
            served(folder, stores, "killed at step %d" % step)
            want("the next compaction", 0, compact(folder).returncode)
            served(folder, stores, "compacted after step %d" % step)
            must("no more than one snapshot", len([name for name in os.listdir(folder) if name.endswith(".snapshot")]) == 1)
        must("steps were there: %d" % step, step > 8)


def snapshot_lines(folder):
    """The records of all snapshots of a directory, in order."""
    texts = [text for name, text in journals.contents(folder).items() if name.endswith(".snapshot")]
    return sorted(line for text in texts for line in text.split(b"\n")[1:] if line and not line.startswith(b"#"))


def refused_memory(folder, place, shim, number, whole):
    """A compaction of a copy of the folder, whose request for memory of this number is refused. Returns whether there
    was one, and what it said. It writes all entries, or the next compaction does."""
    with tempfile.TemporaryDirectory(dir=place) as room:
        copy = os.path.join(room, "journal")
        shutil.copytree(folder, copy)
        told, tells = os.pipe()
        ran = compact(copy, env={**os.environ, **refusing(shim, number, tells)}, pass_fds=(tells,))
        os.close(tells)
        was = os.read(told, 1) == b"x"
        os.close(told)
        must("request %d: status %d, %r" % (number, ran.returncode, ran.stderr), ran.returncode == 0 or b"memory" in ran.stderr.lower())
        if ran.returncode != 0:
            want("request %d: the next compaction" % number, 0, compact(copy).returncode)
        must("request %d: the entries" % number, snapshot_lines(copy) == whole)
        return was, ran.stderr


def short_of_memory():
    """A compaction that gets no memory says so, and loses no entry. A program that is not proved has functions of its
    own for memory, which no library refuses."""
    if is_slow():
        return
    with tempfile.TemporaryDirectory() as place:
        try:
            shim = build(place)
        except (OSError, subprocess.CalledProcessError):
            skip("journal", "there is no C compiler")
            return
        folder = os.path.join(place, "journal")
        os.mkdir(folder)
        texts = [b"%04d" % n for n in range(1000)]
        keys = [[b"alice JHSI h x%s 7" % (text * 20).hex().encode(), b"bob JSLI s x%s 8" % (text * 10).hex().encode()] for text in texts]
        journals.write(folder, [entries(3000), keys, []])
        whole = sorted(record for commit in [*entries(3000), *keys] for record in commit)
        last, beyond = 1, 2**16
        while beyond - last > 1:
            middle = (last + beyond) // 2
            last, beyond = (middle, beyond) if refused_memory(folder, place, shim, middle, whole)[0] else (last, middle)
        # The first requests are those for the tables of 64 tenants, and the last ones those of the calls and of the files.
        said = [refused_memory(folder, place, shim, number, whole)[1] for number in range(last - LAST_REQUESTS, last + 1)]
        must("calls were refused: %r" % set(said), any(b": MEMORY: " in it for it in said))


def compact_under_load(draw):
    """A compaction while a server has the directory and clients write."""
    with tempfile.TemporaryDirectory() as folder:
        stores = many(folder, draw)
        tolds = [Told(b"b%d" % n) for n in range(CLIENTS)]
        stop = threading.Event()
        with Journaled(folder=folder) as server:
            threads = [threading.Thread(target=load, args=(server.path, told, random.Random(draw.random()), stop)) for told in tolds]
            for thread in threads:
                thread.start()
            ran = compact(folder)
            want("a compaction under load", (0, b""), (ran.returncode, ran.stderr))
            time.sleep(0.2)
            server.kill()
            stop.set()
            for thread in threads:
                thread.join()
            want("the segments", ["000000000004.snapshot", "000000000005.journal"], sorted(journals.contents(folder)))
            server.restart()
            for told in tolds:
                settle(server.path, told)
        served(folder, stores, "after a compaction under load")
