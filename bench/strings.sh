#!/bin/bash
# Times insertions, reads, steps of a walk and FreeArray of judy_string and of libjudy's JudySL, in
# process and in turns: bench/strings.sh [COUNT] [ROUNDS], by default 1,000,000 strings and 5 rounds.
# The strings are words of 4 to 20 letters, and paths that share 40 bytes. Needs gcc and libjudy-dev.
# Prints nanoseconds of processor time for each string, medians over the rounds. Each time is the
# difference of two runs, so that the time to make the strings does not count.
set -e
count=${1:-1000000}
rounds=${2:-5}
top=$(cd "$(dirname "$0")/.." && pwd)
work=$(mktemp -d)
trap 'rm -r "$work"' EXIT
gcc -O2 -o "$work/libjudy" "$top/bench/strings.c" -lJudy
ours=${STRINGS:-$top/crates/bench/out/bench}
if [ -z "$STRINGS" ]; then
    (cd "$top/crates/bench" && rt run -- strings words 1 0 0 0 0 >"$work/build.log" 2>&1)
fi
python3 - "$ours" "$work/libjudy" "$count" "$rounds" <<'P'
import resource, statistics, subprocess, sys
ours, theirs, count, rounds = [sys.argv[1], "strings"], [sys.argv[2]], int(sys.argv[3]), int(sys.argv[4])
TIMES = 3
# what is run, and how often each string is made, inserted, read, passed and freed: count, reads, walks, frees, makes
PLANS = {"make": (0, 0, 0, TIMES), "all": (0, 0, 0, 0), "read": (TIMES, 0, 0, 0), "walk": (0, TIMES, 0, 0), "free": (0, 0, 1, 0)}


def spent():
    """The processor time of all runs so far."""
    used = resource.getrusage(resource.RUSAGE_CHILDREN)
    return used.ru_utime + used.ru_stime


def seconds(program, kind, plan):
    """The processor time of one run, and its figures."""
    before = spent()
    said = subprocess.run([*program, kind, str(count), *map(str, plan)], stdout=subprocess.PIPE, encoding="ascii", check=True).stdout
    time = spent() - before
    figures = {name: int(number) for name, number in (it.split() for it in said.replace("\n", "").split(", "))}
    return time, figures


def costs(program, kind):
    """Nanoseconds for each string: to insert it, to read it, to pass it and to free it. The figures say that all was done."""
    times = {}
    for name, plan in PLANS.items():
        times[name], figures = seconds(program, kind, plan)
        if figures["read"] != plan[0] * count or figures["made"] != plan[3] * count:
            sys.exit("%s: %s" % (program[0], figures))
    made = (times["make"] - times["all"]) / TIMES
    found = {
        "Insert": times["all"] - made,
        "Get": (times["read"] - times["all"]) / TIMES - made,
        "Next": (times["walk"] - times["all"]) / TIMES,
        "FreeArray": times["free"] - times["all"],
    }
    return {name: time / count * 1e9 for name, time in found.items()}


print("%-20s%8s%9s%7s" % ("", "here", "libjudy", "ratio"))
for kind in ("words", "paths"):
    rows = [(costs(ours, kind), costs(theirs, kind)) for _ in range(rounds)]
    for name in rows[0][0]:
        here, there = (statistics.median(row[side][name] for row in rows) for side in (0, 1))
        print("%-20s%8.0f%9.0f%7.2f" % (kind + " " + name, here, there, here / there))
P
