#!/bin/bash
# Times the calls of an arena, and of a plain array with calloc and free, in turns:
# bench/arena.sh [ROUNDS] [REPEATS]. Needs gcc. Prints nanoseconds a call, medians over the repeats,
# and their ratio. The results of both must be equal.
set -e
rounds=${1:-10000000}
repeats=${2:-5}
top=$(cd "$(dirname "$0")/.." && pwd)
work=$(mktemp -d)
trap 'rm -r "$work"' EXIT
gcc -O2 -o "$work/plain" "$top/bench/arena.c"
(cd "$top/crates/bench" && rt run -- arena 1 >"$work/build.log" 2>&1)
for repeat in $(seq "$repeats"); do
    "$top/crates/bench/out/bench" arena "$rounds" >"$work/ours.out" 2>"$work/ours.$repeat"
    "$work/plain" "$rounds" >"$work/theirs.out" 2>"$work/theirs.$repeat"
    cmp "$work/ours.out" "$work/theirs.out"
done
python3 - "$work" "$repeats" <<'P'
import statistics, sys
work, repeats = sys.argv[1], int(sys.argv[2])
def read(name):
    rows = {}
    for repeat in range(1, repeats + 1):
        for line in open(f"{work}/{name}.{repeat}"):
            call, time = line.rsplit(None, 1)
            rows.setdefault(call, []).append(int(time) / 10)
    return {call: statistics.median(times) for call, times in rows.items()}
ours, theirs = read("ours"), read("theirs")
print(f"{'':24}{'here':>8}{'C':>8}{'ratio':>7}")
for call, time in ours.items():
    print(f"{call:24}{time:8.2f}{theirs[call]:8.2f}{time / theirs[call]:7.2f}")
P
