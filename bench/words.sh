#!/bin/bash
# Times the calls of Judy1 and JudyL, and libjudy's, in process and in turns:
# bench/words.sh [COUNT] [ROUNDS]. Needs gcc and libjudy-dev. Prints a row for each kind, pattern and
# call: nanoseconds of processor time a call, of these arrays and of libjudy, medians over the rounds,
# and their ratio. Then it prints the bytes of the blocks for each key. The results of both must be
# equal.
set -e
count=${1:-500000}
rounds=${2:-5}
top=$(cd "$(dirname "$0")/.." && pwd)
work=$(mktemp -d)
trap 'rm -r "$work"' EXIT
gcc -O2 -o "$work/libjudy" "$top/bench/words.c" -lJudy
gcc -O2 -shared -fPIC -o "$work/cpu_clock.so" "$top/bench/cpu_clock.c"
(cd "$top/crates/bench" && rt run -- words 1 >"$work/build.log" 2>&1)
for round in $(seq "$rounds"); do
    LD_PRELOAD="$work/cpu_clock.so" "$top/crates/bench/out/bench" words "$count" >"$work/ours.out" 2>"$work/ours.$round"
    "$work/libjudy" "$count" >"$work/theirs.out" 2>"$work/theirs.$round"
    cmp "$work/ours.out" "$work/theirs.out"
done
python3 - "$work" "$rounds" <<'P'
import statistics, sys
work, rounds = sys.argv[1], int(sys.argv[2])
def read(name):
    rows, sizes = {}, {}
    for round in range(1, rounds + 1):
        for line in open(f"{work}/{name}.{round}"):
            words = line.split()
            if words[-1] == "keys":
                sizes[(words[0], words[1].rstrip(":"))] = 8 * int(words[2]) / int(words[5])
            elif len(words) == 4:
                rows.setdefault(tuple(words[:3]), []).append(int(words[3]) / 10)
    return {row: statistics.median(times) for row, times in rows.items()}, sizes
(ours, our_sizes), (theirs, their_sizes) = read("ours"), read("theirs")
print(f"{'':32}{'here':>8}{'libjudy':>9}{'ratio':>7}")
for row, time in ours.items():
    ratio = f"{time / theirs[row]:7.2f}" if theirs[row] else "      -"
    print(f"{' '.join(row):32}{time:8.1f}{theirs[row]:9.1f}{ratio}")
for row, size in our_sizes.items():
    print(f"{' '.join(row) + ', bytes a key':32}{size:8.1f}{their_sizes[row]:9.1f}{size / their_sizes[row]:7.2f}")
P
