#!/bin/bash
# The memory that an arena takes besides its words: bench/arena_memory.sh [MEGABYTES..], by default 64
# and 512. Fills an arena with words. Prints the most memory that the program asked for (VmPeak) and
# used (VmHWM), less that of an empty arena and less the words. Fails if the program asked for more
# than 4 % of the words. VmHWM is only printed: the kernel counts it to some hundred kilobytes.
set -e
top=$(cd "$(dirname "$0")/.." && pwd)
log=$(mktemp)
trap 'rm "$log"' EXIT
(cd "$top/crates/bench" && rt run -- arena 1 >"$log" 2>&1) || { cat "$log"; exit 1; }
python3 - "$top/crates/bench/out/bench" "${@:-64 512}" <<'P'
import fcntl, os, subprocess, sys, time

program, sizes = sys.argv[1], [int(size) for argument in sys.argv[2:] for size in argument.split()]
PAGE = 4096


def most_memory(words):
    """The most memory that a program asks for and uses to fill an arena with this many words, in bytes.

    Its output is a full pipe, so that when it is done it waits until its memory was read.
    """
    read, write = os.pipe()
    fcntl.fcntl(write, fcntl.F_SETPIPE_SZ, PAGE)
    os.write(write, b" " * PAGE)
    with subprocess.Popen([program, "arena", "words", str(words)], stdout=write) as child:
        os.close(write)
        while not open(f"/proc/{child.pid}/syscall").read().startswith("1 0x1 "):
            if child.poll() is not None:
                sys.exit(f"status {child.returncode}")
            time.sleep(0.01)
        status = dict(line.split(":", 1) for line in open(f"/proc/{child.pid}/status"))
        with os.fdopen(read) as answer:
            if answer.read().strip() != f"words {words}":
                sys.exit("the arena has other words")
    return [int(status[name].split()[0]) * 1024 for name in ("VmPeak", "VmHWM")]


empty = most_memory(0)
worst = 0.0
for size in sizes:
    words = size * 131_072
    beside = [most - least - words * 8 for most, least in zip(most_memory(words), empty)]
    asked, had = [bytes / (words * 8) for bytes in beside]
    worst = max(worst, asked)
    told = f"asked for {beside[0] // 1024} kB beside them ({asked:.2%}), had {beside[1] // 1024} kB ({had:.2%})"
    print(f"{size} MB of words: {told}")
sys.exit("more than 4 %" if worst > 0.04 else 0)
P
