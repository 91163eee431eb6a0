#!/bin/sh
# Persistent clients (persistent.c) of one judyd, and the same clients of four judyd on the same machine,
# each with a quarter of them: calls a second of all together, and the processor time of the servers for
# each call. On a machine with other work, or with fewer than eight processors, only the processor time
# can be compared.
#
# usage: bench/servers.sh [SECONDS]
set -eu
top=$(cd "$(dirname "$0")/.." && pwd)
program=${JUDYD:-$top/crates/judyd/out/judyd}
seconds=${1:-5}
folder=$(mktemp -d)
servers=
trap 'kill $servers 2>/dev/null || true; wait; rm -rf "$folder"' EXIT
cc -O2 -o "$folder/persistent" "$top/bench/persistent.c"
for name in ann ben cat dan; do
    printf '[%s]\nsha256 = "%s"\nquota = 16000000\n' $name "$(printf abc | sha256sum | cut -d ' ' -f 1)"
done >"$folder/table"

# Runs so many servers, with so many clients each and so many calls in flight, and prints a row.
row() {
    count=$1 clients=$2 inflight=$3
    servers=
    for at in $(seq "$count"); do
        "$program" serve --config "$folder/table" --socket "$folder/socket$at" --clients 64 &
        servers="$servers $!"
    done
    at=0
    for server in $servers; do
        at=$((at + 1))
        while [ ! -S "$folder/socket$at" ]; do sleep 0.05; done
        "$folder/persistent" "$folder/socket$at" "$clients" 2 "$seconds" "$inflight" "$server" judyd "ann abc" "ben abc" "cat abc" "dan abc" \
            >"$folder/figures$at" &
        loads="${loads:-} $!"
    done
    # shellcheck disable=SC2086 # the list of processes
    wait $loads
    loads=
    # shellcheck disable=SC2086
    kill $servers
    wait
    cat "$folder"/figures* | awk -v row="$count servers, $clients clients each, $inflight in flight" \
        '{ rate += $1; nanoseconds += $1 * $6 } END { printf "%s: %d calls a second, %.2f us of processor time a call\n", row, rate, nanoseconds / rate / 1000 }'
    rm -f "$folder"/figures* "$folder"/socket*
}

for inflight in 1 100; do
    row 1 32 $inflight
    row 4 8 $inflight
done
