#!/usr/bin/env bash
# Times clients on threads of their own that add to one counter, with batches of 16 and of 1: through the proved shared table
# and its trustee (crates/bench_counters), through plain Rust of the same shape, under a Mutex, and over std's mpsc channel
# (bench/counters.rs). Each is run so often, by turns, and the best run counts:
#     bench/counters.sh [runs]
# It needs rustc and the program that `rt ci` leaves, and is no part of the gate. Where it may, it runs before all other work
# of the machine (`chrt -f`), which else takes the processors from threads that wait for one another.
set -e
runs=${1:-7}
top=$(cd "$(dirname "$0")/.." && pwd)
proved=$top/crates/bench_counters/out/bench_counters
[ -x "$proved" ] || { echo "run rt ci, or rt run in crates/bench_counters, first"; exit 1; }
room=$(mktemp -d)
trap 'rm -rf "$room"' EXIT
rustc --edition 2021 -O -o "$room/plain" "$top/bench/counters.rs"
first=
chrt -f 50 true 2>/dev/null && first="chrt -f 50"

# Appends 'way clients size operations-a-second'.
one() {
    local way=$1 clients=$2 size=$3 batches=$4 said
    if [ "$way" = table ]; then
        said=$($first "$proved" "$clients" "$size" "$batches" 2>&1 >/dev/null)
    else
        said=$($first "$room/plain" "$way" "$clients" "$size" "$batches" 2>&1)
    fi
    echo "$way $clients $size ${said%% *}" >>"$room/runs"
}

for ((run = 0; run < runs; run++)); do
    for clients in 1 2 3; do
        for size in 16 1; do
            one table "$clients" "$size" $((size == 16 ? 100000 : 200000))
            one slots "$clients" "$size" $((size == 16 ? 100000 : 200000))
            one mutex "$clients" "$size" $((1600000 / size))
            one channel "$clients" "$size" $((size == 16 ? 4000 : 10000))
        done
    done
done

echo "$(nproc) processors, load $(cut -d' ' -f1 /proc/loadavg), best of $runs runs; million operations a second, and the shared table's ratio"
awk '
    $4 > best[$1, $2, $3] { best[$1, $2, $3] = $4 }
    function cell(way, clients, size) {
        return sprintf("%.2f (%.2f)", best[way, clients, size] / 1e6, best["table", clients, size] / best[way, clients, size])
    }
    END {
        print "| clients | batches of | shared table | to plain Rust | to a Mutex | to a channel |"
        print "|---|---|---|---|---|---|"
        for (s = 16; s >= 1; s -= 15)
            for (c = 1; c <= 3; c++)
                printf "| %d | %d | %.2f | %s | %s | %s |\n", c, s, best["table", c, s] / 1e6, cell("slots", c, s), cell("mutex", c, s), cell("channel", c, s)
    }
' "$room/runs"
