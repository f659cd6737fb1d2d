#!/usr/bin/env bash
# Times additions to one counter through a client and its trustee in turns on one thread, in full windows: 64 requests are
# asked (`apply_then`), and four times a batch of 16 goes (`turn`), is served (`serve`), comes back (`turn`) and is taken
# (`next`). Beside it, in the same run, the same additions by plain calls. Each of so many runs makes so many requests in each
# way, and the least time of each way counts:
#     bench/client_loop.sh [runs] [requests]
# The program is bench/client_loop.program, which is proved and built as a crate in a copy of the repository, and left as
# crates/tm_turns_tests/out/client_loop; what is timed stands in crates/tm_turns_tests/src/adding.rt. It is no part of the gate.
set -e
runs=${1:-15}
requests=${2:-4000000}
top=$(cd "$(dirname "$0")/.." && pwd)
program=$top/crates/tm_turns_tests/out/client_loop
if [ ! -x "$program" ]; then
    room=$(mktemp -d)
    trap 'rm -rf "$room"' EXIT
    git clone -q "$top" "$room/repo"
    mkdir -p "$room/repo/crates/client_loop/src" "$(dirname "$program")"
    cp "$top/bench/client_loop.program" "$room/repo/crates/client_loop/src/main.rt"
    echo "client_loop: tm_batch tm_seq tm_turns_tests" >>"$room/repo/crates.txt"
    (cd "$room/repo/crates/client_loop" && rt run -- 1)
    cp "$room/repo/crates/client_loop/out/client_loop" "$program"
fi
for ((run = 0; run < runs; run++)); do
    "$program" $((requests / 64))
done | awk -v runs="$runs" -v load="$(cut -d' ' -f1 /proc/loadavg)" -v processors="$(nproc)" '
    $3 != "same" { print "the replies differ"; exit 1 }
    NR == 1 || $1 < client { client = $1 }
    NR == 1 || $2 < calls { calls = $2 }
    END {
        printf "%d processors, load %s, the least of %d runs\n", processors, load, runs
        printf "by the client: %.1f ns a request, %.2f million requests a second\n", client / 1000, 1e6 / client
        printf "by plain calls: %.2f ns a request; the client takes %.0f times as long\n", calls / 1000, client / calls
    }
'
