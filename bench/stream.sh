#!/usr/bin/env bash
# Times `trustmc run --turns` on a stream of mixed commands with values of 100 bytes, beside memcached fed the same stream
# over loopback by `nc`, three times in one run, and compares what the two wrote byte by byte:
#     bench/stream.sh [commands] [keys] [another trustmc to compare with..]
# Beside each time by the clock stands the processor time. It needs memcached, nc and the program that `rt ci` leaves, and is no
# part of the gate.
set -e
commands=${1:-1000000}
keys=${2:-100000}
shift $(($# < 2 ? $# : 2))
top=$(cd "$(dirname "$0")/.." && pwd)
room=$(mktemp -d)
trap 'rm -rf "$room"; [ -n "$server" ] && kill "$server"' EXIT

# of ten commands: four sets, four gets, one touch, and an incr, append, cas or delete
awk -v commands="$commands" -v keys="$keys" 'BEGIN {
    printf "flush_all noreply\r\n"
    value = sprintf("%100s", ""); gsub(/ /, "v", value); x = 12345
    for (n = 0; n < commands; n++) {
        x = (x * 1103515245 + 12345) % 2147483648; key = "key" int(x / 8) % keys
        kind = n % 10
        if (kind < 4) printf "set %s 0 0 100\r\n%s\r\n", key, value
        else if (kind < 8) printf "get %s\r\n", key
        else if (kind < 9) printf "touch %s 1000\r\n", key
        else if (n % 40 == 9) printf "incr %s 1\r\n", key
        else if (n % 40 == 19) printf "append %s 0 0 1\r\na\r\n", key
        else if (n % 40 == 29) printf "cas %s 0 0 1 1\r\nc\r\n", key
        else printf "delete %s\r\n", key
    }
    printf "quit\r\n"
}' >"$room/stream"
bytes=$(wc -c <"$room/stream")
echo "$commands commands, $keys keys, $bytes bytes"

seconds() {
    local TIMEFORMAT='%R %U %S'
    { time "$@"; } 2>"$room/time"
    awk -v bytes="$bytes" 'END { printf "%.2f s, %.0f MB/s, %.2f s of the processor\n", $1, bytes / $1 / 1e6, $2 + $3 }' "$room/time"
}

through_wc() { wc -c <"$room/stream" >/dev/null; cat "$room/stream" | wc -c >/dev/null; }
through_trustmc() { "$1" run --turns <"$room/stream" >"$room/trustmc"; }
through_memcached() { nc -N 127.0.0.1 11999 <"$room/stream" >"$room/memcached"; }

memcached -u nobody -U 0 -l 127.0.0.1 -p 11999 -m 2048 -t 1 &
server=$!
sleep 1
for round in 1 2 3; do
    echo "cat to wc:"; seconds through_wc
    for program in "$@" "$top/crates/trustmc/out/trustmc"; do
        echo "$program:"; seconds through_trustmc "$program"
    done
    echo "memcached by nc:"; seconds through_memcached
done
cmp "$room/trustmc" "$room/memcached" && echo "both wrote the same $(wc -c <"$room/trustmc") bytes"
