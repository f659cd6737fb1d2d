#!/usr/bin/env bash
# Times operations of 64 classes that hold 1,000 to 1,000,000 items, and one search of a key in an `LruCache` against two, by
# processor time: what a run with 1,000,000 operations takes more than one with none.
#     bench/class.sh [another class_speed to compare with..]
# The program is bench/class_speed.program, which is proved and built as a crate over mc_shard in a copy of the repository, and
# left as crates/mc_shard/out/class_speed. It is no part of the gate.
set -e
top=$(cd "$(dirname "$0")/.." && pwd)
room=$(mktemp -d)
trap 'rm -rf "$room"' EXIT
git clone -q "$top" "$room/repo"
cd "$room/repo"
mkdir -p crates/class_speed/src
cp "$top/bench/class_speed.program" crates/class_speed/src/main.rt
echo "class_speed: tm_seq mc_item mc_model mc_shard itoa lru" >>crates.txt
cd crates/class_speed
rt run -- 1000 0 1
left=$top/crates/mc_shard/out/class_speed
mkdir -p "$(dirname "$left")"
cp out/class_speed "$left"

# the processor seconds of a run
seconds() {
    local TIMEFORMAT=%U
    { time "$@" >/dev/null; } 2>&1
}

operations=(get set touch incr replace use "look and use")
times=1000000
for program in "$left" "$@"; do
    for items in 1000 100000 1000000; do
        for what in "${!operations[@]}"; do
            least=
            for round in 1 2 3; do
                with=$(seconds "$program" "$items" "$what" "$times")
                without=$(seconds "$program" "$items" "$what" 0)
                each=$(awk -v a="$with" -v b="$without" -v n="$times" 'BEGIN { printf "%.0f", (a - b) / n * 1e9 }')
                if [ -z "$least" ] || [ "$each" -lt "$least" ]; then least=$each; fi
            done
            echo "$program: $items items, ${operations[what]}: $least ns"
        done
    done
done
