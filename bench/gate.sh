#!/usr/bin/env bash
# Runs the gate, and writes into docs/GATE.md what each crate cost it:
#     bench/gate.sh [--anew] [crate..]
# It starts `rt ci` with these words at the top of the repository, and looks five times a second at the processes below it: each
# of the prover's is charged to the crate that it names, as the crate's proof, its tests, or its must-fail edits. What was kept
# from an earlier run keeps its number, with the commit at which it was measured. The log of the run goes to the screen, and the
# script ends with the gate's own status. It is no part of the gate.
set -u
cd "$(dirname "$0")/.." || exit 1
table=docs/GATE.md
most=8 # processor minutes of a crate
room=$(mktemp -d)
trap 'rm -rf "$room"' EXIT
commit=$(git rev-parse --short HEAD)
[ -z "$(git status --porcelain -- crates crates.txt)" ] || commit="$commit+"
hertz=$(getconf CLK_TCK)

rt ci "$@" > >(tee "$room/log") 2>&1 < /dev/null &
gate=$!

# Sets `ticks` to the processor time of a process, of its children that ended, and of all that run below it.
ticks_of() {
    local stat list children child sum
    ticks=0
    { read -r stat < "/proc/$1/stat"; } 2> /dev/null || return 1
    read -r -a stat <<< "${stat##*) }"
    sum=$((stat[11] + stat[12] + stat[13] + stat[14]))
    for list in "/proc/$1/task/"*/children; do
        children=
        { read -r children < "$list"; } 2> /dev/null
        for child in $children; do
            ticks_of "$child" && sum=$((sum + ticks))
        done
    done
    ticks=$sum
}

# Sets `of` to 'crate part' for a process of the prover, and to nothing for another.
part_of() {
    local -a words=()
    local at crate= part=proof
    of=
    { mapfile -d '' -t words < "/proc/$1/cmdline"; } 2> /dev/null || return
    for ((at = 0; at < ${#words[@]}; at++)); do
        case ${words[at]} in
            --crate-name) crate=${words[at + 1]} ;;
            --test) part=tests ;;
        esac
    done
    [ -n "$crate" ] || return
    case $(readlink "/proc/$1/cwd") in */rt-edit-*) part=edits ;; esac
    of="$crate $part"
}

declare -A spent part
began=$SECONDS
while kill -0 "$gate" 2> /dev/null; do
    for list in /proc/"$gate"/task/*/children; do
        pids=
        { read -r pids < "$list"; } 2> /dev/null
        for pid in $pids; do
            { read -r stat < "/proc/$pid/stat"; } 2> /dev/null || continue
            read -r -a stat <<< "${stat##*) }"
            # (a number comes again: with the moment of its start it does not)
            process=$pid.${stat[19]}
            if [ -z "${part[$process]:-}" ]; then
                part_of "$pid"
                [ -n "$of" ] || continue
                part[$process]=$of
            fi
            # (the greatest, since a process that is ending may show less)
            ticks_of "$pid" && [ "$ticks" -gt "${spent[$process]:-0}" ] && spent[$process]=$ticks
        done
    done
    sleep 0.2
done
wait "$gate"
status=$?
took=$((SECONDS - began))
sleep 0.5 # (the rest of the log)

for process in "${!spent[@]}"; do
    echo "${part[$process]} ${spent[$process]}"
done > "$room/spent"
grep -oE '^[a-z0-9_]+' crates.txt | while read -r crate; do
    lines=$(git ls-files "crates/$crate/src" "crates/$crate/specs" "crates/$crate/proofs" | tr '\n' '\0' | xargs -0 -r cat | wc -l)
    edits=$(git ls-files "crates/$crate/must-fail/*.edit" | wc -l)
    tests=$(git grep -l '#\[test\]' -- "crates/$crate/src" | wc -l)
    echo "$crate $lines $edits $tests"
done > "$room/crates"
[ -f "$table" ] || : > "$table"

awk -v commit="$commit" -v hertz="$hertz" -v most="$most" -v took="$took" '
    FILENAME ~ /spent$/ { spent[$1, $2] += $3 / hertz / 60; next }
    FILENAME ~ /log$/ {
        name = $2; sub(/:$/, "", name)
        if (/^rt: [a-z0-9_]+ proved$/) done[name, "proof"] = 1
        if (/^rt: [a-z0-9_]+: its tests are proved$/) done[name, "tests"] = 1
        if (/^rt: [a-z0-9_]+: trying its must-fail edits \([0-9]+\)$/) tried[name] = substr($NF, 2) + 0
        next
    }
    FILENAME ~ /GATE.md$/ {
        # | crate | lines | proof | tests | edits | all | at |
        if ($0 ~ /^\| `/) {
            split($0, cell, / *\| */); gsub(/`/, "", cell[2]); name = cell[2]
            old[name, "proof"] = cell[4]; old[name, "tests"] = cell[5]; old[name, "edits"] = cell[6]; at[name] = cell[8]
            sub(/ \(.*/, "", old[name, "edits"])
        }
        next
    }
    function number(name, part, is_there, is_done,    was) {
        if (!is_there) return "-"
        if (is_done) { fresh = 1; return sprintf("%.1f", spent[name, part]) }
        was = old[name, part]
        return was == "" || was == "-" ? "?" : was
    }
    {
        name = $1; fresh = 0
        proof = number(name, "proof", 1, done[name, "proof"])
        tests = number(name, "tests", $4 > 0, done[name, "tests"])
        edits = number(name, "edits", $3 > 0, tried[name] == $3)
        all = sprintf("%.1f", proof + tests + edits)
        if (all + 0 > most + 0) all = all " !"
        if (proof == "?" || tests == "?" || edits == "?") { all = "?"; lacks = " of what was measured" }
        sums["proof"] += proof; sums["tests"] += tests; sums["edits"] += edits; lines += $2; many += $3
        if (fresh) at[name] = commit
        row[++rows] = sprintf("| `%s` | %d | %s | %s | %s%s | %s | %s |", name, $2, proof, tests, edits, $3 ? " (" $3 ")" : "", all, at[name] == "" ? "-" : at[name])
    }
    END {
        print "# What the gate costs"
        print ""
        print "This page is written by `bench/gate.sh` and by nobody else. It has the processor minutes that `rt ci` takes for each crate with nothing kept: for the proof of the crate, for that of the crate with its tests, and for its must-fail edits (their number stands in brackets). `-` says that there are none, `?` that this was not measured yet, `!` that the crate takes more than " most " minutes, which a new crate should not. The last column is the commit at which the newest number of the row was measured. Compare rows that were measured on one machine only; while other work shares the processors the numbers come out greater."
        print ""
        print "| crate | lines | proof | tests | edits | all | measured at |"
        print "|---|---|---|---|---|---|---|"
        for (i = 1; i <= rows; i++) print row[i]
        printf "| all%s | %d | %.1f | %.1f | %.1f (%d) | %.1f | |\n", lacks, lines, sums["proof"], sums["tests"], sums["edits"], many, sums["proof"] + sums["tests"] + sums["edits"]
    }
' "$room/spent" "$room/log" "$table" "$room/crates" > "$room/table"
cp "$room/table" "$table"
charged=$(awk -v hertz="$hertz" '{ n += $3 } END { printf "%d", n / hertz }' "$room/spent")
echo "bench/gate.sh: $took seconds by the clock, $charged processor seconds of the prover; $table is written"
exit "$status"
