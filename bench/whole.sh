#!/bin/bash
# Compares `step` with the same protocol in plain, unverified Rust (bench/whole), on documents of several shapes: instructions, and calls of
# malloc, calloc and realloc. What a document of one line takes is taken off, so that starting the program does not count. Counts repeat exactly.
# Prints the rows of the tables of bench/README.md. It is no test.
# Usage: bench/whole.sh [PROGRAM]   (needs cargo, python3 and valgrind, and without PROGRAM rt, which proves and builds the program)
set -e
top=$(cd "$(dirname "$0")/.." && pwd)
work=$(mktemp -d)
trap 'rm -rf "$work"' EXIT
if [ $# -gt 0 ]; then
    program=$(realpath "$1")
else
    (cd "$top/crates/qprop" && rt run -- step < /dev/null > /dev/null)
    program=$top/crates/qprop/out/qprop
fi
build() { cargo build --release --offline --quiet --manifest-path "$top/bench/whole/Cargo.toml" "$@"; }
build --target-dir "$work/anew"
build --target-dir "$work/kept" --features kept
anew=$work/anew/release/plain
kept=$work/kept/release/plain
python3 "$top/bench/whole/documents.py" "$work/documents"

# counts DOCUMENT PROGRAM WORD..: the instructions of a run, and its calls of malloc, calloc and realloc from elsewhere.
counts() {
    local document=$work/documents/$1.qprop
    shift
    valgrind --tool=callgrind --callgrind-out-file="$work/calls" "$@" < "$document" > /dev/null 2> "$work/errors" || { cat "$work/errors" >&2; exit 1; }
    awk '
        match($0, /^c?fn=\([0-9]+\)/) {
            id = substr($0, RSTART, RLENGTH); sub(/^c?fn=/, "", id); name = substr($0, RLENGTH + 2)
            if (name ~ /^(malloc|calloc|realloc)$/) memory[id] = 1
            if ($0 ~ /^fn=/) caller = id; else called = id
        }
        /^calls=/ && memory[called] && !memory[caller] { sub(/^calls=/, "", $1); calls += $1 }
        /^(summary|totals):/ { instructions = $2 }
        END { printf "%d %d\n", instructions, calls }
    ' "$work/calls"
}
messages() { "$anew" step --trace < "$work/documents/$1.qprop" | grep -c '^# log [^ ]* sent '; }
same() { cmp <("$program" step < "$work/documents/$1.qprop") <("$anew" step < "$work/documents/$1.qprop") >&2; }

read -r base base_calls <<< "$(counts one_line "$program" step)"
read -r base_anew _ <<< "$(counts one_line "$anew" step)"
read -r base_logs _ <<< "$(counts one_line "$anew" step --log)"
read -r base_kept _ <<< "$(counts one_line "$kept" step)"
echo "| Document | Messages | Instructions a message | Of plain | Of plain with logs | Of plain that keeps its choice | Calls a message |"
echo "|---|---|---|---|---|---|---|"
for name in chain diamonds fan sums rewirings legs_1000; do
    same "$name"
    read -r run calls <<< "$(counts "$name" "$program" step)"
    read -r run_anew _ <<< "$(counts "$name" "$anew" step)"
    read -r run_logs _ <<< "$(counts "$name" "$anew" step --log)"
    read -r run_kept _ <<< "$(counts "$name" "$kept" step)"
    awk -v name="$name" -v messages="$(messages "$name")" -v run=$((run - base)) -v calls=$((calls - base_calls)) -v anew=$((run_anew - base_anew)) \
        -v logs=$((run_logs - base_logs)) -v kept=$((run_kept - base_kept)) 'BEGIN {
        printf "| %s | %d | %.0f | %.2f | %.2f | %.2f | %.2f |\n", name, messages, run / messages, run / anew, run / logs, run / kept, calls / messages }'
done

echo
echo "| Legs of one change | Instructions a leg | Calls a leg | Messages a leg |"
echo "|---|---|---|---|"
read -r first first_calls <<< "$(counts legs_1 "$program" step)"
read -r hundred hundred_calls <<< "$(counts legs_100 "$program" step)"
read -r thousand thousand_calls <<< "$(counts legs_1000 "$program" step)"
row() { awk -v legs="$1" -v count="$2" -v run="$3" -v calls="$4" -v messages="$5" 'BEGIN { printf "| %s | %.0f | %.1f | %.1f |\n", legs, run / count, calls / count, messages / count }'; }
row "2 to 100" 99 $((hundred - first)) $((hundred_calls - first_calls)) $(($(messages legs_100) - $(messages legs_1)))
row "101 to 1,000" 900 $((thousand - hundred)) $((thousand_calls - hundred_calls)) $(($(messages legs_1000) - $(messages legs_100)))

# What the trace lines cost: the instructions of a run with them less those of one without, beside the same of plain with logs.
echo
echo "| Document | Bytes of text | Instructions a byte | Of plain with logs |"
echo "|---|---|---|---|"
for name in chain diamonds legs_1000; do
    cmp <("$program" step --trace < "$work/documents/$name.qprop") <("$anew" step --trace < "$work/documents/$name.qprop") >&2
    bytes=$("$program" step --trace < "$work/documents/$name.qprop" | wc -c)
    read -r run _ <<< "$(counts "$name" "$program" step)"
    read -r traced _ <<< "$(counts "$name" "$program" step --trace)"
    read -r logs _ <<< "$(counts "$name" "$anew" step --log)"
    read -r traced_logs _ <<< "$(counts "$name" "$anew" step --trace)"
    awk -v name="$name" -v bytes="$bytes" -v more=$((traced - run)) -v plain=$((traced_logs - logs)) 'BEGIN {
        printf "| %s | %d | %.2f | %.2f |\n", name, bytes, more / bytes, more / plain }'
done
