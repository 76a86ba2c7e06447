#!/bin/bash
# Compares `run`, with a thread for each service in each leg, with the same in plain, unverified Rust (bench/whole), on documents of 8 and of 64
# services: wall time, processor time and memory. The programs take turns; a time is the median of so many runs. Times depend on what else the
# machine does. Prints the rows of the tables of bench/README.md. It is no test.
# Usage: bench/threads.sh [PROGRAM [RUNS]]   (needs cargo, python3 and GNU time, and without PROGRAM rt, which proves and builds the program)
set -e
top=$(cd "$(dirname "$0")/.." && pwd)
work=$(mktemp -d)
trap 'rm -rf "$work"' EXIT
runs=${2:-9}
if [ $# -gt 0 ]; then
    program=$(realpath "$1")
else
    (cd "$top/crates/qprop" && rt run -- step < /dev/null > /dev/null)
    program=$top/crates/qprop/out/qprop
fi
cargo build --release --offline --quiet --manifest-path "$top/bench/whole/Cargo.toml" --target-dir "$work/target"
plain=$work/target/release/plain
python3 "$top/bench/whole/documents.py" "$work/documents"

same() { cmp <("$program" run < "$work/documents/$1.qprop") <("$plain" step < "$work/documents/$1.qprop") >&2; }
legs() { grep -c '^settle' "$work/documents/$1.qprop"; }
services() { grep -c -E '^(input|derived) ' "$work/documents/$1.qprop"; }
messages() { "$2" run --trace < "$work/documents/$1.qprop" | grep -c '^# log [^ ]* sent '; }
# times DOCUMENT COMMAND..: the lines of times.py as one.
times() {
    local document=$work/documents/$1.qprop
    shift
    python3 "$top/bench/whole/times.py" "$runs" "$document" "$@" | tr '\n' ' '
}

for name in busy_8 busy_64 small_8 small_64; do
    same "$name"
    read -r wall processor memory plain_wall plain_processor plain_memory logs_wall logs_processor _ step _ _ plain_step _ <<< "$(times "$name" \
        "$program run" "$plain run" "$plain run --log" "$program step" "$plain step")"
    legs=$(legs "$name")
    awk -v name="$name" -v legs="$legs" -v sent="$(messages "$name" "$program")" -v plain_sent="$(messages "$name" "$plain")" \
        -v wall="$wall" -v plain="$plain_wall" -v logs="$logs_wall" 'BEGIN {
        printf "| `%s` | %d | %d | %d | %.0f | %.0f | %.2f | %.2f |\n", name, legs, sent, plain_sent, wall, plain, wall / plain, wall / logs }' >> "$work/walls"
    awk -v name="$name" -v processor="$processor" -v plain="$plain_processor" -v logs="$logs_processor" -v memory="$memory" \
        -v plain_memory="$plain_memory" 'BEGIN {
        printf "| `%s` | %.0f | %.0f | %.2f | %.2f | %d | %d |\n", name, processor, plain, processor / plain, processor / logs, memory, plain_memory
        }' >> "$work/processors"
    # What `run` takes more than `step`: in legs of one change that is the start, the polls and the end of threads.
    [[ $name == small_* ]] || continue
    awk -v name="$name" -v legs="$legs" -v services="$(services "$name")" -v wall="$wall" -v step="$step" -v plain="$plain_wall" \
        -v plain_step="$plain_step" 'BEGIN {
        leg = 1000 * (wall - step) / legs; plain_leg = 1000 * (plain - plain_step) / legs
        printf "| `%s` | %.1f | %.0f | %.0f | %.0f | %.0f |\n", name, step, leg, leg / services, plain_leg, plain_leg / services }' >> "$work/starts"
done

echo "| Document | Legs | Messages | Messages of plain | Wall ms | Wall ms of plain | Of plain | Of plain with logs |"
echo "|---|---|---|---|---|---|---|---|"
cat "$work/walls"
echo
echo "| Document | Processor ms | Processor ms of plain | Of plain | Of plain with logs | Peak KiB | Peak KiB of plain |"
echo "|---|---|---|---|---|---|---|"
cat "$work/processors"
echo
echo "| Document | Wall ms of step | More by run, µs a leg | µs a service | More in plain, µs a leg | µs a service |"
echo "|---|---|---|---|---|---|"
cat "$work/starts"
