#!/bin/sh
# Reads documents of growing size with `qprop check`, `central` and `step`, and prints how many bytes of each they do in a second. It is no test.
# Each document has 62 inputs, a sum of two of them, and legs of 1,000 new values.
cd "$(dirname "$0")/.." || exit 1
(cd crates/qprop && rt run -- step </dev/null >/dev/null) || exit 1
program=crates/qprop/out/qprop
document=$(mktemp) || exit 1
trap 'rm -f "$document"' EXIT
echo "word bytes seconds bytes_per_second"
for kib in 64 128 256 512 1023; do
    awk -v most=$((kib * 1024)) 'BEGIN {
        for (i = 0; i < 62; i++) { line = sprintf("input price%d : int = %d\n", i, i); bytes += length(line); printf "%s", line }
        line = "derived total : int rank 1 = price0 + price61\nsettle\n"; bytes += length(line); printf "%s", line
        for (i = 0; ; i++) {
            line = sprintf("set price%d = %d\n", i % 62, i)
            if (i % 1000 == 999) line = line "settle\n"
            if (bytes + length(line) > most) exit
            bytes += length(line); printf "%s", line
        }
    }' > "$document"
    bytes=$(wc -c < "$document")
    for word in check central step; do
        start=$(date +%s%N)
        "$program" "$word" < "$document" > /dev/null || exit 1
        end=$(date +%s%N)
        awk -v word="$word" -v bytes="$bytes" -v nanos=$((end - start)) 'BEGIN { printf "%s %d %.3f %d\n", word, bytes, nanos / 1e9, bytes * 1e9 / nanos }'
    done
done
