#!/bin/bash
# Carries frames by hand between 64 nodes, a new value of one input after another: along a chain, through stacked diamonds and to a fan of
# readers. Prints how often memory is taken and how many instructions run for each message, by nodes and by the same protocol in plain Rust.
# Works on a copy of the repository in a folder of its own; the program's files are in bench/nodes. It is no test.
# Usage: bench/nodes.sh [FOLDER]   (needs rt, rustc, git and valgrind)
set -e
top=$(cd "$(dirname "$0")/.." && pwd)
work=${1:-$(mktemp -d)}
rm -rf "$work/repo"; git clone -q "$top" "$work/repo"; cd "$work/repo"
echo "node_speed: anyhow node_core propagation service_machine svc_expr svc_graph svc_value" >> crates.txt
(cd bench/nodes && find . -name '*.txt') | while read -r file; do
    mkdir -p "$(dirname "crates/node_speed/$file")"
    cp "bench/nodes/$file" "crates/node_speed/${file%.txt}"
done
rustc --edition 2021 -O -o "$work/plain" "$top/bench/nodes/plain.rs"
(cd crates/node_speed && rt run -- chain 1 > /dev/null)
cp crates/node_speed/out/node_speed "$work/nodes"

allocations() { valgrind "$@" 2>&1 | sed -n 's/.*total heap usage: \([0-9,]*\) allocs.*/\1/p' | tr -d ,; }
instructions() { valgrind --tool=callgrind --callgrind-out-file=/dev/null "$@" 2>&1 | sed -n 's/.*Collected : //p'; }

# What 100 changes more take, so that the births are not counted.
for shape in chain diamonds fan; do
    for program in nodes plain; do
        messages=$(($("$work/$program" $shape 200) - $("$work/$program" $shape 100)))
        taken=$(($(allocations "$work/$program" $shape 200) - $(allocations "$work/$program" $shape 100)))
        run=$(($(instructions "$work/$program" $shape 200) - $(instructions "$work/$program" $shape 100)))
        awk -v shape=$shape -v program=$program -v messages=$messages -v taken=$taken -v run=$run 'BEGIN {
            printf "%s, %s: %d messages, %.2f allocations and %.0f instructions for each\n", shape, program, messages, taken / messages, run / messages
        }'
    done
done
