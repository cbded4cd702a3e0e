#!/bin/sh
# Builds and runs two evaluators of `late < 20 and day < 2` over ROWS rows (10,000,000 if not said), the proved one and
# a straightforward one in Rust, and prints their times and the ratio. Status 1 if the ratio is above 1.5.
set -eu

rows=${1-10000000}
root=$(CDPATH='' cd -- "$(dirname -- "$0")/.." && pwd)
folder=$(mktemp -d)
trap 'rm -rf "$folder"' EXIT

rustc -O --edition 2021 -o "$folder/straightforward" "$root/bench/evaluate.rs"
(cd "$root/crates/bench_evaluate" && rt run -- 0) >"$folder/log" 2>&1 || { cat "$folder/log" >&2; exit 1; }
proved=$root/crates/bench_evaluate/out/bench_evaluate

if [ "$("$proved" "$rows")" != "$("$folder/straightforward" "$rows")" ]; then
    echo "the two programs differ in their counts" >&2
    exit 1
fi

# The processor's time of a program in seconds: the least of five runs.
least() {
    for run in 1 2 3 4 5; do
        { time -p "$1" "$rows" >"$folder/count"; } 2>&1 | awk '$1 == "user" { print $2 }'
    done | sort -n | head -n 1
}

proved_seconds=$(least "$proved")
straightforward_seconds=$(least "$folder/straightforward")
awk -v p="$proved_seconds" -v s="$straightforward_seconds" -v n="$rows" 'BEGIN {
    if (s == 0) { print "too few rows to measure"; exit 1 }
    printf "%d rows: proved %.2f s, straightforward %.2f s, ratio %.2f\n", n, p, s, p / s
    exit (p / s > 1.5)
}'
