#!/bin/bash
# Times the provers of merges, shifted columns, constraints, products of flushes, claims on bits and
# ring switches: as this repository's program makes them, and by the same forms in plain Rust. The
# first word is the number of passes.
set -e
cd "$(dirname "$0")/.."
passes=${1:-3}
folder=$(mktemp -d)
trap 'rm -rf "$folder"' EXIT
(cd crates/walk_bench && rt run > "$folder/log" 2>&1) || { cat "$folder/log"; exit 1; }
cp crates/walk_bench/out/walk_bench "$folder/proved"
rustc --edition 2021 -O -C target-cpu=x86-64-v2 -o "$folder/plain" bench/walks.rs
for work in "merge 17" "shift 17" "zero 17" "product 16" "product 20" "bits 20" "packed 20" "switch 15"; do
    for pass in $(seq "$passes"); do
        for name in proved plain; do
            TIMEFORMAT="$work, $name: %U seconds"
            time "$folder/$name" $work > "$folder/$name.out"
        done
        cmp "$folder/proved.out" "$folder/plain.out"
    done
done
