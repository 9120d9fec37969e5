#!/bin/bash
# Times trees, words and folds: as this repository's program makes them, and by the same algorithms
# in plain Rust. The first word is the number of passes.
set -e
cd "$(dirname "$0")/.."
passes=${1:-3}
folder=$(mktemp -d)
trap 'rm -rf "$folder"' EXIT
(cd crates/commit_bench && rt run > "$folder/log" 2>&1) || { cat "$folder/log"; exit 1; }
cp crates/commit_bench/out/commit_bench "$folder/proved"
rustc -O -C target-cpu=x86-64-v2 -o "$folder/plain" bench/commitments.rs
for work in "digests 18" "tree 18" "encode 13" "encode 15" "encode 17" "folds 13" "folds 15" "folds 17"; do
    for pass in $(seq "$passes"); do
        for name in proved plain; do
            TIMEFORMAT="$work, $name: %U seconds"
            time "$folder/$name" $work > "$folder/$name.out"
        done
        cmp "$folder/proved.out" "$folder/plain.out"
    done
done
