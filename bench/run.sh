#!/bin/bash
# Times products of elements of 128 bits: as this repository's program makes them, and by the same
# form in plain Rust. The first word is the number of rounds, of eight products each.
set -e
cd "$(dirname "$0")/.."
rounds=${1:-1000000}
folder=$(mktemp -d)
trap 'rm -rf "$folder"' EXIT
(cd crates/tower_bench && rt run > "$folder/log" 2>&1) || { cat "$folder/log"; exit 1; }
cp crates/tower_bench/out/tower_bench "$folder/proved"
rustc --edition 2021 -O -C target-cpu=x86-64-v2 -o "$folder/plain" bench/products.rs
for pass in 1 2 3; do
    for name in proved plain; do
        TIMEFORMAT="$name: %U seconds for $rounds rounds of 8 products"
        time "$folder/$name" "$rounds" > "$folder/$name.out"
    done
    cmp "$folder/proved.out" "$folder/plain.out"
done
