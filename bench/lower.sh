#!/usr/bin/env bash
# Times `bm3 lower` on an adder's table of 2^12 and of 2^16 rows, and the same work in plain Rust. The
# first word is the number of passes.
set -e
cd "$(dirname "$0")/.."
passes=${1:-3}
folder=$(mktemp -d)
trap 'rm -rf "$folder"' EXIT
./bm3 --version > "$folder/log" 2>&1 || { cat "$folder/log"; exit 1; }
rustc --edition 2021 -O -C target-cpu=x86-64-v2 -o "$folder/plain" bench/lower.rs
gamma=123456789012345678901234567890123456789
for log in 12 16; do
    mkdir "$folder/$log"
    "$folder/plain" make "$log" "$folder/$log"
    for pass in $(seq "$passes"); do
        TIMEFORMAT="2^$log rows, proved: %U seconds"
        time crates/binius_m3/out/binius_m3 lower "$folder/$log/T" "$folder/$log/W" 7 "$gamma" > "$folder/proved.out"
        TIMEFORMAT="2^$log rows, plain: %U seconds"
        time "$folder/plain" lower "$folder/$log" 7 "$gamma" > "$folder/plain.out"
        cmp "$folder/proved.out" "$folder/plain.out"
    done
done
