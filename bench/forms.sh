#!/usr/bin/env bash
# Times `bm3 check` on a table with a virtual column of each form and on a witness file of 2^24
# bytes, and the same work in plain Rust.
set -e
cd "$(dirname "$0")/.."
folder=$(mktemp -d)
trap 'rm -rf "$folder"' EXIT
./bm3 --version > "$folder/log" 2>&1 || { cat "$folder/log"; exit 1; }
rustc --edition 2021 -O -C target-cpu=x86-64-v2 -o "$folder/plain" bench/forms.rs
for case in forms file; do
    mkdir "$folder/$case"
    "$folder/plain" make "$case" "$folder/$case"
    for _ in 1 2 3; do
        TIMEFORMAT="$case, proved: %U seconds"
        time crates/binius_m3/out/binius_m3 check "$folder/$case/T" "$folder/$case/W" > "$folder/proved.out"
        TIMEFORMAT="$case, plain: %U seconds"
        time "$folder/plain" check "$case" "$folder/$case" > "$folder/plain.out"
        cmp "$folder/proved.out" "$folder/plain.out"
    done
done
