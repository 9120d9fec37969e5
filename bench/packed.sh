#!/bin/bash
# Times the kernels of packed words: products, products with one element, a transpose, sums by buckets
# and inner products beside the same forms in plain Rust, and all lanes of words at once beside the
# same work element by element. The first word is the number of passes.
set -e
cd "$(dirname "$0")/.."
passes=${1:-3}
folder=$(mktemp -d)
trap 'rm -rf "$folder"' EXIT
(cd crates/packed_bench && rt run > "$folder/log" 2>&1) || { cat "$folder/log"; exit 1; }
cp crates/packed_bench/out/packed_bench "$folder/proved"
rustc --edition 2021 -O -C target-cpu=x86-64-v2 -o "$folder/plain" bench/packed.rs
for work in "products 1000 10000" "multiples 1000 20000" "transposes 1 200000" "columns 1000 10000" \
    "inner_products 1000 10000"; do
    for pass in $(seq "$passes"); do
        for name in proved plain; do
            TIMEFORMAT="$work, $name: %U seconds"
            time "$folder/$name" $work > "$folder/$name.out"
        done
        cmp "$folder/proved.out" "$folder/plain.out"
    done
done
for step in b1-sums b8-sums b32-sums b128-sums b1-products b8-products b32-products b128-products \
    b1-folds b8-folds b32-folds b128-folds; do
    for words in 4 1024; do
        rounds=$((2000000 / words))
        for way in words elements; do
            TIMEFORMAT="$step on $words words, $rounds times, by $way: %U seconds"
            time "$folder/proved" "$way-$step" "$words" "$rounds" > "$folder/$way.out"
        done
        cmp "$folder/words.out" "$folder/elements.out"
    done
done
