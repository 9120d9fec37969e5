//! The work of `crates/walk_bench` in plain Rust, by the same forms: three claims on a column merged,
//! a claim on a shifted column, the carries of an adder, the product of a flush layer by layer,
//! claims on three columns of bits, by elements and by words, and the value of the bits of words
//! turned into one of the words, round by round with the same draws.
//!
//! `walks WORK LOG` prints the same number as the program of that crate.

#[path = "products.rs"]
#[allow(dead_code)]
mod products;
use products::Level;

#[path = "sums.rs"]
#[allow(dead_code)]
mod sums;
use sums::{element, fold, times_byte, Multiples};

fn bits(log: u32, seed: u64) -> Vec<u128> {
    let bit = |k: u64| (k ^ seed << 40).wrapping_mul(6364136223846793005) >> 63;
    (0..1 << log).map(|k| bit(k) as u128).collect()
}

fn point(vars: u32, seed: u64) -> Vec<u128> {
    (0..vars as u64).map(|k| element(seed + k)).collect()
}

fn eq_table(point: &[u128]) -> Vec<u128> {
    let mut table = vec![1];
    for &x in point {
        let many = table.len() >= 512;
        let multiples = Multiples::new(if many { x } else { 0 });
        for i in 0..table.len() {
            let high = if many { multiples.times(table[i]) } else { x.times(table[i]) };
            table[i] ^= high;
            table.push(high);
        }
    }
    table
}

fn extension(values: &[u128], point: &[u128]) -> u128 {
    let mut table = values.to_vec();
    for &x in point {
        let half = table.len() / 2;
        for i in 0..half {
            table[i] = table[2 * i] ^ x.times(table[2 * i] ^ table[2 * i + 1]);
        }
        table.truncate(half);
    }
    table[0]
}

/// All rounds of the sum of a form of some degree over tables, whose sum is claimed: each round's
/// values at 0 and 1 must add up to the claim. `first` is the first draw, and each is larger by 2.
/// Gives the values of the tables at the draws.
fn rounds(
    tables: &mut [Vec<u128>],
    degree: usize,
    mut claim: u128,
    first: u128,
    form: impl Fn(&[u128]) -> u128,
) -> Vec<u128> {
    let mut row = vec![0; tables.len()];
    let mut draw = first;
    while tables[0].len() > 1 {
        let mut sums = vec![0; degree + 1];
        for p in 0..tables[0].len() / 2 {
            for (k, sum) in sums.iter_mut().enumerate() {
                for (cell, table) in row.iter_mut().zip(tables.iter()) {
                    let (low, high) = (table[2 * p], table[2 * p + 1]);
                    *cell = match k {
                        0 => low,
                        1 => high,
                        _ => low ^ times_byte(low ^ high, k as u8),
                    };
                }
                *sum ^= form(&row);
            }
        }
        assert_eq!(sums[0] ^ sums[1], claim);
        claim = at(&sums, draw);
        for table in tables.iter_mut() {
            fold(table, draw);
        }
        draw += 2;
    }
    tables.iter().map(|table| table[0]).collect()
}

/// The polynomial with these values at 0, 1, .., at a point.
fn at(values: &[u128], x: u128) -> u128 {
    let mut sum = 0;
    for (i, value) in values.iter().enumerate() {
        let mut term = *value;
        for j in 0..values.len() {
            if j != i {
                term = term.times(x ^ j as u128).times(inverse((i ^ j) as u128));
            }
        }
        sum ^= term;
    }
    sum
}

fn inverse(x: u128) -> u128 {
    let mut power = x;
    let mut product = 1;
    for _ in 1..128 {
        power = power.times(power);
        product = product.times(power);
    }
    product
}

fn merge(log: u32) -> u128 {
    let column: Vec<u128> = (0..1 << log).map(element).collect();
    let points = [100, 200, 300].map(|seed| point(log, seed));
    let mu: u128 = 7;
    let mut claim = 0;
    let mut weights = vec![0; 1 << log];
    for point in points.iter().rev() {
        claim = extension(&column, point) ^ mu.times(claim);
        for (cell, value) in weights.iter_mut().zip(eq_table(point)) {
            *cell = value ^ mu.times(*cell);
        }
    }
    let finals = rounds(&mut [weights, column], 2, claim, 9, |row| row[0].times(row[1]));
    finals[1]
}

fn shift(log: u32) -> u128 {
    let source = bits(log, 1);
    let moved: Vec<u128> =
        (0..1 << log).map(|p| if p % 32 == 0 { 0 } else { source[p - 1] }).collect();
    let point = point(log, 100);
    let claim = extension(&moved, &point);
    let (low, high) = point.split_at(5);
    let weights = eq_table(low);
    let table = (0..32).map(|p| if p < 31 { weights[p + 1] } else { 0 }).collect();
    let part = |u: usize| -> Vec<u128> { source.iter().copied().skip(u).step_by(32).collect() };
    let parts = (0..32).map(|u| extension(&part(u), high)).collect();
    let finals = rounds(&mut [table, parts], 2, claim, 8, |row| row[0].times(row[1]));
    finals[1]
}

fn zero(log: u32) -> u128 {
    let [a, b, c] = [1, 2, 4].map(|seed| bits(log, seed));
    let carry = |p: usize| (a[p] ^ c[p]).times(b[p] ^ c[p]) ^ c[p];
    let d: Vec<u128> = (0..1 << log).map(carry).collect();
    let beta: u128 = 7;
    let coordinates: Vec<u128> = (1..=log as u128).map(|k| 7 + k).collect();
    let mut tables = [eq_table(&coordinates), vec![1; 1 << log], a, b, c, d];
    let first = 7 + log as u128 + 2;
    let finals = rounds(&mut tables, 4, 0, first, |row| {
        let value = (row[2] ^ row[4]).times(row[3] ^ row[4]) ^ row[4] ^ row[5];
        row[0].times(row[1].times(value ^ beta.times(0)))
    });
    finals[2..].iter().fold(0, |sum, value| sum ^ value)
}

/// The leaf of a row, where the step and the selector are these.
fn leaf(step: u128, selector: u128, tuple: &[u128], alpha: u128, gamma: u128) -> u128 {
    let collapsed = tuple.iter().rev().fold(0, |sum, &value| value ^ alpha.times(sum));
    step.times(selector).times(gamma ^ collapsed ^ 1) ^ 1
}

fn product(log: u32) -> u128 {
    let [a, b] = [0, 1 << 32].map(|k| (0..1 << log).map(|p| element(k + p)).collect::<Vec<_>>());
    let (alpha, gamma) = (element(100), element(200));
    let leaves = (0..1 << log).map(|p: usize| leaf(1, 1, &[a[p], b[p]], alpha, gamma));
    let mut layers = vec![leaves.collect::<Vec<_>>()];
    for layer in (0..log).rev() {
        let last = &layers[layers.len() - 1];
        let half = 1 << layer;
        layers.push((0..half).map(|p| last[p].times(last[p + half])).collect());
    }
    let mut claim = layers.pop().unwrap()[0];
    let mut point = vec![];
    // the draw that comes next but for the message before it
    let mut draw: u128 = 8;
    for layer in 0..log {
        let below = layers.pop().unwrap();
        let (low, high) = below.split_at(1 << layer);
        let mut tables = [eq_table(&point), low.to_vec(), high.to_vec()];
        let finals = rounds(&mut tables, 3, claim, draw, |row| row[0].times(row[1].times(row[2])));
        point = (0..layer as u128).map(|k| draw + 2 * k).collect();
        draw += 2 * layer as u128;
        claim = finals[1].times(1 ^ draw) ^ finals[2].times(draw);
        point.push(draw);
        draw += 2;
    }
    let mut tables = [eq_table(&point), vec![1; 1 << log], vec![1; 1 << log], a, b];
    let finals = rounds(&mut tables, 4, claim, draw, |row| {
        row[0].times(leaf(row[1], row[2], &row[3..], alpha, gamma))
    });
    finals[3] ^ finals[4]
}

fn batch(log: u32) -> u128 {
    let columns = [1, 2, 4].map(|seed| bits(log - 2, seed));
    let points = [0, 1, 2].map(|j| (0..log as u128 - 2).map(|k| 100 * j + k).collect::<Vec<_>>());
    let lambda: u128 = 7;
    let (mut claim, mut power) = (0, 1);
    let (mut weights, mut table) = (vec![], vec![]);
    for (column, point) in columns.iter().zip(&points) {
        claim ^= extension(column, point).times(power);
        weights.extend(eq_table(point).into_iter().map(|value| value.times(power)));
        table.extend(column);
        power = power.times(lambda);
    }
    weights.resize(1 << log, 0);
    table.resize(1 << log, 0);
    let finals = rounds(&mut [weights, table], 2, claim, 9, |row| row[0].times(row[1]));
    finals[1]
}

/// The sums of the weights of the words that have each bit, by buckets of bytes.
fn columns(weights: &[u128], words: &[u128]) -> Vec<u128> {
    let mut buckets = vec![0; 4096];
    let table: &mut [u128; 4096] = (&mut buckets[..]).try_into().unwrap();
    for (weight, word) in weights.iter().zip(words) {
        for place in 0..16 {
            table[256 * place + (word >> (8 * place) & 255) as usize] ^= weight;
        }
    }
    let mut all = vec![0; 128];
    for place in 0..16 {
        for bit in (0..8).rev() {
            let half = 1 << bit;
            for b in 0..half {
                let upper = table[256 * place + half + b];
                all[8 * place + bit] ^= upper;
                table[256 * place + b] ^= upper;
            }
        }
    }
    all
}

/// 128 bits in each word, the lowest first.
fn words_of(bits: &[u128]) -> Vec<u128> {
    let word = |bits: &[u128]| bits.iter().rev().fold(0, |word, bit| word << 1 | bit);
    bits.chunks(128).map(word).collect()
}

/// For each byte of a word the sums of the weights of its bits.
fn sums_by_byte(weights: &[u128]) -> Vec<[u128; 256]> {
    let sums = |weights: &[u128]| {
        let mut sums = [0; 256];
        for k in 1..256usize {
            let low = k.trailing_zeros() as usize;
            sums[k] = sums[k & (k - 1)] ^ weights[low];
        }
        sums
    };
    weights.chunks(8).map(sums).collect()
}

/// The same as `batch` from the packed table: the first seven rounds over 128 sums for each claim.
fn packed_batch(log: u32) -> u128 {
    let columns_of_words = [1, 2, 4].map(|seed| words_of(&bits(log - 2, seed)));
    let points = [0, 1, 2].map(|j| (0..log as u128 - 2).map(|k| 100 * j + k).collect::<Vec<_>>());
    let lambda: u128 = 7;
    let (mut claim, mut power) = (0, 1);
    let (mut parts, mut high_parts) = (vec![], vec![]);
    for (words, point) in columns_of_words.iter().zip(&points) {
        let high = eq_table(&point[7..]);
        let sums = columns(&high, words);
        claim ^= extension(&sums, &point[..7]).times(power);
        parts.push(eq_table(&point[..7]).into_iter().map(|value| value.times(power)).collect());
        parts.push(sums);
        high_parts.push(high);
        power = power.times(lambda);
    }
    let products = |row: &[u128]| row.chunks(2).fold(0, |sum, pair| sum ^ pair[0].times(pair[1]));
    let finals = rounds(&mut parts, 2, claim, 9, products);
    let (mut weights, mut words) = (vec![], vec![]);
    let by_byte = sums_by_byte(&eq_table(&(0..7).map(|k| 9 + 2 * k).collect::<Vec<_>>()));
    let folded = |word: &u128| (0..16).fold(0, |sum, k| sum ^ by_byte[k][(word >> (8 * k) & 255) as usize]);
    for (j, high) in high_parts.iter().enumerate() {
        let low = Multiples::new(finals[2 * j]);
        weights.extend(high.iter().map(|value| low.times(*value)));
        words.extend(columns_of_words[j].iter().map(folded));
    }
    weights.resize(1 << (log - 7), 0);
    words.resize(1 << (log - 7), 0);
    let claim = products(&finals);
    let finals = rounds(&mut [weights, words], 2, claim, 23, |row| row[0].times(row[1]));
    finals[1]
}

/// Element u has the bits u of all elements.
fn transposed(columns: &[u128]) -> Vec<u128> {
    let row = |u: usize| (0..128).fold(0, |row, v| row | (columns[v] >> u & 1) << v);
    (0..128).map(row).collect()
}

fn switch(log: u32) -> u128 {
    let words: Vec<u128> = (0..1 << log).map(element).collect();
    let point = point(log + 7, 100);
    let (low, high) = point.split_at(7);
    let value = extension(&columns(&eq_table(high), &words), low);
    let message = columns(&eq_table(high), &words);
    let rows = transposed(&message);
    assert_eq!(extension(&transposed(&rows), low), value);
    let draws: Vec<u128> = (8..15).collect();
    let weights = eq_table(&draws);
    let under = |cell: u128| {
        let mut rest = cell;
        let mut total = 0;
        for weight in &weights {
            if rest % 2 == 1 {
                total ^= weight;
            }
            rest /= 2;
        }
        total
    };
    let table = eq_table(high).into_iter().map(under).collect();
    let claim = extension(&rows, &draws);
    let finals = rounds(&mut [table, words], 2, claim, 16, |row| row[0].times(row[1]));
    finals[1]
}

fn main() {
    let words: Vec<String> = std::env::args().collect();
    let log = words[2].parse().unwrap();
    let value = match words[1].as_str() {
        "merge" => merge(log),
        "shift" => shift(log),
        "product" => product(log),
        "bits" => batch(log),
        "packed" => packed_batch(log),
        "switch" => switch(log),
        _ => zero(log),
    };
    println!("{value}");
}
