//! The work of `crates/packed_bench` in plain Rust, by the same forms: tables of the products of one
//! factor with each byte, buckets of bytes, and a transpose by halving blocks.
//!
//! `packed WORK LENGTH ROUNDS` prints the same number as the program of that crate.

#[path = "products.rs"]
#[allow(dead_code)]
mod products;
use products::Level;

fn element(k: u64) -> u128 {
    let low = k.wrapping_mul(6364136223846793005).wrapping_add(1442695040888963407);
    let high = low.wrapping_mul(2862933555777941757).wrapping_add(3037000493);
    (high as u128) << 64 | low as u128
}

fn list(length: u64, from: u64) -> Vec<u128> {
    (0..length).map(|k| element(k ^ from)).collect()
}

fn sum(values: &[u128]) -> u128 {
    values.iter().fold(0, |sum, value| sum ^ value)
}

struct Multiples(Vec<u128>);

impl Multiples {
    fn new(factor: u128) -> Multiples {
        let mut products = Vec::with_capacity(4096);
        for place in 0..16 {
            products.push(0);
            for bit in 0..8 {
                let step = factor.times(1 << (8 * place + bit));
                for k in 0..1 << bit {
                    products.push(products[256 * place + k] ^ step);
                }
            }
        }
        Multiples(products)
    }

    #[inline(always)]
    fn times(&self, value: u128) -> u128 {
        let table: &[u128; 4096] = self.0[..].try_into().unwrap();
        (0..16).fold(0, |sum, place| {
            sum ^ table[256 * place + (value >> (8 * place) & 255) as usize]
        })
    }
}

const CLEAR: [u128; 7] = [
    0x5555_5555_5555_5555_5555_5555_5555_5555,
    0x3333_3333_3333_3333_3333_3333_3333_3333,
    0x0f0f_0f0f_0f0f_0f0f_0f0f_0f0f_0f0f_0f0f,
    0x00ff_00ff_00ff_00ff_00ff_00ff_00ff_00ff,
    0x0000_ffff_0000_ffff_0000_ffff_0000_ffff,
    0x0000_0000_ffff_ffff_0000_0000_ffff_ffff,
    0x0000_0000_0000_0000_ffff_ffff_ffff_ffff,
];

fn transpose(rows: &mut [u128; 128]) {
    for k in 0..7 {
        for u in 0..128 {
            if u >> k & 1 == 0 {
                let beside = u + (1 << k);
                let moved = ((rows[u] >> (1 << k)) ^ rows[beside]) & CLEAR[k];
                rows[u] ^= moved << (1 << k);
                rows[beside] ^= moved;
            }
        }
    }
}

fn columns(buckets: &mut [u128], weights: &[u128], words: &[u128]) -> [u128; 128] {
    let buckets: &mut [u128; 4096] = buckets.try_into().unwrap();
    buckets.fill(0);
    for (weight, word) in weights.iter().zip(words) {
        for place in 0..16 {
            buckets[256 * place + (word >> (8 * place) & 255) as usize] ^= weight;
        }
    }
    let mut all = [0; 128];
    for place in 0..16 {
        for bit in (0..8).rev() {
            let half = 1 << bit;
            let mut total = 0;
            for b in 0..half {
                let upper = buckets[256 * place + half + b];
                total ^= upper;
                buckets[256 * place + b] ^= upper;
            }
            all[8 * place + bit] = total;
        }
    }
    all
}

fn work(name: &str, length: u64, rounds: u64) -> u128 {
    let mut values = list(length, 0);
    let others = list(length, 1 << 20);
    let mut buckets = vec![0; 4096];
    let factor = element(7);
    let mut total = 0;
    match name {
        "products" | "multiples" => {
            for _ in 0..rounds {
                if name == "products" {
                    for value in &mut values {
                        *value = value.times(factor);
                    }
                } else {
                    let table = Multiples::new(factor);
                    for value in &mut values {
                        *value = table.times(*value);
                    }
                }
            }
            sum(&values)
        }
        "transposes" => {
            let mut rows: [u128; 128] = std::array::from_fn(|u| element(u as u64));
            for _ in 0..rounds {
                transpose(&mut rows);
                rows[0] ^= rows[5];
            }
            sum(&rows)
        }
        "columns" => {
            for _ in 0..rounds {
                total ^= sum(&columns(&mut buckets, &values, &others));
            }
            total
        }
        _ => {
            for _ in 0..rounds {
                let sums = columns(&mut buckets, &values, &others);
                total ^= (0..128).fold(0, |sum, u| sum ^ sums[u].times(1 << u));
            }
            total
        }
    }
}

fn main() {
    let words: Vec<String> = std::env::args().collect();
    let number = |k: usize| words.get(k).and_then(|word| word.parse().ok()).unwrap_or(1);
    println!("{}", work(&words[1], number(2), number(3)));
}
