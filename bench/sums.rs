//! The work of `crates/sum_bench` in plain Rust, by the same forms: one pass over the tables a
//! round, points by products with bytes, folds and eq by a table of one factor's multiples.
//!
//! `sums WORK LOG` prints the same number as the program of that crate.

#[path = "products.rs"]
#[allow(dead_code)]
mod products;
use products::Level;

pub fn element(k: u64) -> u128 {
    let low = k.wrapping_mul(6364136223846793005).wrapping_add(1442695040888963407);
    let high = low.wrapping_mul(2862933555777941757).wrapping_add(3037000493);
    (high as u128) << 64 | low as u128
}

fn table(log: u32, seed: u64) -> Vec<u128> {
    (0..1 << log).map(|p| element(p ^ seed << 40)).collect()
}

fn point(log: u32) -> Vec<u128> {
    (0..log).map(|k| element(77 + k as u64)).collect()
}

pub struct Multiples(Vec<u128>);

impl Multiples {
    pub fn new(factor: u128) -> Multiples {
        let mut products = Vec::with_capacity(4096);
        for place in 0..16 {
            products.push(0);
            for bit in 0..8 {
                let step = factor.times(1 << (8 * place + bit));
                for k in 0..1 << bit {
                    products.push(products[256 * place + k] ^ step);
                }
            }
        }
        Multiples(products)
    }

    #[inline(always)]
    pub fn times(&self, value: u128) -> u128 {
        let table: &[u128; 4096] = self.0[..].try_into().unwrap();
        (0..16).fold(0, |sum, place| {
            sum ^ table[256 * place + (value >> (8 * place) & 255) as usize]
        })
    }
}

#[inline]
pub fn times_byte(value: u128, factor: u8) -> u128 {
    (0..16).fold(0, |sum, place| {
        sum ^ (((value >> (8 * place)) as u8).times(factor) as u128) << (8 * place)
    })
}

pub fn fold(table: &mut Vec<u128>, r: u128) {
    let half = table.len() / 2;
    if half >= 512 {
        let multiples = Multiples::new(r);
        for i in 0..half {
            table[i] = table[2 * i] ^ multiples.times(table[2 * i] ^ table[2 * i + 1]);
        }
    } else {
        for i in 0..half {
            table[i] = table[2 * i] ^ r.times(table[2 * i] ^ table[2 * i + 1]);
        }
    }
    table.truncate(half);
}

fn proved(log: u32) -> u128 {
    let mut tables = [table(log, 3), table(log, 5), table(log, 8)];
    let mut total = 0;
    for left in (1..=log).rev() {
        let mut sums = [0; 4];
        for p in 0..1 << (left - 1) {
            for (k, sum) in sums.iter_mut().enumerate() {
                let cell = |table: &Vec<u128>| {
                    let (low, high) = (table[2 * p], table[2 * p + 1]);
                    match k {
                        0 => low,
                        1 => high,
                        _ => low ^ times_byte(low ^ high, k as u8),
                    }
                };
                *sum ^= cell(&tables[0]).times(cell(&tables[1]).times(cell(&tables[2])));
            }
        }
        total = sums.iter().fold(total, |total, sum| total ^ sum);
        for table in &mut tables {
            fold(table, element(77 + left as u64));
        }
    }
    total
}

fn eq(log: u32) -> u128 {
    let mut table = vec![1];
    for x in point(log) {
        let many = table.len() >= 512;
        let multiples = Multiples::new(if many { x } else { 0 });
        for i in 0..table.len() {
            let high = if many { multiples.times(table[i]) } else { x.times(table[i]) };
            table[i] ^= high;
            table.push(high);
        }
    }
    table.iter().step_by(3).fold(0, |sum, value| sum ^ value)
}

fn extension(log: u32) -> u128 {
    let mut table = table(log, 3).clone();
    for x in point(log) {
        let half = table.len() / 2;
        for i in 0..half {
            table[i] = table[2 * i] ^ x.times(table[2 * i] ^ table[2 * i + 1]);
        }
        table.truncate(half);
    }
    table[0]
}

fn main() {
    let words: Vec<String> = std::env::args().collect();
    let log = words[2].parse().unwrap();
    let value = match words[1].as_str() {
        "prover" => proved(log),
        "eq" => eq(log),
        _ => extension(log),
    };
    println!("{value}");
}
