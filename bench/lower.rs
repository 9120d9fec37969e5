//! `bm3 lower` on the table of an adder of 32 bits that pushes one summand and pulls the other, in plain
//! Rust on the same files: the witness is read and its digits decoded, each carry is judged bit by bit,
//! and the products of both sides are made row by row.
//!
//! `lower make LOG FOLDER` writes the files T and W of 2^LOG rows, `lower lower FOLDER ALPHA GAMMA` prints
//! what `bm3 lower` does.

use std::fs;

#[path = "products.rs"]
#[allow(dead_code)]
mod products;
use products::Level;

const TABLES: &str = "channel words : 1;
table adder {
  column a : b1 x 32;
  column b : b1 x 32;
  column cout : b1 x 32;
  virtual cin = shl(cout, 5, 1);
  virtual sum = linear(a + b + cin);
  virtual a32 = pack(a, 5);
  virtual b32 = pack(b, 5);
  virtual s32 = pack(sum, 5);
  zero carry : (a + cin) * (b + cin) + cin + cout;
  push words (a32);
  pull words (b32);
}
";

fn carries(a: u32, b: u32) -> u32 {
    let (mut carry, mut all) = (0, 0);
    for bit in 0..32 {
        let (x, y) = (a >> bit & 1, b >> bit & 1);
        carry = (x & y) | (carry & (x | y));
        all |= carry << bit;
    }
    all
}

fn digits(words: impl Iterator<Item = u32>) -> String {
    words.map(|word| word.to_le_bytes().map(|byte| format!("{byte:02x}")).concat()).collect()
}

fn witness(log: u32) -> String {
    let rows = 1u64 << log;
    let word = |row: u64| (row.wrapping_mul(6364136223846793005) >> 32) as u32;
    let pair = |row: u64| (word(row), word((row * 5 + 3) % rows));
    let a = digits((0..rows).map(|row| pair(row).0));
    let b = digits((0..rows).map(|row| pair(row).1));
    let cout = digits((0..rows).map(|row| carries(pair(row).0, pair(row).1)));
    format!("{{\"adder\":{{\"rows\":{rows},\"a\":\"{a}\",\"b\":\"{b}\",\"cout\":\"{cout}\"}}}}\n")
}

/// The words of a column.
fn column(witness: &str, name: &str) -> Vec<u32> {
    let key = format!("\"{name}\":\"");
    let rest = &witness[witness.find(&key).unwrap() + key.len()..];
    let digit = |d: u8| (d as char).to_digit(16).unwrap();
    rest[..rest.find('"').unwrap()]
        .as_bytes()
        .chunks(8)
        .map(|word| {
            let byte = |k: usize| digit(word[2 * k]) << 4 | digit(word[2 * k + 1]);
            (0..4).fold(0, |sum, k| sum | byte(k) << (8 * k))
        })
        .collect()
}

fn is_carried(a: u32, b: u32, cout: u32) -> bool {
    let cin = cout << 1;
    (0..32).all(|bit| {
        let at = |word: u32| word >> bit & 1;
        ((at(a) ^ at(cin)) & (at(b) ^ at(cin))) ^ at(cin) ^ at(cout) == 0
    })
}

fn product(column: &[u32], gamma: u128) -> u128 {
    column.iter().fold(1, |product: u128, word| product.times(gamma ^ *word as u128))
}

fn main() {
    let words: Vec<String> = std::env::args().skip(1).collect();
    if words[0] == "make" {
        let folder = std::path::Path::new(&words[2]);
        fs::write(folder.join("T"), TABLES).unwrap();
        fs::write(folder.join("W"), witness(words[1].parse().unwrap())).unwrap();
        return;
    }
    let text = fs::read_to_string(std::path::Path::new(&words[1]).join("W")).unwrap();
    let gamma: u128 = words[3].parse().unwrap();
    let [a, b, cout] = ["a", "b", "cout"].map(|name| column(&text, name));
    let carried = (0..a.len()).all(|row| is_carried(a[row], b[row], cout[row]));
    let (push, pull) = (product(&a, gamma), product(&b, gamma));
    println!("channel words push {push:#x} pull {pull:#x}");
    println!("{}", if carried && push == pull { "holds" } else { "fails" });
}
