//! The checking of two statements in plain Rust, beside `bm3 check` on the same files: a table with a
//! virtual column of each form, whose values are kept in words as the program keeps them, and a
//! witness file of 2^24 bytes.
//!
//! `forms make CASE FOLDER` writes the files T and W of a case, `forms check CASE FOLDER` judges them.

use std::fs;

const LOG_ROWS: u32 = 15;
const FILE_BYTES: usize = 1 << 24;

const FORMS: &str = "table t {
  column a : b1 x 32;
  virtual up = shl(a, 5, 1);
  virtual down = shr(a, 5, 3);
  virtual round = rol(a, 5, 7);
  virtual word = pack(a, 5);
  virtual one = project(a, 5, 4);
  virtual mixed = linear(a + up + down + round);
  virtual same = linear(word);
  zero bits : mixed + a + up + down + round;
  zero squares : one * one + one;
  zero words : word + same;
}
";

fn digits(bytes: usize, mut state: u64) -> String {
    let mut text = String::new();
    for _ in 0..bytes {
        state = state.wrapping_mul(6364136223846793005).wrapping_add(1442695040888963407);
        text += &format!("{:02x}", state >> 56);
    }
    text
}

fn file_tables() -> String {
    let columns: String = (0..16).map(|k| format!("  column c{k} : b1;\n")).collect();
    format!("table t {{\n{columns}}}\n")
}

fn file_witness() -> String {
    let columns: String =
        (0..16).map(|k| format!(",\"c{k}\":\"{}\"", digits(1 << 17, k))).collect();
    let text = format!("{{\"t\":{{\"rows\":1048576{columns}}}}}");
    let spaces = " ".repeat(FILE_BYTES - text.len());
    text + &spaces
}

/// The bytes of the column of this name.
fn column(witness: &str, name: &str) -> Vec<u8> {
    let key = format!("\"{name}\":\"");
    let rest = &witness[witness.find(&key).unwrap() + key.len()..];
    let text = rest[..rest.find('"').unwrap()].as_bytes();
    let digit = |d: u8| (d as char).to_digit(16).unwrap() as u8;
    text.chunks(2).map(|pair| digit(pair[0]) << 4 | digit(pair[1])).collect()
}

/// Values of one level in words of 128 bits, the first in the lowest bits.
struct Column {
    level: u32,
    words: Vec<u128>,
}

impl Column {
    fn zeros(level: u32, count: usize) -> Column {
        Column { level, words: vec![0; (count << level).div_ceil(128)] }
    }

    fn of(level: u32, bytes: &[u8]) -> Column {
        let word = |part: &[u8]| part.iter().rev().fold(0, |word, byte| word << 8 | *byte as u128);
        Column { level, words: bytes.chunks(16).map(word).collect() }
    }

    fn place(&self, position: usize) -> (usize, u32) {
        let log = 7 - self.level;
        (position >> log, ((position & ((1 << log) - 1)) << self.level) as u32)
    }

    #[inline]
    fn get(&self, position: usize) -> u128 {
        let (word, bit) = self.place(position);
        self.words[word] >> bit & (u128::MAX >> (128 - (1u32 << self.level)))
    }

    #[inline]
    fn set(&mut self, position: usize, value: u128) {
        let (word, bit) = self.place(position);
        let old = self.get(position);
        self.words[word] ^= (old ^ value) << bit;
    }
}

fn filled(level: u32, count: usize, value: impl Fn(usize) -> u128) -> Column {
    let mut column = Column::zeros(level, count);
    for position in 0..count {
        column.set(position, value(position));
    }
    column
}

fn forms_satisfied(witness: &str) -> bool {
    let rows = 1usize << LOG_ROWS;
    let bits = 32 * rows;
    let a = Column::of(0, &column(witness, "a"));
    let up = filled(0, bits, |p| if p % 32 >= 1 { a.get(p - 1) } else { 0 });
    let down = filled(0, bits, |p| if p % 32 + 3 < 32 { a.get(p + 3) } else { 0 });
    let round = filled(0, bits, |p| a.get(p - p % 32 + (p % 32 + 25) % 32));
    let word = filled(5, rows, |p| (0..32).fold(0, |sum, u| sum ^ a.get(32 * p + u) << u));
    let one = filled(0, rows, |p| a.get(32 * p + 4));
    let mixed = filled(0, bits, |p| a.get(p) ^ up.get(p) ^ down.get(p) ^ round.get(p));
    let same = filled(5, rows, |p| word.get(p));
    let zero = |p| mixed.get(p) ^ a.get(p) ^ up.get(p) ^ down.get(p) ^ round.get(p) == 0;
    (0..bits).all(zero)
        && (0..rows).all(|p| one.get(p) & one.get(p) ^ one.get(p) == 0)
        && (0..rows).all(|p| word.get(p) ^ same.get(p) == 0)
}

fn file_read(witness: &str) -> bool {
    let columns: Vec<Column> =
        (0..16).map(|k| Column::of(0, &column(witness, &format!("c{k}")))).collect();
    columns.iter().all(|column| column.words.len() == 1 << 13)
}

fn main() {
    let words: Vec<String> = std::env::args().skip(1).collect();
    let folder = std::path::Path::new(&words[2]);
    let forms = words[1] == "forms";
    if words[0] == "make" {
        let bits = format!("{{\"t\":{{\"rows\":{},\"a\":\"{}\"}}}}\n", 1 << LOG_ROWS, digits(4 << LOG_ROWS, 7));
        let tables = if forms { FORMS.to_string() } else { file_tables() };
        fs::write(folder.join("T"), tables).unwrap();
        fs::write(folder.join("W"), if forms { bits } else { file_witness() }).unwrap();
        return;
    }
    let text = fs::read_to_string(folder.join("W")).unwrap();
    let satisfied = if forms { forms_satisfied(&text) } else { file_read(&text) };
    println!("{}", if satisfied { "satisfied" } else { "violated" });
}
