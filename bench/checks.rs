//! The judging of three statements in plain Rust, beside `bm3 check` on the same files: the witness is
//! read and its digits decoded, and each row's value is computed from an expression tree in the
//! least field that has the column.
//!
//! `checks make CASE FOLDER` writes the files T and W of a case, `checks check CASE FOLDER` judges them.

use std::fs;

#[path = "products.rs"]
#[allow(dead_code)]
mod products;
use products::Level;

/// A statement: columns of a level, a number of rows, and terms whose sum is to be 0.
struct Case {
    name: &'static str,
    level: u32,
    columns: usize,
    log_rows: u32,
    terms: fn() -> Vec<Vec<usize>>,
}

const CASES: [Case; 3] = [
    Case {
        name: "bits",
        level: 0,
        columns: 16,
        log_rows: 20,
        terms: || (0..8).map(|k| vec![2 * k, 2 * k + 1]).collect(),
    },
    Case {
        name: "words",
        level: 4,
        columns: 1,
        log_rows: 20,
        terms: || vec![vec![0; 8]; 2],
    },
    Case {
        name: "blocks",
        level: 7,
        columns: 1,
        log_rows: 17,
        terms: || vec![vec![0; 3]; 2],
    },
];

enum Expr {
    Column(usize),
    Sum(Vec<Expr>),
    Product(Vec<Expr>),
}

fn expression(case: &Case) -> Expr {
    let product = |term: Vec<usize>| Expr::Product(term.into_iter().map(Expr::Column).collect());
    Expr::Sum((case.terms)().into_iter().map(product).collect())
}

fn tables(case: &Case) -> String {
    let mut text = String::from("table t {\n");
    for k in 0..case.columns {
        text += &format!("  column c{k} : b{};\n", 1 << case.level);
    }
    let product = |term: &Vec<usize>| {
        let names: Vec<String> = term.iter().map(|k| format!("c{k}")).collect();
        names.join(" * ")
    };
    let terms: Vec<String> = (case.terms)().iter().map(product).collect();
    text + &format!("  zero z : {};\n}}\n", terms.join(" + "))
}

/// Random values. The later half of several columns repeats the earlier, so that the sum is 0.
fn witness(case: &Case) -> String {
    let bytes = ((1usize << case.log_rows) << case.level).div_ceil(8);
    let mut state = 7u64;
    let columns: Vec<String> = (0..case.columns.div_ceil(2))
        .map(|_| {
            let mut text = String::new();
            for _ in 0..bytes {
                state = state.wrapping_mul(6364136223846793005).wrapping_add(1442695040888963407);
                text += &format!("{:02x}", state >> 56);
            }
            text
        })
        .collect();
    let mut text = format!("{{\"t\":{{\"rows\":{}", 1u32 << case.log_rows);
    for k in 0..case.columns {
        text += &format!(",\"c{k}\":\"{}\"", columns[k % columns.len()]);
    }
    text + "}}\n"
}

/// The bytes of each column, in the order of the columns.
fn columns(case: &Case, witness: &str) -> Vec<Vec<u8>> {
    let digit = |d: u8| (d as char).to_digit(16).unwrap() as u8;
    (0..case.columns)
        .map(|k| {
            let key = format!("\"c{k}\":\"");
            let rest = &witness[witness.find(&key).unwrap() + key.len()..];
            let text = rest[..rest.find('"').unwrap()].as_bytes();
            text.chunks(2).map(|pair| digit(pair[0]) << 4 | digit(pair[1])).collect()
        })
        .collect()
}

/// An element, and how it stands among the bytes of a column.
trait Element: Copy + PartialEq {
    const ZERO: Self;
    fn add(self, other: Self) -> Self;
    fn mul(self, other: Self) -> Self;
    fn read(column: &[u8], row: usize) -> Self;
}

impl Element for bool {
    const ZERO: bool = false;
    fn add(self, other: bool) -> bool {
        self ^ other
    }
    fn mul(self, other: bool) -> bool {
        self & other
    }
    fn read(column: &[u8], row: usize) -> bool {
        column[row / 8] >> (row % 8) & 1 == 1
    }
}

macro_rules! element {
    ($type:ty, $size:literal) => {
        impl Element for $type {
            const ZERO: $type = 0;
            fn add(self, other: $type) -> $type {
                self ^ other
            }
            fn mul(self, other: $type) -> $type {
                self.times(other)
            }
            fn read(column: &[u8], row: usize) -> $type {
                <$type>::from_le_bytes(column[$size * row..$size * (row + 1)].try_into().unwrap())
            }
        }
    };
}

element!(u16, 2);
element!(u128, 16);

fn value<F: Element>(expr: &Expr, columns: &[Vec<u8>], row: usize) -> F {
    match expr {
        Expr::Column(k) => F::read(&columns[*k], row),
        Expr::Sum(parts) => {
            parts.iter().fold(F::ZERO, |sum, part| sum.add(value(part, columns, row)))
        }
        Expr::Product(parts) => {
            let first = value(&parts[0], columns, row);
            parts[1..].iter().fold(first, |product: F, part| product.mul(value(part, columns, row)))
        }
    }
}

fn judge<F: Element>(case: &Case, columns: &[Vec<u8>]) -> bool {
    let expr = expression(case);
    (0..1usize << case.log_rows).all(|row| value::<F>(&expr, columns, row) == F::ZERO)
}

fn main() {
    let words: Vec<String> = std::env::args().skip(1).collect();
    let case = CASES.iter().find(|case| case.name == words[1]).expect("a case: bits, words, blocks");
    let folder = std::path::Path::new(&words[2]);
    if words[0] == "make" {
        fs::write(folder.join("T"), tables(case)).unwrap();
        fs::write(folder.join("W"), witness(case)).unwrap();
        return;
    }
    let text = fs::read_to_string(folder.join("W")).unwrap();
    let columns = columns(case, &text);
    let satisfied = match case.level {
        0 => judge::<bool>(case, &columns),
        4 => judge::<u16>(case, &columns),
        _ => judge::<u128>(case, &columns),
    };
    println!("{}", if satisfied { "satisfied" } else { "violated" });
}
