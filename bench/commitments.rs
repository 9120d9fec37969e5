//! The work of `crates/commit_bench` in plain Rust, by the same algorithms: trees, bare digests,
//! words by butterflies, and folds with their trees. SHA-256 has the form of the kit's crate.

#[allow(dead_code)]
#[path = "products.rs"]
mod products;

use products::Level;

const ROUND_CONSTANTS: [u32; 64] = [
    0x428a2f98, 0x71374491, 0xb5c0fbcf, 0xe9b5dba5, 0x3956c25b, 0x59f111f1, 0x923f82a4, 0xab1c5ed5,
    0xd807aa98, 0x12835b01, 0x243185be, 0x550c7dc3, 0x72be5d74, 0x80deb1fe, 0x9bdc06a7, 0xc19bf174,
    0xe49b69c1, 0xefbe4786, 0x0fc19dc6, 0x240ca1cc, 0x2de92c6f, 0x4a7484aa, 0x5cb0a9dc, 0x76f988da,
    0x983e5152, 0xa831c66d, 0xb00327c8, 0xbf597fc7, 0xc6e00bf3, 0xd5a79147, 0x06ca6351, 0x14292967,
    0x27b70a85, 0x2e1b2138, 0x4d2c6dfc, 0x53380d13, 0x650a7354, 0x766a0abb, 0x81c2c92e, 0x92722c85,
    0xa2bfe8a1, 0xa81a664b, 0xc24b8b70, 0xc76c51a3, 0xd192e819, 0xd6990624, 0xf40e3585, 0x106aa070,
    0x19a4c116, 0x1e376c08, 0x2748774c, 0x34b0bcb5, 0x391c0cb3, 0x4ed8aa4a, 0x5b9cca4f, 0x682e6ff3,
    0x748f82ee, 0x78a5636f, 0x84c87814, 0x8cc70208, 0x90befffa, 0xa4506ceb, 0xbef9a3f7, 0xc67178f2,
];

const FIRST: [u32; 8] = [
    0x6a09e667, 0xbb67ae85, 0x3c6ef372, 0xa54ff53a, 0x510e527f, 0x9b05688c, 0x1f83d9ab, 0x5be0cd19,
];

#[inline(always)]
fn next_word(w: &mut [u32; 16], place: usize) -> u32 {
    let (x, y) = (w[(place + 1) % 16], w[(place + 14) % 16]);
    let low = (x ^ x.rotate_right(11)).rotate_right(7) ^ (x >> 3);
    let high = (y ^ y.rotate_right(2)).rotate_right(17) ^ (y >> 10);
    w[place] = high
        .wrapping_add(w[(place + 9) % 16])
        .wrapping_add(low)
        .wrapping_add(w[place]);
    w[place]
}

#[inline(always)]
fn round(v: [u32; 8], k: u32, word: u32) -> [u32; 8] {
    let [a, b, c, d, e, f, g, h] = v;
    let high = (e ^ (e ^ e.rotate_right(14)).rotate_right(5)).rotate_right(6);
    let low = (a ^ (a ^ a.rotate_right(9)).rotate_right(11)).rotate_right(2);
    let temp = h
        .wrapping_add(high)
        .wrapping_add(g ^ (e & (f ^ g)))
        .wrapping_add(k)
        .wrapping_add(word);
    let other = low.wrapping_add(b ^ ((a ^ b) & (b ^ c)));
    [temp.wrapping_add(other), a, b, c, d.wrapping_add(temp), e, f, g]
}

fn compress(state: &mut [u32; 8], block: &[u8]) {
    let mut w = [0; 16];
    for t in 0..16 {
        w[t] = u32::from_be_bytes([block[4 * t], block[4 * t + 1], block[4 * t + 2], block[4 * t + 3]]);
    }
    let mut v = *state;
    for t in 0..16 {
        v = round(v, ROUND_CONSTANTS[t], w[t]);
    }
    for turn in 1..4 {
        for place in 0..16 {
            let word = next_word(&mut w, place);
            v = round(v, ROUND_CONSTANTS[16 * turn + place], word);
        }
    }
    for i in 0..8 {
        state[i] = state[i].wrapping_add(v[i]);
    }
}

fn sha256(bytes: &[u8]) -> [u8; 32] {
    let mut state = FIRST;
    let mut blocks = bytes.chunks_exact(64);
    for block in &mut blocks {
        compress(&mut state, block);
    }
    let rest = blocks.remainder();
    let mut last = [0; 128];
    last[..rest.len()].copy_from_slice(rest);
    last[rest.len()] = 0x80;
    let len = if rest.len() < 56 { 64 } else { 128 };
    last[len - 8..len].copy_from_slice(&(8 * bytes.len() as u64).to_be_bytes());
    for block in last[..len].chunks_exact(64) {
        compress(&mut state, block);
    }
    let mut digest = [0; 32];
    for i in 0..8 {
        digest[4 * i..4 * i + 4].copy_from_slice(&state[i].to_be_bytes());
    }
    digest
}

fn leaf_bytes(leaf: &[u8; 32]) -> [u8; 33] {
    let mut bytes = [0; 33];
    bytes[1..].copy_from_slice(leaf);
    bytes
}

fn node_bytes(left: &[u8; 32], right: &[u8; 32]) -> [u8; 65] {
    let mut bytes = [1; 65];
    bytes[1..33].copy_from_slice(left);
    bytes[33..].copy_from_slice(right);
    bytes
}

struct Tree {
    leaves: Vec<[u8; 32]>,
    digests: Vec<[u8; 32]>,
}

impl Tree {
    fn build(leaves: &[[u8; 32]]) -> Tree {
        let mut digests = Vec::with_capacity(2 * leaves.len());
        for leaf in leaves {
            digests.push(sha256(&leaf_bytes(leaf)));
        }
        for j in 0..leaves.len() - 1 {
            digests.push(sha256(&node_bytes(&digests[2 * j], &digests[2 * j + 1])));
        }
        Tree {
            leaves: leaves.to_vec(),
            digests,
        }
    }

    fn root(&self) -> [u8; 32] {
        self.digests[2 * self.leaves.len() - 2]
    }
}

fn digests(log: u32) -> [u8; 32] {
    let mut leaf = [0; 33];
    let mut node = [1; 65];
    for _ in 0..1 << log {
        let digest = sha256(&leaf);
        leaf[1..].copy_from_slice(&digest);
        let digest = sha256(&node);
        node[1..33].copy_from_slice(&digest);
    }
    sha256(&node)
}

/// By the powers of the multiplicative group: the inverse is the power 2^128 - 2.
fn inverse(x: u128) -> u128 {
    let mut result = 1;
    let mut square = x;
    for _ in 1..128 {
        square = square.times(square);
        result = square.times(result);
    }
    result
}

struct Basis {
    points: Vec<u128>,
    log_len: u32,
}

impl Basis {
    fn new(log_len: u32) -> Basis {
        let mut tops: Vec<u128> = Vec::new();
        let vanish = |tops: &[u128], level: usize, x: u128| {
            tops[..level].iter().fold(x, |value, top| value.times(value ^ top))
        };
        for i in 0..log_len as usize {
            let top = vanish(&tops, i, 1 << i);
            tops.push(top);
        }
        let mut points = Vec::new();
        for i in 0..log_len as usize {
            for j in 0..log_len {
                points.push(vanish(&tops, i, 1 << j).times(inverse(tops[i])));
            }
        }
        Basis { points, log_len }
    }

    fn hat(&self, round: u32, position: u64) -> u128 {
        let mut sum = 0;
        for j in 0..self.log_len {
            if (position >> j) % 2 == 1 {
                sum ^= self.points[(round * self.log_len + j) as usize];
            }
        }
        sum
    }

    fn encode_block(&self, values: &mut [u128], level: u32, block: u64) {
        if level == 0 {
            return;
        }
        let below = level - 1;
        let point = self.hat(below, block << level);
        let half = values.len() / 2;
        let (low, high) = values.split_at_mut(half);
        for i in 0..low.len() {
            let second = high[i];
            let sum = low[i] ^ point.times(second);
            low[i] = sum;
            high[i] = sum ^ second;
        }
        self.encode_block(low, below, 2 * block);
        self.encode_block(high, below, 2 * block + 1);
    }

    fn encode(&self, values: &[u128], log_rate: u32) -> Vec<u128> {
        let log = values.len().ilog2();
        let mut word = Vec::with_capacity(values.len() << log_rate);
        for block in 0..1 << log_rate {
            let done = word.len();
            word.extend_from_slice(values);
            self.encode_block(&mut word[done..], log, block);
        }
        word
    }
}

fn fold_word(basis: &Basis, round: u32, word: &[u128], r: u128) -> Vec<u128> {
    let half = word.len() / 2;
    let mut made = Vec::with_capacity(half);
    for p in 0..half {
        let x0 = basis.hat(round, (2 * p as u64) << round);
        let (f0, f1) = (word[2 * p], word[2 * p + 1]);
        let sum = f0 ^ f1;
        let even = f0 ^ x0.times(sum);
        made.push(even ^ r.times(even ^ sum));
    }
    made
}

fn tree_of(word: &[u128]) -> Tree {
    let half = word.len() / 2;
    let mut leaves = Vec::with_capacity(half);
    for p in 0..half {
        let mut leaf = [0; 32];
        leaf[..16].copy_from_slice(&word[2 * p].to_le_bytes());
        leaf[16..].copy_from_slice(&word[2 * p + 1].to_le_bytes());
        leaves.push(leaf);
    }
    Tree::build(&leaves)
}

fn folded(values: Vec<u128>, log: u32) -> u128 {
    let basis = Basis::new(log + 2);
    let mut word = basis.encode(&values, 2);
    let mut trees = vec![tree_of(&word)];
    for j in 0..log {
        word = fold_word(&basis, j, &word, u128::from_le_bytes([j as u8 + 1; 16]));
        if j + 1 < log {
            trees.push(tree_of(&word));
        }
    }
    word[0]
}

fn main() {
    let words: Vec<String> = std::env::args().collect();
    let log: u32 = words[2].parse().unwrap();
    let table = || (0..1usize << log).map(|i| u128::from_le_bytes([(i % 251) as u8; 16])).collect::<Vec<u128>>();
    match words[1].as_str() {
        "digests" => println!("{:?}", digests(log)),
        "tree" => {
            let leaves: Vec<[u8; 32]> = (0..1usize << log).map(|i| [(i % 251) as u8; 32]).collect();
            println!("{:?}", Tree::build(&leaves).root());
        }
        "encode" => {
            let word = Basis::new(log + 2).encode(&table(), 2);
            println!("{}", word.iter().step_by(3).fold(0, |sum, value| sum ^ value));
        }
        _ => println!("{}", folded(table(), log)),
    }
}
