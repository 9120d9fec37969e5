//! The products of `crates/tower_bench` in plain Rust, by the same form: three products for each
//! level, in words of just the level's width, down to bytes by exponents and powers.

/// The product at level 3 by the definition, for the tables.
const fn by_definition(level: u32, a: u32, b: u32) -> u32 {
    if level == 0 {
        return a & b;
    }
    let width = 1 << (level - 1);
    let mask = (1 << width) - 1;
    let generator = if level == 1 { 1 } else { 1 << (1 << (level - 2)) };
    let (a0, a1, b0, b1) = (a & mask, a >> width, b & mask, b >> width);
    let highs = by_definition(level - 1, a1, b1);
    let cross = by_definition(level - 1, a0, b1) ^ by_definition(level - 1, a1, b0);
    let high = cross ^ by_definition(level - 1, highs, generator);
    (high << width) | (by_definition(level - 1, a0, b0) ^ highs)
}

const fn powers() -> [u8; 1025] {
    let mut table = [0; 1025];
    let mut power = 1;
    let mut i = 0;
    while i < 510 {
        table[i] = power as u8;
        power = by_definition(3, 19, power);
        i += 1;
    }
    table
}

const fn exponents() -> [u16; 256] {
    let mut table = [512; 256];
    let mut i = 0;
    while i < 255 {
        table[POWERS[i] as usize] = i as u16;
        i += 1;
    }
    table
}

const fn carried() -> [u8; 256] {
    let mut table = [0; 256];
    let mut i = 0;
    while i < 256 {
        table[i] = by_definition(3, i as u32, 16) as u8;
        i += 1;
    }
    table
}

static POWERS: [u8; 1025] = powers();
static EXPONENTS: [u16; 256] = exponents();
static CARRIED: [u8; 256] = carried();

pub trait Level: Copy {
    fn plus(self, other: Self) -> Self;
    fn times(self, other: Self) -> Self;
    fn carried(self) -> Self;
}

trait Halves: Copy {
    type Half: Level;
    fn low(self) -> Self::Half;
    fn high(self) -> Self::Half;
    fn joined(high: Self::Half, low: Self::Half) -> Self;
}

impl Level for u8 {
    fn plus(self, other: u8) -> u8 {
        self ^ other
    }

    fn times(self, other: u8) -> u8 {
        POWERS[EXPONENTS[self as usize] as usize + EXPONENTS[other as usize] as usize]
    }

    fn carried(self) -> u8 {
        CARRIED[self as usize]
    }
}

macro_rules! level {
    ($whole:ty, $half:ty, $width:literal) => {
        impl Halves for $whole {
            type Half = $half;

            fn low(self) -> $half {
                self as $half
            }

            fn high(self) -> $half {
                (self >> $width) as $half
            }

            fn joined(high: $half, low: $half) -> $whole {
                (high as $whole) << $width | low as $whole
            }
        }

        impl Level for $whole {
            fn plus(self, other: $whole) -> $whole {
                self ^ other
            }

            fn times(self, other: $whole) -> $whole {
                product_by_halves(self, other)
            }

            fn carried(self) -> $whole {
                carried_by_halves(self)
            }
        }
    };
}

level!(u16, u8, 8);
level!(u32, u16, 16);
level!(u64, u32, 32);
level!(u128, u64, 64);

#[inline(always)]
fn carried_by_halves<F: Halves>(a: F) -> F {
    let (low, high) = (a.low(), a.high());
    F::joined(low.plus(high.carried()), high)
}

#[inline(always)]
fn product_by_halves<F: Halves>(a: F, b: F) -> F {
    let (a_low, a_high, b_low, b_high) = (a.low(), a.high(), b.low(), b.high());
    let lows = a_low.times(b_low);
    let highs = a_high.times(b_high);
    let sums = a_low.plus(a_high).times(b_low.plus(b_high));
    F::joined(
        sums.plus(lows).plus(highs).plus(highs.carried()),
        lows.plus(highs),
    )
}

fn main() {
    let word = std::env::args().nth(1);
    let rounds: u64 = word.and_then(|word| word.parse().ok()).unwrap_or(1);
    let mut values: [u128; 8] = std::array::from_fn(|i| u128::from_le_bytes([i as u8 + 1; 16]));
    for _ in 0..rounds {
        for i in 0..8 {
            values[i] = values[i].times(values[(i + 1) % 8]);
        }
    }
    println!("{}", values.iter().fold(0, |sum, value| sum ^ value));
}
