//! What the dividers are compared on and timed over.

use crate::plain::LIMIT;

/// A xorshift generator: the same seed gives the same numbers.
pub struct Random(u64);

impl Random {
    pub fn new(seed: u64) -> Self {
        // The state may be any number but 0.
        Random(seed.wrapping_mul(0x9e37_79b9_7f4a_7c15).max(1))
    }

    pub fn any(&mut self) -> u64 {
        self.0 ^= self.0 << 13;
        self.0 ^= self.0 >> 7;
        self.0 ^= self.0 << 17;
        self.0
    }

    /// A number below `end`, which is not 0.
    pub fn below(&mut self, end: u64) -> u64 {
        ((u128::from(self.any()) * u128::from(end)) >> 64) as u64
    }

    /// A number of any size: each count of bits is as likely as another.
    fn of_any_size(&mut self) -> u64 {
        self.any() >> self.below(64)
    }

    fn list(&mut self, length: usize, end: u64) -> Vec<u64> {
        (0..length).map(|_| self.below(end)).collect()
    }
}

pub struct Input {
    pub total: u64,
    pub weights: Vec<u64>,
}

/// Weights of every kind, up to 600 of them, and a total that suits them or not.
pub fn mixed(random: &mut Random) -> Input {
    let longest = if random.below(2) == 0 { 20 } else { 600 };
    let length = random.below(longest + 1) as usize;
    let weights = match random.below(10) {
        0 => random.list(length, 10),
        1 | 2 => random.list(length, 2_000_000),
        // All the same.
        3 | 4 => vec![random.of_any_size() >> 8; length],
        // Few values, so that many remainders are the same.
        5 => {
            let values = [random.below(1_000_000), random.below(1_000_000), 0];
            (0..length)
                .map(|_| values[random.below(3) as usize])
                .collect()
        }
        // Mostly, or all, 0.
        6 => (0..length)
            .map(|_| random.below(8).saturating_sub(6))
            .collect(),
        7 => vec![0; length.min(20)],
        8 => near_limit(random, length),
        // Up to 2^64 - 1.
        _ => (0..length)
            .map(|_| {
                if random.below(8) == 0 {
                    u64::MAX
                } else {
                    random.of_any_size()
                }
            })
            .collect(),
    };
    let sum: u128 = weights.iter().copied().map(u128::from).sum();
    let largest = (u128::from(LIMIT) / sum.max(1)) as u64;
    let total = match random.below(8) {
        0 => random.below(3),
        1 | 2 => random.below(length as u64 + 2),
        3 | 4 => random.below(20_000_000),
        5 => random.of_any_size(),
        6 => random.below(largest + 1),
        // The largest total that is divided, or one less or more.
        _ => (largest + random.below(3)).saturating_sub(1),
    };
    Input { total, weights }
}

/// Weights that add up to nearly 2^63 - 1, to just that, or to a little more.
fn near_limit(random: &mut Random, length: usize) -> Vec<u64> {
    let Some(others) = length.checked_sub(1) else {
        return Vec::new();
    };
    let sum = LIMIT - 2 + random.below(5);
    let mut weights = random.list(others, sum / length as u64 + 1);
    weights.push(sum - weights.iter().sum::<u64>());
    weights
}

/// Inputs of one length that are timed together.
pub struct Set {
    pub name: &'static str,
    pub inputs: Vec<Input>,
}

impl Set {
    /// 200 lists of 512 weights, and more of fewer: with a few short lists the processor would
    /// learn by heart which way each branch goes.
    fn new(name: &'static str, length: usize, input: impl FnMut(u64) -> Input) -> Self {
        Set {
            name,
            inputs: (0..102_400 / length as u64).map(input).collect(),
        }
    }
}

/// Weights below 2,000,000 and totals of 1 to 20,000,000.
pub fn plain(random: &mut Random, length: usize) -> Set {
    Set::new("plain", length, |_| Input {
        total: 1 + random.below(20_000_000),
        weights: random.list(length, 2_000_000),
    })
}

/// Totals of up to 100,000,000,000 cents, and weights that add up to at most 20,000,000.
pub fn money(random: &mut Random, length: usize) -> Set {
    Set::new("money", length, |_| Input {
        total: 1 + random.below(100_000_000_000),
        weights: random.list(length, 20_000_000 / length as u64 + 1),
    })
}

/// One unit among equal weights that add up to nearly 2^63. All remainders are the same, so that
/// bisection has to halve the whole sum down to 1, which takes about 63 passes over the sheet.
pub fn tied(length: usize) -> Set {
    Set::new("worst case", length, |k| Input {
        total: 1,
        weights: vec![LIMIT / length as u64 - k; length],
    })
}
