//! The factor of whole cents (docs/REFERENCE.md, 'Detune in cents'). Each entry is found by the rule in large
//! integers; no table is read.
use super::table::{row_16_cents, Refusal};

const OCTAVE: i32 = 1_200;

/// The entries found so far; 0 where none is.
pub struct Entries([u32; OCTAVE as usize]);

impl Entries {
    pub fn new() -> Self {
        Entries([0; OCTAVE as usize])
    }

    fn entry(&mut self, c: usize) -> u32 {
        if self.0[c] == 0 {
            self.0[c] = by_the_rule(c as u32);
        }
        self.0[c]
    }

    /// The entry over 2^30 times 2 to the whole octaves, these rounded downwards; the power by its bits. Nothing is rounded.
    pub fn factor(&mut self, cents: i32) -> Result<f64, Refusal> {
        row_16_cents(cents)?;
        let octaves = cents.div_euclid(OCTAVE);
        let above = cents.rem_euclid(OCTAVE);
        let power = f64::from_bits(((1_023 + octaves) as u64) << 52);
        Ok(self.entry(above as usize) as f64 / 1_073_741_824.0 * power)
    }
}

/// The f with f^1200 ≤ 2^(c + 36000) < (f + 1)^1200. A float says where the search begins.
fn by_the_rule(c: u32) -> u32 {
    let mut f = ((c as f64 / 1_200.0).exp2() * 1_073_741_824.0) as u32;
    while !power_is_at_most(f, c + 36_000) {
        f -= 1;
    }
    while power_is_at_most(f + 1, c + 36_000) {
        f += 1;
    }
    f
}

/// Whether f^1200 ≤ 2^exponent: its bits lie below that one, or it is that one alone.
fn power_is_at_most(f: u32, exponent: u32) -> bool {
    let power = power(f, 1_200);
    let unused = power.last().map_or(0, |word| word.leading_zeros());
    let bits = 64 * power.len() as u32 - unused;
    let ones: u32 = power.iter().map(|word| word.count_ones()).sum();
    bits <= exponent || bits == exponent + 1 && ones == 1
}

/// A number as words of 64 bits, the lowest first and the last one not 0.
type Large = Vec<u64>;

fn power(f: u32, exponent: u32) -> Large {
    if exponent == 0 {
        return vec![1];
    }
    let half = power(f, exponent / 2);
    let square = product(&half, &half);
    if exponent % 2 == 0 {
        square
    } else {
        product(&square, &[f as u64])
    }
}

fn product(a: &[u64], b: &[u64]) -> Large {
    let mut words = vec![0; a.len() + b.len()];
    for (i, x) in a.iter().enumerate() {
        let mut carry = 0;
        for (j, y) in b.iter().enumerate() {
            let sum = *x as u128 * *y as u128 + words[i + j] as u128 + carry;
            words[i + j] = sum as u64;
            carry = sum >> 64;
        }
        words[i + b.len()] = carry as u64;
    }
    while words.last() == Some(&0) {
        words.pop();
    }
    words
}

/// `replay factors`: a line `cents bits` for each accepted number of cents.
pub fn main() {
    let mut entries = Entries::new();
    for cents in -12_000..=12_000 {
        let factor = entries.factor(cents).expect("an accepted number of cents");
        println!("{cents} {:016X}", factor.to_bits());
    }
}
