//! Document 01 in plain Rust: what every call answers, on any words whatever, and what it leaves in the lent lists.
//!
//! It was written from the document, sentence by sentence, and not from the library that it judges: states are words, lists are copied, every
//! place is looked at, and sums are u128. It is slow on purpose.

pub mod ckms;
pub mod histogram;
pub mod store;
pub mod stream;

/// v, g, delta.
pub type Entry = [u32; 3];

/// Numerator, denominator.
pub type Fraction = [u32; 2];

/// A refusal's number in the table.
pub type Number = u32;

pub const SLOTS: Number = 1;
pub const EPSILON: Number = 2;
pub const BLOCK: Number = 3;
pub const DAMAGED: Number = 4;
pub const COUNT: Number = 5;
pub const FULL: Number = 6;
pub const PHI: Number = 7;
pub const EMPTY: Number = 8;
pub const BOUNDS_EMPTY: Number = 9;
pub const BOUNDS_MANY: Number = 10;
pub const BOUNDS_ORDER: Number = 11;

/// The most observations per state.
pub const OBSERVATIONS: u32 = 1_000_000_000;

/// "Fraction: numerator over denominator, denominator 1 to 65,536."
fn is_fraction([_, den]: Fraction) -> bool {
    (1..=65_536).contains(&den)
}

/// "Stream ε: 0 < ε ≤ 1/2."
pub fn is_epsilon(f @ [num, den]: Fraction) -> bool {
    is_fraction(f) && 0 < num && 2 * u128::from(num) <= u128::from(den)
}

/// "CKMS error: 0 < error < 1."
pub fn is_error(f @ [num, den]: Fraction) -> bool {
    is_fraction(f) && 0 < num && num < den
}

/// "φ and q: 0 to 1, both ends allowed."
pub fn is_phi(f @ [num, den]: Fraction) -> bool {
    is_fraction(f) && num <= den
}

/// "Slots lent: 1 to 4,096 entries."
fn slots_fit(slots: usize) -> bool {
    (1..=4_096).contains(&slots)
}

/// ⌊k · f · n⌋ of an allowed fraction.
fn floor(k: u128, [num, den]: Fraction, n: u32) -> u128 {
    k * u128::from(num) * u128::from(n) / u128::from(den)
}

/// "held is 0 exactly when n is; values never fall; each g ≥ 1; the g sum to n."
fn sound_entries(held: &[Entry], n: u32) -> bool {
    held.is_empty() == (n == 0)
        && held.windows(2).all(|w| w[0][0] <= w[1][0])
        && held.iter().all(|e| e[1] >= 1)
        && held.iter().map(|e| u128::from(e[1])).sum::<u128>() == u128::from(n)
}

/// What a list is after a call that held at most `most` entries: those held now, zeros in the slots freed, the rest as it was.
fn lay<T: Copy + Default>(list: &mut [T], held: &[T], most: usize) {
    list[..held.len()].copy_from_slice(held);
    list[held.len()..most].fill(T::default());
}

#[cfg(test)]
mod tests {
    use super::*;

    #[test]
    fn case_6() {
        assert!(is_epsilon([1, 2]) && is_epsilon([1, 65_536]));
        for f in [[501, 1_000], [0, 7], [1, 0], [1, 65_537]] {
            assert!(!is_epsilon(f));
        }
    }
}
