//! The subject against the original, on document 01's domain: denominators that are powers of two up to 1,024, at most 1,000,000 observations,
//! no refusal. Everything that both have is compared after every insert.
pub mod ckmses;
pub mod histograms;
pub mod stores;
pub mod streams;

use crate::random::{Kind, Random, KINDS};
use crate::Tally;
use model::Fraction;
use quantiles::greenwald_khanna::Stream;

/// A mismatch, in words.
pub type Verdict = Result<(), String>;

fn float([num, den]: Fraction) -> f64 {
    f64::from(num) / f64::from(den)
}

fn same<T: PartialEq + std::fmt::Debug>(what: &str, ours: T, original: T) -> Verdict {
    if ours == original {
        return Ok(());
    }
    Err(format!("{what}: {ours:?}, the original has {original:?}"))
}

/// Slots that were opened and never held are zero, and freed ones are.
fn rest_is_zero<T: Default + PartialEq>(what: &str, rest: &[T]) -> Verdict {
    match rest.iter().position(|x| *x != T::default()) {
        None => Ok(()),
        Some(i) => Err(format!("{what}: free place {i} behind what is held is not zero")),
    }
}

/// Fractions of the domain, in lowest terms or not, from 0 to 1.
fn phi(random: &mut Random) -> Fraction {
    let den = 1 << random.below(11);
    [random.within(0, den) as u32, den as u32]
}

/// Every sequence over 0 .. `values` of `length` symbols, one after another.
fn sequences(values: u32, length: usize) -> impl Iterator<Item = Vec<u32>> {
    let count = u64::from(values).pow(length as u32);
    (0..count).map(move |mut k| {
        (0..length)
            .map(|_| {
                let v = (k % u64::from(values)) as u32;
                k /= u64::from(values);
                v
            })
            .collect()
    })
}

/// All fractions num/den with num/den below `limit_num`/`limit_den` or equal to it, for each denominator.
fn fractions(dens: &[u32], allowed: fn(Fraction) -> bool) -> Vec<Fraction> {
    let all = dens.iter().flat_map(|&den| (1..=den).map(move |num| [num, den]));
    all.filter(|&f| allowed(f)).collect()
}

const QUARTERS: [Fraction; 5] = [[0, 1], [1, 4], [1, 2], [3, 4], [4, 4]];

/// The band as the original takes it from a float logarithm, against the whole-number rule, for every difference up to `end`.
pub fn bands(tally: &mut Tally, end: usize) -> Verdict {
    for p in 0..end {
        same(&format!("band of p - delta = {p}"), model::stream::band(p as u128, 0) as usize, Stream::<u32>::band(0, p))?;
        tally.inputs += 1;
    }
    for k in 20..33 {
        for p in (1usize << k) - 1_000..(1 << k) + 1_000 {
            same(&format!("band of p - delta = {p}"), model::stream::band(p as u128, 0) as usize, Stream::<u32>::band(0, p))?;
            tally.inputs += 1;
        }
    }
    Ok(())
}

/// The kind is part of what a run prints.
pub fn kinds() -> &'static [Kind] {
    &KINDS
}
