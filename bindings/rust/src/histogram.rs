//! The histogram: how many observations fell into each of the bins that the caller's bounds cut. Bounds and counts are lent.
use crate::{ffi, words, Refusal};

/// The upper bound of a bin, or a bound that is asked for. +Inf is above every finite bound, and equals itself.
#[derive(Clone, Copy, PartialEq, Eq, PartialOrd, Ord, Debug)]
pub enum Bound {
    /// A finite bound.
    Finite(u32),
    /// +Inf, the bound of the last bin.
    PosInf,
}

/// A histogram's own words. Bounds and counts are lent, and each call is handed them again.
///
/// ```
/// use stelomavunt::histogram::{Bound, Histogram};
/// # fn main() -> Result<(), stelomavunt::Refusal> {
/// let bounds = [10, 100];
/// let mut counts = [0; 3];
/// let mut histogram = Histogram::open(&bounds, &mut counts)?;
/// histogram.insert(&bounds, &mut counts, 99)?;
/// histogram.insert(&bounds, &mut counts, 100)?;
/// assert_eq!(counts, [0, 2, 0]);
/// assert_eq!(histogram.sum(&bounds, &counts)?, Some(199));
/// assert_eq!(histogram.total_between(&bounds, &counts, Bound::Finite(10), Bound::Finite(100))?, 2);
/// # Ok(())
/// # }
/// ```
#[derive(Clone, Copy, PartialEq, Eq, Debug)]
pub struct Histogram {
    words: words::Histogram,
}

impl Histogram {
    /// A fresh histogram over 1 to 1,024 bounds that never fall, and one count more than bounds; all counts become zero.
    ///
    /// # Errors
    ///
    /// [`Refusal::BoundsEmpty`], [`Refusal::BoundsMany`], [`Refusal::BoundsOrder`], [`Refusal::Slots`], in this order.
    pub fn open(bounds: &[u32], counts: &mut [u32]) -> Result<Histogram, Refusal> {
        Ok(Histogram { words: ffi::histogram_open(bounds, counts)? })
    }

    /// One observation more: it goes to the first bound that is at least as large, else to +Inf.
    ///
    /// # Errors
    ///
    /// [`Refusal::Slots`], [`Refusal::Damaged`], [`Refusal::Count`] at 1,000,000,000 observations, in this order.
    pub fn insert(&mut self, bounds: &[u32], counts: &mut [u32], v: u32) -> Result<(), Refusal> {
        self.words = ffi::histogram_insert(self.words, bounds, counts, v)?;
        Ok(())
    }

    /// How many observations were accepted.
    ///
    /// # Errors
    ///
    /// [`Refusal::Slots`], [`Refusal::Damaged`], in this order; so of every call below.
    pub fn count(&self, bounds: &[u32], counts: &[u32]) -> Result<u32, Refusal> {
        ffi::histogram_count(self.words, bounds, counts)
    }

    /// Their sum; none exactly while there are none.
    ///
    /// # Errors
    ///
    /// [`Refusal::Slots`], [`Refusal::Damaged`], in this order.
    pub fn sum(&self, bounds: &[u32], counts: &[u32]) -> Result<Option<u64>, Refusal> {
        ffi::histogram_sum(self.words, bounds, counts)
    }

    /// How many are in bins with bound ≤ `upper`.
    ///
    /// # Errors
    ///
    /// [`Refusal::Slots`], [`Refusal::Damaged`], in this order.
    pub fn total_below(&self, bounds: &[u32], counts: &[u32], upper: Bound) -> Result<u32, Refusal> {
        ffi::histogram_total_below(self.words, bounds, counts, upper)
    }

    /// How many are in bins with bound > `lower`.
    ///
    /// # Errors
    ///
    /// [`Refusal::Slots`], [`Refusal::Damaged`], in this order.
    pub fn total_above(&self, bounds: &[u32], counts: &[u32], lower: Bound) -> Result<u32, Refusal> {
        ffi::histogram_total_above(self.words, bounds, counts, lower)
    }

    /// How many are in bins with `lower` < bound ≤ `upper`; 0 where `lower` ≥ `upper`.
    ///
    /// # Errors
    ///
    /// [`Refusal::Slots`], [`Refusal::Damaged`], in this order.
    pub fn total_between(&self, bounds: &[u32], counts: &[u32], lower: Bound, upper: Bound) -> Result<u32, Refusal> {
        ffi::histogram_total_between(self.words, bounds, counts, lower, upper)
    }

    /// The counts of those bins, as a part of the lent counts: nothing is copied.
    ///
    /// # Errors
    ///
    /// [`Refusal::Slots`], [`Refusal::Damaged`], in this order.
    pub fn bins<'a>(&self, bounds: &[u32], counts: &'a [u32], lower: Bound, upper: Bound) -> Result<&'a [u32], Refusal> {
        let (start, length) = ffi::histogram_bins(self.words, bounds, counts, lower, upper)?;
        Ok(&counts[start..start + length])
    }

    /// The state, to be stored: the count, 1 if there is a sum else 0, the sum.
    pub fn words(&self) -> [u64; 3] {
        let words::Histogram { count, has_sum, sum } = self.words;
        [count, has_sum, sum]
    }

    /// The state of stored [`words`](Histogram::words). Any words are taken: those that fit no histogram, or are not sound with bounds and
    /// counts, are refused by every call.
    pub fn from_words(w: [u64; 3]) -> Histogram {
        let [count, has_sum, sum] = w;
        Histogram { words: words::Histogram { count, has_sum, sum } }
    }
}
