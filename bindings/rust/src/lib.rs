//! Noise floors that an instrument can be trusted with: the Greenwald-Khanna stream, the histogram and the CKMS store of the crate
//! [quantiles 0.7.1](https://crates.io/crates/quantiles), over functions that are proved.
//!
//! - **Every call ends with an answer or a numbered [`Refusal`].** Nothing panics, and no caller has to test anything first. After a refusal
//!   the state and all lent memory stand as before.
//! - **All memory is lent by the caller**, and a state is a few plain words that anyone may store. Nothing in either is trusted: each call tests
//!   that what it is given is sound, and refuses it as [`Refusal::Damaged`] otherwise.
//! - **The quantile is bounded.** From a fresh stream with the error ε, n observations accepted, the φ-quantile is an accepted observation
//!   whose rank among all of them, sorted, lies from max(1, r − e − 1) to max(1, r + e), with r = ⌊φn⌋ and e = ⌊εn⌋.
//!
//! ```
//! use stelomavunt::{greenwald_khanna::Stream, Entry, Fraction, Refusal};
//!
//! # fn main() -> Result<(), Refusal> {
//! let mut list = [Entry::default(); 512];
//! let mut stream = Stream::open(Fraction { num: 1, den: 128 }, &mut list)?;
//! for intensity in 0..10_000 {
//!     stream.insert(&mut list, intensity)?;
//! }
//! let floor = stream.quantile(&list, Fraction { num: 1, den: 10 })?;
//! assert!((920..=1_078).contains(&floor));
//! # Ok(())
//! # }
//! ```
//!
//! Those who come from the original may like [`owned`] better, where a stream has its own memory.
#![no_std]
#![deny(unsafe_code)]
#![warn(missing_docs)]

pub mod ckms;
#[allow(unsafe_code)]
mod ffi;
pub mod greenwald_khanna;
pub mod histogram;
pub mod owned;
mod words;

/// An entry of a summary.
#[repr(C)]
#[derive(Clone, Copy, Default, PartialEq, Eq, Debug)]
pub struct Entry {
    /// An observation.
    pub v: u32,
    /// How many ranks lie between the entry before and this one.
    pub g: u32,
    /// How unsure the rank of this one is.
    pub delta: u32,
}

/// A fraction of whole numbers, lowest terms not required. A denominator from 1 to 65,536 is allowed; anything else is refused where it is used.
#[repr(C)]
#[derive(Clone, Copy, PartialEq, Eq, Debug)]
pub struct Fraction {
    /// The numerator.
    pub num: u32,
    /// The denominator.
    pub den: u32,
}

/// Why a call gives no answer, with the number of the refusal table. After it all lent memory and the state stand as before the call.
///
/// ```
/// use stelomavunt::{greenwald_khanna::Stream, Entry, Fraction, Refusal};
///
/// let refused = Stream::open(Fraction { num: 501, den: 1_000 }, &mut [Entry::default(); 8]).unwrap_err();
/// assert_eq!(refused, Refusal::Epsilon);
/// assert_eq!(refused as u8, 2);
/// ```
#[non_exhaustive]
#[derive(Clone, Copy, PartialEq, Eq, Debug)]
#[repr(u8)]
pub enum Refusal {
    /// A lent list has a length that is not allowed, or two lists do not fit each other.
    Slots = 1,
    /// The error fraction is outside its range, or its denominator is not allowed.
    Epsilon = 2,
    /// The block size is outside its range.
    Block = 3,
    /// The state, with the lent lists, is not sound.
    Damaged = 4,
    /// The state has taken all the observations that it can.
    Count = 5,
    /// Every slot of the lent list is taken.
    Full = 6,
    /// The fraction asked for is outside 0 to 1, or its denominator is not allowed.
    Phi = 7,
    /// Nothing was accepted yet.
    Empty = 8,
    /// There are no bounds.
    BoundsEmpty = 9,
    /// There are too many bounds.
    BoundsMany = 10,
    /// A bound is smaller than the one before.
    BoundsOrder = 11,
    /// The scan file breaks its layout.
    File = 12,
}

impl core::fmt::Display for Refusal {
    fn fmt(&self, f: &mut core::fmt::Formatter<'_>) -> core::fmt::Result {
        f.write_str(match self {
            Refusal::Slots => {
                "a lent list has the wrong length: lend 1 to 4,096 entries, as many block places as entries, one count more than bounds"
            }
            Refusal::Epsilon => "the error is not allowed: above 0 and at most 1/2 for a stream, below 1 for a store, the denominator at most 65,536",
            Refusal::Block => "the block size is not allowed: take 1 to 4,096",
            Refusal::Damaged => "state and lent lists do not belong together, or were altered: hand in what the call before left, or open anew",
            Refusal::Count => "1,000,000,000 observations were taken: open anew",
            Refusal::Full => "every slot is taken: lend a longer list at opening, or take a larger error",
            Refusal::Phi => "the fraction is not allowed: take one from 0 to 1 with a denominator of at most 65,536",
            Refusal::Empty => "nothing was accepted yet: insert first",
            Refusal::BoundsEmpty => "there are no bounds: give at least one",
            Refusal::BoundsMany => "there are more than 1,024 bounds: give fewer",
            Refusal::BoundsOrder => "a bound is smaller than the one before: sort them",
            Refusal::File => "the scan file breaks its layout: write it anew",
        })
    }
}

impl core::error::Error for Refusal {}
