//! The Greenwald-Khanna stream: quantiles of a scan of any length, in a list of entries that the caller lends.
use crate::{ffi, words, Entry, Fraction, Refusal};

/// A stream's own words. The entries stand in a lent list, which each call is handed again.
///
/// ```
/// use stelomavunt::{greenwald_khanna::Stream, Entry, Fraction, Refusal};
///
/// # fn main() -> Result<(), Refusal> {
/// let mut list = [Entry::default(); 6];
/// let mut stream = Stream::open(Fraction { num: 1, den: 4 }, &mut list)?;
/// for v in [30, 10, 20, 40, 25, 35] {
///     stream.insert(&mut list, v)?;
/// }
/// assert_eq!(stream.quantile(&list, Fraction { num: 1, den: 2 })?, 30);
/// assert_eq!(stream.n(&list)?, 6);
/// assert_eq!(stream.s(&list)?, 4);
/// assert_eq!(list[2], Entry { v: 30, g: 2, delta: 0 });
/// # Ok(())
/// # }
/// ```
#[derive(Clone, Copy, PartialEq, Eq, Debug)]
pub struct Stream {
    words: words::Stream,
}

impl Stream {
    /// A fresh stream with the error `epsilon`, 0 < ε ≤ 1/2, over a list of 1 to 4,096 entries, which all become zero.
    ///
    /// # Errors
    ///
    /// [`Refusal::Slots`], [`Refusal::Epsilon`], in this order.
    pub fn open(epsilon: Fraction, list: &mut [Entry]) -> Result<Stream, Refusal> {
        Ok(Stream { words: ffi::stream_open(epsilon, list)? })
    }

    /// One observation more.
    ///
    /// # Errors
    ///
    /// [`Refusal::Slots`], [`Refusal::Damaged`], [`Refusal::Count`] at 1,000,000,000 observations, [`Refusal::Full`] when every slot is
    /// taken, in this order.
    pub fn insert(&mut self, list: &mut [Entry], v: u32) -> Result<(), Refusal> {
        self.words = ffi::stream_insert(self.words, list, v)?;
        Ok(())
    }

    /// The `phi`-quantile, 0 ≤ φ ≤ 1.
    ///
    /// # Errors
    ///
    /// [`Refusal::Slots`], [`Refusal::Damaged`], [`Refusal::Phi`], [`Refusal::Empty`], in this order.
    pub fn quantile(&self, list: &[Entry], phi: Fraction) -> Result<u32, Refusal> {
        ffi::stream_quantile(self.words, list, phi)
    }

    /// p = ⌊2εn⌋.
    ///
    /// # Errors
    ///
    /// [`Refusal::Slots`], [`Refusal::Damaged`], in this order.
    pub fn p(&self, list: &[Entry]) -> Result<u32, Refusal> {
        ffi::stream_p(self.words, list)
    }

    /// How many observations were accepted.
    ///
    /// # Errors
    ///
    /// [`Refusal::Slots`], [`Refusal::Damaged`], in this order.
    pub fn n(&self, list: &[Entry]) -> Result<u32, Refusal> {
        ffi::stream_n(self.words, list)
    }

    /// How many entries are held: the first ones of the list.
    ///
    /// # Errors
    ///
    /// [`Refusal::Slots`], [`Refusal::Damaged`], in this order.
    pub fn s(&self, list: &[Entry]) -> Result<u32, Refusal> {
        ffi::stream_s(self.words, list)
    }

    /// The state, to be stored: the error's numerator and denominator, the observations accepted, the entries held.
    pub fn words(&self) -> [u32; 4] {
        let words::Stream { num, den, n, held } = self.words;
        [num, den, n, held]
    }

    /// The state of stored [`words`](Stream::words). Any words are taken: those that are not sound with the list are refused by every call.
    pub fn from_words(w: [u32; 4]) -> Stream {
        let [num, den, n, held] = w;
        Stream { words: words::Stream { num, den, n, held } }
    }
}
