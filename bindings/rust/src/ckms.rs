//! CKMS: a store of entries in blocks, and the summary over it that keeps the last value and the running mean. Entries and block lengths are lent.
use crate::{ffi, words, Entry, Fraction, Refusal};

/// A store's own words. The entries and the lengths of their blocks stand in two lent lists of the same length.
///
/// ```
/// use stelomavunt::{ckms::Store, Entry, Fraction, Refusal};
///
/// # fn main() -> Result<(), Refusal> {
/// let (mut list, mut blocks) = ([Entry::default(); 8], [0; 8]);
/// let mut store = Store::open(Fraction { num: 1, den: 2 }, 2, &mut list, &mut blocks)?;
/// for v in [10, 20, 30, 40, 50, 45] {
///     store.insert(&mut list, &mut blocks, v)?;
/// }
/// assert_eq!(list[4], Entry { v: 45, g: 1, delta: 2 });
/// assert_eq!(store.len(&list, &blocks)?, 6);
/// # Ok(())
/// # }
/// ```
#[derive(Clone, Copy, PartialEq, Eq, Debug)]
pub struct Store {
    words: words::Store,
}

impl Store {
    /// A fresh store with the error 0 < error < 1 and blocks of 1 to 4,096 entries, over 1 to 4,096 entries and as many block places, which all
    /// become zero.
    ///
    /// # Errors
    ///
    /// [`Refusal::Slots`], [`Refusal::Epsilon`], [`Refusal::Block`], in this order.
    pub fn open(error: Fraction, block: u32, list: &mut [Entry], blocks: &mut [u32]) -> Result<Store, Refusal> {
        Ok(Store { words: ffi::store_open(error, block, list, blocks)? })
    }

    /// One observation more. The store does not compress itself.
    ///
    /// # Errors
    ///
    /// [`Refusal::Slots`], [`Refusal::Damaged`], [`Refusal::Count`] at 1,000,000,000 observations, [`Refusal::Full`] when every slot is
    /// taken, in this order.
    pub fn insert(&mut self, list: &mut [Entry], blocks: &mut [u32], v: u32) -> Result<(), Refusal> {
        self.words = ffi::store_insert(self.words, list, blocks, v)?;
        Ok(())
    }

    /// Merges neighbours as far as the error allows, then joins blocks that fit into one. Fewer than 3 entries stay as they are.
    ///
    /// # Errors
    ///
    /// [`Refusal::Slots`], [`Refusal::Damaged`], in this order.
    pub fn compress(&mut self, list: &mut [Entry], blocks: &mut [u32]) -> Result<(), Refusal> {
        self.words = ffi::store_compress(self.words, list, blocks)?;
        Ok(())
    }

    /// How many entries are held: the first ones of the list.
    ///
    /// # Errors
    ///
    /// [`Refusal::Slots`], [`Refusal::Damaged`], in this order.
    pub fn len(&self, list: &[Entry], blocks: &[u32]) -> Result<u32, Refusal> {
        ffi::store_len(self.words, list, blocks)
    }

    /// Whether none is held.
    ///
    /// # Errors
    ///
    /// [`Refusal::Slots`], [`Refusal::Damaged`], in this order.
    pub fn is_empty(&self, list: &[Entry], blocks: &[u32]) -> Result<bool, Refusal> {
        ffi::store_is_empty(self.words, list, blocks)
    }

    /// The rank and the value for `q`, 0 ≤ q ≤ 1.
    ///
    /// # Errors
    ///
    /// [`Refusal::Slots`], [`Refusal::Damaged`], [`Refusal::Phi`], [`Refusal::Empty`], in this order.
    pub fn query(&self, list: &[Entry], blocks: &[u32], q: Fraction) -> Result<(u32, u32), Refusal> {
        ffi::store_query(self.words, list, blocks, q)
    }

    /// The state, to be stored: the error's numerator and denominator, the observations accepted, the entries held, the block size, the blocks.
    pub fn words(&self) -> [u32; 6] {
        let words::Store { num, den, n, held, block, blocks } = self.words;
        [num, den, n, held, block, blocks]
    }

    /// The state of stored [`words`](Store::words). Any words are taken: those that are not sound with the lists are refused by every call.
    pub fn from_words(w: [u32; 6]) -> Store {
        let [num, den, n, held, block, blocks] = w;
        Store { words: words::Store { num, den, n, held, block, blocks } }
    }
}

/// A CKMS's own words: a store with blocks of 2,048 that compresses itself, the last value and the running mean.
///
/// ```
/// use stelomavunt::{ckms::CKMS, Entry, Fraction, Refusal};
///
/// # fn main() -> Result<(), Refusal> {
/// let (mut list, mut blocks) = ([Entry::default(); 2_000], [0; 2_000]);
/// let mut ckms = CKMS::open(Fraction { num: 1, den: 1_000 }, &mut list, &mut blocks)?;
/// for v in 1..=1_000 {
///     ckms.insert(&mut list, &mut blocks, v)?;
/// }
/// assert_eq!(ckms.query(&list, &blocks, Fraction { num: 998, den: 1_000 })?, (998, 998));
/// assert_eq!(ckms.last(&list, &blocks)?, Some(1_000));
/// assert_eq!(ckms.cma(&list, &blocks)?, Some(500.5));
/// # Ok(())
/// # }
/// ```
#[derive(Clone, Copy, PartialEq, Eq, Debug)]
pub struct CKMS {
    words: [u64; 10],
}

impl CKMS {
    /// A fresh CKMS with the error 0 < error < 1, over 1 to 4,096 entries and as many block places, which all become zero.
    ///
    /// # Errors
    ///
    /// [`Refusal::Slots`], [`Refusal::Epsilon`], in this order.
    pub fn open(error: Fraction, list: &mut [Entry], blocks: &mut [u32]) -> Result<CKMS, Refusal> {
        Ok(CKMS::from_state(ffi::ckms_open(error, list, blocks)?))
    }

    /// One observation more.
    ///
    /// # Errors
    ///
    /// [`Refusal::Slots`], [`Refusal::Damaged`], [`Refusal::Count`] at 1,000,000,000 observations, [`Refusal::Full`] when every slot is
    /// taken, in this order.
    pub fn insert(&mut self, list: &mut [Entry], blocks: &mut [u32], v: u32) -> Result<(), Refusal> {
        *self = CKMS::from_state(ffi::ckms_insert(self.state(), list, blocks, v)?);
        Ok(())
    }

    /// The rank and the value for `q`, 0 ≤ q ≤ 1.
    ///
    /// # Errors
    ///
    /// [`Refusal::Slots`], [`Refusal::Damaged`], [`Refusal::Phi`], [`Refusal::Empty`], in this order.
    pub fn query(&self, list: &[Entry], blocks: &[u32], q: Fraction) -> Result<(u32, u32), Refusal> {
        ffi::ckms_query(self.state(), list, blocks, q)
    }

    /// How many observations were accepted.
    ///
    /// # Errors
    ///
    /// [`Refusal::Slots`], [`Refusal::Damaged`], in this order.
    pub fn count(&self, list: &[Entry], blocks: &[u32]) -> Result<u32, Refusal> {
        ffi::ckms_count(self.state(), list, blocks)
    }

    /// The observation accepted last; none exactly while there are none.
    ///
    /// # Errors
    ///
    /// [`Refusal::Slots`], [`Refusal::Damaged`], in this order.
    pub fn last(&self, list: &[Entry], blocks: &[u32]) -> Result<Option<u32>, Refusal> {
        ffi::ckms_last(self.state(), list, blocks)
    }

    /// The running mean of the observations accepted; none exactly while there are none.
    ///
    /// # Errors
    ///
    /// [`Refusal::Slots`], [`Refusal::Damaged`], in this order.
    pub fn cma(&self, list: &[Entry], blocks: &[u32]) -> Result<Option<f64>, Refusal> {
        ffi::ckms_cma(self.state(), list, blocks)
    }

    /// The error that the CKMS was opened with, not reduced.
    ///
    /// # Errors
    ///
    /// [`Refusal::Slots`], [`Refusal::Damaged`], in this order.
    pub fn error_bound(&self, list: &[Entry], blocks: &[u32]) -> Result<Fraction, Refusal> {
        ffi::ckms_error_bound(self.state(), list, blocks)
    }

    /// The state, to be stored: the error's numerator and denominator, the observations accepted, the entries held, the blocks, the inserts since
    /// the last compression, 1 if there is a last value else 0, that value, 1 if there is a mean else 0, the mean's bits.
    pub fn words(&self) -> [u64; 10] {
        self.words
    }

    /// The state of stored [`words`](CKMS::words). Any words are taken: those that fit no CKMS, or are not sound with the lists, are refused by
    /// every call.
    pub fn from_words(w: [u64; 10]) -> CKMS {
        CKMS { words: w }
    }

    fn state(&self) -> words::Ckms {
        let [num, den, n, held, blocks, inserts, has_last, last, has_mean, mean] = self.words;
        words::Ckms { num, den, n, held, blocks, inserts, has_last, last, has_mean, mean: f64::from_bits(mean) }
    }

    fn from_state(state: words::Ckms) -> CKMS {
        let words::Ckms { num, den, n, held, blocks, inserts, has_last, last, has_mean, mean } = state;
        CKMS { words: [num, den, n, held, blocks, inserts, has_last, last, has_mean, mean.to_bits()] }
    }
}
