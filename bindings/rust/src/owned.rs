//! The same four with memory of their own, for those who come from the original: the calls read like its calls.
//!
//! The memory is within the value (an [`owned::Stream<4096>`](Stream) has 48 KiB), so a large one belongs into a `static` or a box.
//! Each call still tests what it finds there, and refuses what was altered.
use crate::histogram::Bound;
use crate::{ckms, greenwald_khanna, histogram, Entry, Fraction, Refusal};

const FREE: Entry = Entry { v: 0, g: 0, delta: 0 };

/// The first `held` entries.
fn first(list: &[Entry], held: u64) -> &[Entry] {
    let held = usize::try_from(held).unwrap_or(usize::MAX);
    &list[..held.min(list.len())]
}

/// A Greenwald-Khanna stream with `SLOTS` entries, 1 to 4,096.
///
/// ```
/// use stelomavunt::{owned::Stream, Fraction, Refusal};
///
/// # fn main() -> Result<(), Refusal> {
/// let mut stream = Stream::<512>::new(Fraction { num: 1, den: 100 })?;
/// for i in 1..1_001 {
///     stream.insert(i)?;
/// }
/// let median = stream.quantile(Fraction { num: 1, den: 2 })?;
/// assert!((489..=510).contains(&median));
/// assert_eq!(stream.n()?, 1_000);
/// # Ok(())
/// # }
/// ```
#[derive(Clone, Debug)]
pub struct Stream<const SLOTS: usize> {
    stream: greenwald_khanna::Stream,
    list: [Entry; SLOTS],
}

impl<const SLOTS: usize> Stream<SLOTS> {
    /// See [`greenwald_khanna::Stream::open`].
    pub fn new(epsilon: Fraction) -> Result<Self, Refusal> {
        let mut list = [FREE; SLOTS];
        Ok(Stream { stream: greenwald_khanna::Stream::open(epsilon, &mut list)?, list })
    }

    /// See [`greenwald_khanna::Stream::insert`].
    pub fn insert(&mut self, v: u32) -> Result<(), Refusal> {
        self.stream.insert(&mut self.list, v)
    }

    /// See [`greenwald_khanna::Stream::quantile`].
    pub fn quantile(&self, phi: Fraction) -> Result<u32, Refusal> {
        self.stream.quantile(&self.list, phi)
    }

    /// See [`greenwald_khanna::Stream::p`].
    pub fn p(&self) -> Result<u32, Refusal> {
        self.stream.p(&self.list)
    }

    /// See [`greenwald_khanna::Stream::n`].
    pub fn n(&self) -> Result<u32, Refusal> {
        self.stream.n(&self.list)
    }

    /// See [`greenwald_khanna::Stream::s`].
    pub fn s(&self) -> Result<u32, Refusal> {
        self.stream.s(&self.list)
    }

    /// The entries held.
    pub fn entries(&self) -> &[Entry] {
        first(&self.list, self.stream.words()[3].into())
    }
}

/// A histogram of `BINS` bins, which is one more than it has bounds.
///
/// ```
/// use stelomavunt::{histogram::Bound, owned::Histogram, Refusal};
///
/// # fn main() -> Result<(), Refusal> {
/// let mut histogram = Histogram::<5>::new(&[10, 256, 1_987, 1_990])?;
/// for i in 0..2_048 {
///     histogram.insert(i)?;
/// }
/// assert_eq!(histogram.counts(), [11, 246, 1_731, 3, 57]);
/// assert_eq!(histogram.sum()?, Some(2_096_128));
/// assert_eq!(histogram.total_above(Bound::Finite(11))?, 2_037);
/// assert_eq!(histogram.bins(Bound::Finite(256), Bound::PosInf)?, [1_731, 3, 57]);
/// # Ok(())
/// # }
/// ```
#[derive(Clone, Debug)]
pub struct Histogram<const BINS: usize> {
    histogram: histogram::Histogram,
    // The last place is not used: there is one bound less than there are bins.
    bounds: [u32; BINS],
    counts: [u32; BINS],
}

impl<const BINS: usize> Histogram<BINS> {
    /// See [`histogram::Histogram::open`]; [`Refusal::Slots`] unless there are `BINS` - 1 bounds.
    pub fn new(bounds: &[u32]) -> Result<Self, Refusal> {
        let mut counts = [0; BINS];
        let histogram = histogram::Histogram::open(bounds, &mut counts)?;
        let mut copy = [0; BINS];
        copy[..bounds.len()].copy_from_slice(bounds);
        Ok(Histogram { histogram, bounds: copy, counts })
    }

    /// See [`histogram::Histogram::insert`].
    pub fn insert(&mut self, v: u32) -> Result<(), Refusal> {
        self.histogram.insert(&self.bounds[..BINS - 1], &mut self.counts, v)
    }

    /// See [`histogram::Histogram::count`].
    pub fn count(&self) -> Result<u32, Refusal> {
        self.histogram.count(self.bounds(), &self.counts)
    }

    /// See [`histogram::Histogram::sum`].
    pub fn sum(&self) -> Result<Option<u64>, Refusal> {
        self.histogram.sum(self.bounds(), &self.counts)
    }

    /// See [`histogram::Histogram::total_below`].
    pub fn total_below(&self, upper: Bound) -> Result<u32, Refusal> {
        self.histogram.total_below(self.bounds(), &self.counts, upper)
    }

    /// See [`histogram::Histogram::total_above`].
    pub fn total_above(&self, lower: Bound) -> Result<u32, Refusal> {
        self.histogram.total_above(self.bounds(), &self.counts, lower)
    }

    /// See [`histogram::Histogram::total_between`].
    pub fn total_between(&self, lower: Bound, upper: Bound) -> Result<u32, Refusal> {
        self.histogram.total_between(self.bounds(), &self.counts, lower, upper)
    }

    /// See [`histogram::Histogram::bins`].
    pub fn bins(&self, lower: Bound, upper: Bound) -> Result<&[u32], Refusal> {
        self.histogram.bins(self.bounds(), &self.counts, lower, upper)
    }

    /// The bounds, without +Inf.
    pub fn bounds(&self) -> &[u32] {
        &self.bounds[..BINS - 1]
    }

    /// The count of each bin, that of +Inf being the last.
    pub fn counts(&self) -> &[u32] {
        &self.counts
    }
}

/// A CKMS store with `SLOTS` entries, 1 to 4,096.
#[derive(Clone, Debug)]
pub struct Store<const SLOTS: usize> {
    store: ckms::Store,
    list: [Entry; SLOTS],
    blocks: [u32; SLOTS],
}

impl<const SLOTS: usize> Store<SLOTS> {
    /// See [`ckms::Store::open`]. The block size comes first, as in the original.
    pub fn new(block: u32, error: Fraction) -> Result<Self, Refusal> {
        let (mut list, mut blocks) = ([FREE; SLOTS], [0; SLOTS]);
        Ok(Store { store: ckms::Store::open(error, block, &mut list, &mut blocks)?, list, blocks })
    }

    /// See [`ckms::Store::insert`].
    pub fn insert(&mut self, v: u32) -> Result<(), Refusal> {
        self.store.insert(&mut self.list, &mut self.blocks, v)
    }

    /// See [`ckms::Store::compress`].
    pub fn compress(&mut self) -> Result<(), Refusal> {
        self.store.compress(&mut self.list, &mut self.blocks)
    }

    /// See [`ckms::Store::len`].
    pub fn len(&self) -> Result<u32, Refusal> {
        self.store.len(&self.list, &self.blocks)
    }

    /// See [`ckms::Store::is_empty`].
    pub fn is_empty(&self) -> Result<bool, Refusal> {
        self.store.is_empty(&self.list, &self.blocks)
    }

    /// See [`ckms::Store::query`].
    pub fn query(&self, q: Fraction) -> Result<(u32, u32), Refusal> {
        self.store.query(&self.list, &self.blocks, q)
    }

    /// The entries held.
    pub fn entries(&self) -> &[Entry] {
        first(&self.list, self.store.words()[3].into())
    }
}

/// A CKMS with `SLOTS` entries, 1 to 4,096.
///
/// ```
/// use stelomavunt::{owned::CKMS, Fraction, Refusal};
///
/// # fn main() -> Result<(), Refusal> {
/// let mut ckms = CKMS::<64>::new(Fraction { num: 1, den: 10 })?;
/// ckms.insert(0)?;
/// ckms.insert(100)?;
/// assert_eq!(ckms.cma()?, Some(50.0));
/// assert_eq!(ckms.last()?, Some(100));
/// assert_eq!(ckms.query(Fraction { num: 1, den: 1 })?, (2, 100));
/// # Ok(())
/// # }
/// ```
#[derive(Clone, Debug)]
pub struct CKMS<const SLOTS: usize> {
    ckms: ckms::CKMS,
    list: [Entry; SLOTS],
    blocks: [u32; SLOTS],
}

impl<const SLOTS: usize> CKMS<SLOTS> {
    /// See [`ckms::CKMS::open`].
    pub fn new(error: Fraction) -> Result<Self, Refusal> {
        let (mut list, mut blocks) = ([FREE; SLOTS], [0; SLOTS]);
        Ok(CKMS { ckms: ckms::CKMS::open(error, &mut list, &mut blocks)?, list, blocks })
    }

    /// See [`ckms::CKMS::insert`].
    pub fn insert(&mut self, v: u32) -> Result<(), Refusal> {
        self.ckms.insert(&mut self.list, &mut self.blocks, v)
    }

    /// See [`ckms::CKMS::query`].
    pub fn query(&self, q: Fraction) -> Result<(u32, u32), Refusal> {
        self.ckms.query(&self.list, &self.blocks, q)
    }

    /// See [`ckms::CKMS::count`].
    pub fn count(&self) -> Result<u32, Refusal> {
        self.ckms.count(&self.list, &self.blocks)
    }

    /// See [`ckms::CKMS::last`].
    pub fn last(&self) -> Result<Option<u32>, Refusal> {
        self.ckms.last(&self.list, &self.blocks)
    }

    /// See [`ckms::CKMS::cma`].
    pub fn cma(&self) -> Result<Option<f64>, Refusal> {
        self.ckms.cma(&self.list, &self.blocks)
    }

    /// See [`ckms::CKMS::error_bound`].
    pub fn error_bound(&self) -> Result<Fraction, Refusal> {
        self.ckms.error_bound(&self.list, &self.blocks)
    }

    /// The entries held.
    pub fn entries(&self) -> &[Entry] {
        first(&self.list, self.ckms.words()[3])
    }
}
