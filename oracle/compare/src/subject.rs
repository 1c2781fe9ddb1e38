//! What is judged: the library, or the model. Both are asked in plain words.
use model::histogram::Bound;
use model::{ckms, histogram, store, stream, Entry, Fraction, Number};
use stelomavunt as lib;

pub type Given<T> = Result<T, Number>;

/// The calls of the four modules, over words.
pub trait Subject {
    const NAME: &'static str;

    fn stream_open(epsilon: Fraction, list: &mut [Entry]) -> Given<stream::Words>;
    fn stream_insert(w: &mut stream::Words, list: &mut [Entry], v: u32) -> Given<()>;
    fn stream_quantile(w: stream::Words, list: &[Entry], phi: Fraction) -> Given<u32>;
    fn stream_p(w: stream::Words, list: &[Entry]) -> Given<u32>;
    fn stream_n(w: stream::Words, list: &[Entry]) -> Given<u32>;
    fn stream_s(w: stream::Words, list: &[Entry]) -> Given<u32>;

    fn histogram_open(bounds: &[u32], counts: &mut [u32]) -> Given<histogram::Words>;
    fn histogram_insert(w: &mut histogram::Words, bounds: &[u32], counts: &mut [u32], v: u32) -> Given<()>;
    fn histogram_count(w: histogram::Words, bounds: &[u32], counts: &[u32]) -> Given<u32>;
    fn histogram_sum(w: histogram::Words, bounds: &[u32], counts: &[u32]) -> Given<Option<u64>>;
    fn total_below(w: histogram::Words, bounds: &[u32], counts: &[u32], upper: Bound) -> Given<u32>;
    fn total_above(w: histogram::Words, bounds: &[u32], counts: &[u32], lower: Bound) -> Given<u32>;
    fn total_between(w: histogram::Words, bounds: &[u32], counts: &[u32], lower: Bound, upper: Bound) -> Given<u32>;
    /// The places of the part among the counts.
    fn bins(w: histogram::Words, bounds: &[u32], counts: &[u32], lower: Bound, upper: Bound) -> Given<Vec<usize>>;

    fn store_open(error: Fraction, size: u32, list: &mut [Entry], blocks: &mut [u32]) -> Given<store::Words>;
    fn store_insert(w: &mut store::Words, list: &mut [Entry], blocks: &mut [u32], v: u32) -> Given<()>;
    fn store_compress(w: &mut store::Words, list: &mut [Entry], blocks: &mut [u32]) -> Given<()>;
    fn store_len(w: store::Words, list: &[Entry], blocks: &[u32]) -> Given<u32>;
    fn store_is_empty(w: store::Words, list: &[Entry], blocks: &[u32]) -> Given<bool>;
    fn store_query(w: store::Words, list: &[Entry], blocks: &[u32], q: Fraction) -> Given<(u32, u32)>;

    fn ckms_open(error: Fraction, list: &mut [Entry], blocks: &mut [u32]) -> Given<ckms::Words>;
    fn ckms_insert(w: &mut ckms::Words, list: &mut [Entry], blocks: &mut [u32], v: u32) -> Given<()>;
    fn ckms_query(w: ckms::Words, list: &[Entry], blocks: &[u32], q: Fraction) -> Given<(u32, u32)>;
    fn ckms_count(w: ckms::Words, list: &[Entry], blocks: &[u32]) -> Given<u32>;
    fn ckms_last(w: ckms::Words, list: &[Entry], blocks: &[u32]) -> Given<Option<u32>>;
    /// The mean's bits.
    fn ckms_cma(w: ckms::Words, list: &[Entry], blocks: &[u32]) -> Given<Option<u64>>;
    fn ckms_error_bound(w: ckms::Words, list: &[Entry], blocks: &[u32]) -> Given<Fraction>;
}

pub struct Model;

impl Subject for Model {
    const NAME: &'static str = "model";

    fn stream_open(epsilon: Fraction, list: &mut [Entry]) -> Given<stream::Words> {
        stream::open(epsilon, list)
    }
    fn stream_insert(w: &mut stream::Words, list: &mut [Entry], v: u32) -> Given<()> {
        stream::insert(w, list, v)
    }
    fn stream_quantile(w: stream::Words, list: &[Entry], phi: Fraction) -> Given<u32> {
        stream::quantile(w, list, phi)
    }
    fn stream_p(w: stream::Words, list: &[Entry]) -> Given<u32> {
        stream::number(w, list, stream::Of::P)
    }
    fn stream_n(w: stream::Words, list: &[Entry]) -> Given<u32> {
        stream::number(w, list, stream::Of::N)
    }
    fn stream_s(w: stream::Words, list: &[Entry]) -> Given<u32> {
        stream::number(w, list, stream::Of::S)
    }

    fn histogram_open(bounds: &[u32], counts: &mut [u32]) -> Given<histogram::Words> {
        histogram::open(bounds, counts)
    }
    fn histogram_insert(w: &mut histogram::Words, bounds: &[u32], counts: &mut [u32], v: u32) -> Given<()> {
        histogram::insert(w, bounds, counts, v)
    }
    fn histogram_count(w: histogram::Words, bounds: &[u32], counts: &[u32]) -> Given<u32> {
        histogram::count(w, bounds, counts)
    }
    fn histogram_sum(w: histogram::Words, bounds: &[u32], counts: &[u32]) -> Given<Option<u64>> {
        histogram::sum(w, bounds, counts)
    }
    fn total_below(w: histogram::Words, bounds: &[u32], counts: &[u32], upper: Bound) -> Given<u32> {
        histogram::total_below(w, bounds, counts, upper)
    }
    fn total_above(w: histogram::Words, bounds: &[u32], counts: &[u32], lower: Bound) -> Given<u32> {
        histogram::total_above(w, bounds, counts, lower)
    }
    fn total_between(w: histogram::Words, bounds: &[u32], counts: &[u32], lower: Bound, upper: Bound) -> Given<u32> {
        histogram::total_between(w, bounds, counts, lower, upper)
    }
    fn bins(w: histogram::Words, bounds: &[u32], counts: &[u32], lower: Bound, upper: Bound) -> Given<Vec<usize>> {
        histogram::bins(w, bounds, counts, lower, upper)
    }

    fn store_open(error: Fraction, size: u32, list: &mut [Entry], blocks: &mut [u32]) -> Given<store::Words> {
        store::open(error, size, list, blocks)
    }
    fn store_insert(w: &mut store::Words, list: &mut [Entry], blocks: &mut [u32], v: u32) -> Given<()> {
        store::insert(w, list, blocks, v)
    }
    fn store_compress(w: &mut store::Words, list: &mut [Entry], blocks: &mut [u32]) -> Given<()> {
        store::compress(w, list, blocks)
    }
    fn store_len(w: store::Words, list: &[Entry], blocks: &[u32]) -> Given<u32> {
        store::len(w, list, blocks)
    }
    fn store_is_empty(w: store::Words, list: &[Entry], blocks: &[u32]) -> Given<bool> {
        store::is_empty(w, list, blocks)
    }
    fn store_query(w: store::Words, list: &[Entry], blocks: &[u32], q: Fraction) -> Given<(u32, u32)> {
        store::query(w, list, blocks, q)
    }

    fn ckms_open(error: Fraction, list: &mut [Entry], blocks: &mut [u32]) -> Given<ckms::Words> {
        ckms::open(error, list, blocks)
    }
    fn ckms_insert(w: &mut ckms::Words, list: &mut [Entry], blocks: &mut [u32], v: u32) -> Given<()> {
        ckms::insert(w, list, blocks, v)
    }
    fn ckms_query(w: ckms::Words, list: &[Entry], blocks: &[u32], q: Fraction) -> Given<(u32, u32)> {
        ckms::query(w, list, blocks, q)
    }
    fn ckms_count(w: ckms::Words, list: &[Entry], blocks: &[u32]) -> Given<u32> {
        ckms::count(w, list, blocks)
    }
    fn ckms_last(w: ckms::Words, list: &[Entry], blocks: &[u32]) -> Given<Option<u32>> {
        ckms::last(w, list, blocks)
    }
    fn ckms_cma(w: ckms::Words, list: &[Entry], blocks: &[u32]) -> Given<Option<u64>> {
        ckms::cma(w, list, blocks)
    }
    fn ckms_error_bound(w: ckms::Words, list: &[Entry], blocks: &[u32]) -> Given<Fraction> {
        ckms::error_bound(w, list, blocks)
    }
}

pub struct Library;

/// The library's number of a refusal.
fn number<T>(given: Result<T, lib::Refusal>) -> Given<T> {
    given.map_err(|refusal| refusal as Number)
}

fn fraction([num, den]: Fraction) -> lib::Fraction {
    lib::Fraction { num, den }
}

fn bound(b: Bound) -> lib::histogram::Bound {
    match b {
        Bound::Finite(x) => lib::histogram::Bound::Finite(x),
        Bound::PosInf => lib::histogram::Bound::PosInf,
    }
}

/// The same memory as the library's entries, so that runs of a million inserts copy nothing.
fn entries(list: &[Entry]) -> &[lib::Entry] {
    // SAFETY: an entry of the library is `#[repr(C)]` and three u32 in a row, as an array of three is.
    unsafe { std::slice::from_raw_parts(list.as_ptr().cast(), list.len()) }
}

fn entries_mut(list: &mut [Entry]) -> &mut [lib::Entry] {
    // SAFETY: as above, and the list is lent to the result alone.
    unsafe { std::slice::from_raw_parts_mut(list.as_mut_ptr().cast(), list.len()) }
}

/// A state of the library with its words written back after the call, refused or not.
macro_rules! with {
    ($state:ty, $words:ident, $call:expr) => {{
        let mut state = <$state>::from_words(*$words);
        let given: Result<(), lib::Refusal> = $call(&mut state);
        *$words = state.words();
        number(given)
    }};
}

impl Subject for Library {
    const NAME: &'static str = "library";

    fn stream_open(epsilon: Fraction, list: &mut [Entry]) -> Given<stream::Words> {
        number(lib::greenwald_khanna::Stream::open(fraction(epsilon), entries_mut(list))).map(|s| s.words())
    }
    fn stream_insert(w: &mut stream::Words, list: &mut [Entry], v: u32) -> Given<()> {
        with!(lib::greenwald_khanna::Stream, w, |s: &mut lib::greenwald_khanna::Stream| s.insert(entries_mut(list), v))
    }
    fn stream_quantile(w: stream::Words, list: &[Entry], phi: Fraction) -> Given<u32> {
        number(lib::greenwald_khanna::Stream::from_words(w).quantile(entries(list), fraction(phi)))
    }
    fn stream_p(w: stream::Words, list: &[Entry]) -> Given<u32> {
        number(lib::greenwald_khanna::Stream::from_words(w).p(entries(list)))
    }
    fn stream_n(w: stream::Words, list: &[Entry]) -> Given<u32> {
        number(lib::greenwald_khanna::Stream::from_words(w).n(entries(list)))
    }
    fn stream_s(w: stream::Words, list: &[Entry]) -> Given<u32> {
        number(lib::greenwald_khanna::Stream::from_words(w).s(entries(list)))
    }

    fn histogram_open(bounds: &[u32], counts: &mut [u32]) -> Given<histogram::Words> {
        number(lib::histogram::Histogram::open(bounds, counts)).map(|h| h.words())
    }
    fn histogram_insert(w: &mut histogram::Words, bounds: &[u32], counts: &mut [u32], v: u32) -> Given<()> {
        with!(lib::histogram::Histogram, w, |h: &mut lib::histogram::Histogram| h.insert(bounds, counts, v))
    }
    fn histogram_count(w: histogram::Words, bounds: &[u32], counts: &[u32]) -> Given<u32> {
        number(lib::histogram::Histogram::from_words(w).count(bounds, counts))
    }
    fn histogram_sum(w: histogram::Words, bounds: &[u32], counts: &[u32]) -> Given<Option<u64>> {
        number(lib::histogram::Histogram::from_words(w).sum(bounds, counts))
    }
    fn total_below(w: histogram::Words, bounds: &[u32], counts: &[u32], upper: Bound) -> Given<u32> {
        number(lib::histogram::Histogram::from_words(w).total_below(bounds, counts, bound(upper)))
    }
    fn total_above(w: histogram::Words, bounds: &[u32], counts: &[u32], lower: Bound) -> Given<u32> {
        number(lib::histogram::Histogram::from_words(w).total_above(bounds, counts, bound(lower)))
    }
    fn total_between(w: histogram::Words, bounds: &[u32], counts: &[u32], lower: Bound, upper: Bound) -> Given<u32> {
        number(lib::histogram::Histogram::from_words(w).total_between(bounds, counts, bound(lower), bound(upper)))
    }
    fn bins(w: histogram::Words, bounds: &[u32], counts: &[u32], lower: Bound, upper: Bound) -> Given<Vec<usize>> {
        let part = number(lib::histogram::Histogram::from_words(w).bins(bounds, counts, bound(lower), bound(upper)))?;
        // The part is the caller's own memory: its places are where it stands.
        let start = (part.as_ptr() as usize).wrapping_sub(counts.as_ptr() as usize) / size_of::<u32>();
        Ok((start..start + part.len()).collect())
    }

    fn store_open(error: Fraction, size: u32, list: &mut [Entry], blocks: &mut [u32]) -> Given<store::Words> {
        number(lib::ckms::Store::open(fraction(error), size, entries_mut(list), blocks)).map(|s| s.words())
    }
    fn store_insert(w: &mut store::Words, list: &mut [Entry], blocks: &mut [u32], v: u32) -> Given<()> {
        with!(lib::ckms::Store, w, |s: &mut lib::ckms::Store| s.insert(entries_mut(list), blocks, v))
    }
    fn store_compress(w: &mut store::Words, list: &mut [Entry], blocks: &mut [u32]) -> Given<()> {
        with!(lib::ckms::Store, w, |s: &mut lib::ckms::Store| s.compress(entries_mut(list), blocks))
    }
    fn store_len(w: store::Words, list: &[Entry], blocks: &[u32]) -> Given<u32> {
        number(lib::ckms::Store::from_words(w).len(entries(list), blocks))
    }
    fn store_is_empty(w: store::Words, list: &[Entry], blocks: &[u32]) -> Given<bool> {
        number(lib::ckms::Store::from_words(w).is_empty(entries(list), blocks))
    }
    fn store_query(w: store::Words, list: &[Entry], blocks: &[u32], q: Fraction) -> Given<(u32, u32)> {
        number(lib::ckms::Store::from_words(w).query(entries(list), blocks, fraction(q)))
    }

    fn ckms_open(error: Fraction, list: &mut [Entry], blocks: &mut [u32]) -> Given<ckms::Words> {
        number(lib::ckms::CKMS::open(fraction(error), entries_mut(list), blocks)).map(|c| c.words())
    }
    fn ckms_insert(w: &mut ckms::Words, list: &mut [Entry], blocks: &mut [u32], v: u32) -> Given<()> {
        with!(lib::ckms::CKMS, w, |c: &mut lib::ckms::CKMS| c.insert(entries_mut(list), blocks, v))
    }
    fn ckms_query(w: ckms::Words, list: &[Entry], blocks: &[u32], q: Fraction) -> Given<(u32, u32)> {
        number(lib::ckms::CKMS::from_words(w).query(entries(list), blocks, fraction(q)))
    }
    fn ckms_count(w: ckms::Words, list: &[Entry], blocks: &[u32]) -> Given<u32> {
        number(lib::ckms::CKMS::from_words(w).count(entries(list), blocks))
    }
    fn ckms_last(w: ckms::Words, list: &[Entry], blocks: &[u32]) -> Given<Option<u32>> {
        number(lib::ckms::CKMS::from_words(w).last(entries(list), blocks))
    }
    fn ckms_cma(w: ckms::Words, list: &[Entry], blocks: &[u32]) -> Given<Option<u64>> {
        number(lib::ckms::CKMS::from_words(w).cma(entries(list), blocks)).map(|mean| mean.map(f64::to_bits))
    }
    fn ckms_error_bound(w: ckms::Words, list: &[Entry], blocks: &[u32]) -> Given<Fraction> {
        number(lib::ckms::CKMS::from_words(w).error_bound(entries(list), blocks)).map(|f| [f.num, f.den])
    }
}
