//! The functions of libstelomavunt.a, and a safe one over each. This is the only unsafe code of the crate.
//!
//! The archive's functions have no precondition of their own: they are proved, for every state and every number, to end, to read and write only
//! within the slices that they are lent, and they keep no pointer. What a caller in another language still owes is what C's types cannot say:
//! that a pointer and its count are those of one live slice, and that nobody else holds a slice which is written. A `&[T]` is the first, a
//! `&mut [T]` both. The structs are those of [`words`](crate::words), `#[repr(C)]` as [`Entry`] and [`Fraction`] are.
use crate::histogram::Bound;
use crate::words::{
    given, BoundWords, Ckms, CkmsAnswer, ErrorBound, Histogram, HistogramAnswer, Last, Mean, Number, Part, Ranked, Store, StoreAnswer, Stream,
    StreamAnswer, Sum,
};
use crate::{Entry, Fraction, Refusal};

unsafe extern "C" {
    fn stelo_stream_open(epsilon: Fraction, list: *mut Entry, slots: usize) -> StreamAnswer;
    fn stelo_stream_insert(stream: Stream, list: *mut Entry, slots: usize, v: u32) -> StreamAnswer;
    fn stelo_stream_quantile(stream: Stream, list: *const Entry, slots: usize, phi: Fraction) -> Number;
    fn stelo_stream_p(stream: Stream, list: *const Entry, slots: usize) -> Number;
    fn stelo_stream_n(stream: Stream, list: *const Entry, slots: usize) -> Number;
    fn stelo_stream_s(stream: Stream, list: *const Entry, slots: usize) -> Number;

    fn stelo_histogram_open(bounds: *const u32, bounds_len: usize, counts: *mut u32, bins: usize) -> HistogramAnswer;
    fn stelo_histogram_insert(histogram: Histogram, bounds: *const u32, bounds_len: usize, counts: *mut u32, bins: usize, v: u32) -> HistogramAnswer;
    fn stelo_histogram_count(histogram: Histogram, bounds: *const u32, bounds_len: usize, counts: *const u32, bins: usize) -> Number;
    fn stelo_histogram_sum(histogram: Histogram, bounds: *const u32, bounds_len: usize, counts: *const u32, bins: usize) -> Sum;
    fn stelo_histogram_total_below(
        histogram: Histogram,
        bounds: *const u32,
        bounds_len: usize,
        counts: *const u32,
        bins: usize,
        upper: BoundWords,
    ) -> Number;
    fn stelo_histogram_total_above(
        histogram: Histogram,
        bounds: *const u32,
        bounds_len: usize,
        counts: *const u32,
        bins: usize,
        lower: BoundWords,
    ) -> Number;
    fn stelo_histogram_total_between(
        histogram: Histogram,
        bounds: *const u32,
        bounds_len: usize,
        counts: *const u32,
        bins: usize,
        lower: BoundWords,
        upper: BoundWords,
    ) -> Number;
    fn stelo_histogram_bins(
        histogram: Histogram,
        bounds: *const u32,
        bounds_len: usize,
        counts: *const u32,
        bins: usize,
        lower: BoundWords,
        upper: BoundWords,
    ) -> Part;

    fn stelo_store_open(error: Fraction, block: u32, list: *mut Entry, slots: usize, blocks: *mut u32, places: usize) -> StoreAnswer;
    fn stelo_store_insert(store: Store, list: *mut Entry, slots: usize, blocks: *mut u32, places: usize, v: u32) -> StoreAnswer;
    fn stelo_store_compress(store: Store, list: *mut Entry, slots: usize, blocks: *mut u32, places: usize) -> StoreAnswer;
    fn stelo_store_len(store: Store, list: *const Entry, slots: usize, blocks: *const u32, places: usize) -> Number;
    fn stelo_store_is_empty(store: Store, list: *const Entry, slots: usize, blocks: *const u32, places: usize) -> Number;
    fn stelo_store_query(store: Store, list: *const Entry, slots: usize, blocks: *const u32, places: usize, q: Fraction) -> Ranked;

    fn stelo_ckms_open(error: Fraction, list: *mut Entry, slots: usize, blocks: *mut u32, places: usize) -> CkmsAnswer;
    fn stelo_ckms_insert(ckms: Ckms, list: *mut Entry, slots: usize, blocks: *mut u32, places: usize, v: u32) -> CkmsAnswer;
    fn stelo_ckms_query(ckms: Ckms, list: *const Entry, slots: usize, blocks: *const u32, places: usize, q: Fraction) -> Ranked;
    fn stelo_ckms_count(ckms: Ckms, list: *const Entry, slots: usize, blocks: *const u32, places: usize) -> Number;
    fn stelo_ckms_last(ckms: Ckms, list: *const Entry, slots: usize, blocks: *const u32, places: usize) -> Last;
    fn stelo_ckms_cma(ckms: Ckms, list: *const Entry, slots: usize, blocks: *const u32, places: usize) -> Mean;
    fn stelo_ckms_error_bound(ckms: Ckms, list: *const Entry, slots: usize, blocks: *const u32, places: usize) -> ErrorBound;
}

pub fn stream_open(epsilon: Fraction, list: &mut [Entry]) -> Result<Stream, Refusal> {
    // SAFETY: pointer and count are those of `list`, which is lent here alone.
    let answer = unsafe { stelo_stream_open(epsilon, list.as_mut_ptr(), list.len()) };
    given(answer.refusal, answer.stream)
}

pub fn stream_insert(stream: Stream, list: &mut [Entry], v: u32) -> Result<Stream, Refusal> {
    // SAFETY: pointer and count are those of `list`, which is lent here alone.
    let answer = unsafe { stelo_stream_insert(stream, list.as_mut_ptr(), list.len(), v) };
    given(answer.refusal, answer.stream)
}

pub fn stream_quantile(stream: Stream, list: &[Entry], phi: Fraction) -> Result<u32, Refusal> {
    // SAFETY: pointer and count are those of `list`, which is only read.
    let answer = unsafe { stelo_stream_quantile(stream, list.as_ptr(), list.len(), phi) };
    given(answer.refusal, answer.value)
}

pub fn stream_p(stream: Stream, list: &[Entry]) -> Result<u32, Refusal> {
    // SAFETY: pointer and count are those of `list`, which is only read.
    let answer = unsafe { stelo_stream_p(stream, list.as_ptr(), list.len()) };
    given(answer.refusal, answer.value)
}

pub fn stream_n(stream: Stream, list: &[Entry]) -> Result<u32, Refusal> {
    // SAFETY: pointer and count are those of `list`, which is only read.
    let answer = unsafe { stelo_stream_n(stream, list.as_ptr(), list.len()) };
    given(answer.refusal, answer.value)
}

pub fn stream_s(stream: Stream, list: &[Entry]) -> Result<u32, Refusal> {
    // SAFETY: pointer and count are those of `list`, which is only read.
    let answer = unsafe { stelo_stream_s(stream, list.as_ptr(), list.len()) };
    given(answer.refusal, answer.value)
}

pub fn histogram_open(bounds: &[u32], counts: &mut [u32]) -> Result<Histogram, Refusal> {
    // SAFETY: pointers and counts are those of `bounds`, which is only read, and of `counts`, which is lent here alone.
    let answer = unsafe { stelo_histogram_open(bounds.as_ptr(), bounds.len(), counts.as_mut_ptr(), counts.len()) };
    given(answer.refusal, answer.histogram)
}

pub fn histogram_insert(histogram: Histogram, bounds: &[u32], counts: &mut [u32], v: u32) -> Result<Histogram, Refusal> {
    // SAFETY: pointers and counts are those of `bounds`, which is only read, and of `counts`, which is lent here alone.
    let answer = unsafe { stelo_histogram_insert(histogram, bounds.as_ptr(), bounds.len(), counts.as_mut_ptr(), counts.len(), v) };
    given(answer.refusal, answer.histogram)
}

pub fn histogram_count(histogram: Histogram, bounds: &[u32], counts: &[u32]) -> Result<u32, Refusal> {
    // SAFETY: pointers and counts are those of `bounds` and `counts`, which are only read.
    let answer = unsafe { stelo_histogram_count(histogram, bounds.as_ptr(), bounds.len(), counts.as_ptr(), counts.len()) };
    given(answer.refusal, answer.value)
}

pub fn histogram_sum(histogram: Histogram, bounds: &[u32], counts: &[u32]) -> Result<Option<u64>, Refusal> {
    // SAFETY: pointers and counts are those of `bounds` and `counts`, which are only read.
    let answer = unsafe { stelo_histogram_sum(histogram, bounds.as_ptr(), bounds.len(), counts.as_ptr(), counts.len()) };
    given(answer.refusal, (answer.has_sum == 1).then_some(answer.sum))
}

pub fn histogram_total_below(histogram: Histogram, bounds: &[u32], counts: &[u32], upper: Bound) -> Result<u32, Refusal> {
    // SAFETY: pointers and counts are those of `bounds` and `counts`, which are only read.
    let answer = unsafe { stelo_histogram_total_below(histogram, bounds.as_ptr(), bounds.len(), counts.as_ptr(), counts.len(), upper.into()) };
    given(answer.refusal, answer.value)
}

pub fn histogram_total_above(histogram: Histogram, bounds: &[u32], counts: &[u32], lower: Bound) -> Result<u32, Refusal> {
    // SAFETY: pointers and counts are those of `bounds` and `counts`, which are only read.
    let answer = unsafe { stelo_histogram_total_above(histogram, bounds.as_ptr(), bounds.len(), counts.as_ptr(), counts.len(), lower.into()) };
    given(answer.refusal, answer.value)
}

pub fn histogram_total_between(histogram: Histogram, bounds: &[u32], counts: &[u32], lower: Bound, upper: Bound) -> Result<u32, Refusal> {
    // SAFETY: pointers and counts are those of `bounds` and `counts`, which are only read.
    let answer =
        unsafe { stelo_histogram_total_between(histogram, bounds.as_ptr(), bounds.len(), counts.as_ptr(), counts.len(), lower.into(), upper.into()) };
    given(answer.refusal, answer.value)
}

/// Where the bins between two bounds begin among the counts, and how many there are.
pub fn histogram_bins(histogram: Histogram, bounds: &[u32], counts: &[u32], lower: Bound, upper: Bound) -> Result<(usize, usize), Refusal> {
    // SAFETY: pointers and counts are those of `bounds` and `counts`, which are only read.
    let answer = unsafe { stelo_histogram_bins(histogram, bounds.as_ptr(), bounds.len(), counts.as_ptr(), counts.len(), lower.into(), upper.into()) };
    given(answer.refusal, (answer.start, answer.length))
}

pub fn store_open(error: Fraction, block: u32, list: &mut [Entry], blocks: &mut [u32]) -> Result<Store, Refusal> {
    // SAFETY: pointers and counts are those of `list` and `blocks`, two slices which are lent here alone.
    let answer = unsafe { stelo_store_open(error, block, list.as_mut_ptr(), list.len(), blocks.as_mut_ptr(), blocks.len()) };
    given(answer.refusal, answer.store)
}

pub fn store_insert(store: Store, list: &mut [Entry], blocks: &mut [u32], v: u32) -> Result<Store, Refusal> {
    // SAFETY: pointers and counts are those of `list` and `blocks`, two slices which are lent here alone.
    let answer = unsafe { stelo_store_insert(store, list.as_mut_ptr(), list.len(), blocks.as_mut_ptr(), blocks.len(), v) };
    given(answer.refusal, answer.store)
}

pub fn store_compress(store: Store, list: &mut [Entry], blocks: &mut [u32]) -> Result<Store, Refusal> {
    // SAFETY: pointers and counts are those of `list` and `blocks`, two slices which are lent here alone.
    let answer = unsafe { stelo_store_compress(store, list.as_mut_ptr(), list.len(), blocks.as_mut_ptr(), blocks.len()) };
    given(answer.refusal, answer.store)
}

pub fn store_len(store: Store, list: &[Entry], blocks: &[u32]) -> Result<u32, Refusal> {
    // SAFETY: pointers and counts are those of `list` and `blocks`, which are only read.
    let answer = unsafe { stelo_store_len(store, list.as_ptr(), list.len(), blocks.as_ptr(), blocks.len()) };
    given(answer.refusal, answer.value)
}

pub fn store_is_empty(store: Store, list: &[Entry], blocks: &[u32]) -> Result<bool, Refusal> {
    // SAFETY: pointers and counts are those of `list` and `blocks`, which are only read.
    let answer = unsafe { stelo_store_is_empty(store, list.as_ptr(), list.len(), blocks.as_ptr(), blocks.len()) };
    given(answer.refusal, answer.value == 1)
}

pub fn store_query(store: Store, list: &[Entry], blocks: &[u32], q: Fraction) -> Result<(u32, u32), Refusal> {
    // SAFETY: pointers and counts are those of `list` and `blocks`, which are only read.
    let answer = unsafe { stelo_store_query(store, list.as_ptr(), list.len(), blocks.as_ptr(), blocks.len(), q) };
    given(answer.refusal, (answer.rank, answer.value))
}

pub fn ckms_open(error: Fraction, list: &mut [Entry], blocks: &mut [u32]) -> Result<Ckms, Refusal> {
    // SAFETY: pointers and counts are those of `list` and `blocks`, two slices which are lent here alone.
    let answer = unsafe { stelo_ckms_open(error, list.as_mut_ptr(), list.len(), blocks.as_mut_ptr(), blocks.len()) };
    given(answer.refusal, answer.ckms)
}

pub fn ckms_insert(ckms: Ckms, list: &mut [Entry], blocks: &mut [u32], v: u32) -> Result<Ckms, Refusal> {
    // SAFETY: pointers and counts are those of `list` and `blocks`, two slices which are lent here alone.
    let answer = unsafe { stelo_ckms_insert(ckms, list.as_mut_ptr(), list.len(), blocks.as_mut_ptr(), blocks.len(), v) };
    given(answer.refusal, answer.ckms)
}

pub fn ckms_query(ckms: Ckms, list: &[Entry], blocks: &[u32], q: Fraction) -> Result<(u32, u32), Refusal> {
    // SAFETY: pointers and counts are those of `list` and `blocks`, which are only read.
    let answer = unsafe { stelo_ckms_query(ckms, list.as_ptr(), list.len(), blocks.as_ptr(), blocks.len(), q) };
    given(answer.refusal, (answer.rank, answer.value))
}

pub fn ckms_count(ckms: Ckms, list: &[Entry], blocks: &[u32]) -> Result<u32, Refusal> {
    // SAFETY: pointers and counts are those of `list` and `blocks`, which are only read.
    let answer = unsafe { stelo_ckms_count(ckms, list.as_ptr(), list.len(), blocks.as_ptr(), blocks.len()) };
    given(answer.refusal, answer.value)
}

pub fn ckms_last(ckms: Ckms, list: &[Entry], blocks: &[u32]) -> Result<Option<u32>, Refusal> {
    // SAFETY: pointers and counts are those of `list` and `blocks`, which are only read.
    let answer = unsafe { stelo_ckms_last(ckms, list.as_ptr(), list.len(), blocks.as_ptr(), blocks.len()) };
    given(answer.refusal, (answer.has_last == 1).then_some(answer.last))
}

pub fn ckms_cma(ckms: Ckms, list: &[Entry], blocks: &[u32]) -> Result<Option<f64>, Refusal> {
    // SAFETY: pointers and counts are those of `list` and `blocks`, which are only read.
    let answer = unsafe { stelo_ckms_cma(ckms, list.as_ptr(), list.len(), blocks.as_ptr(), blocks.len()) };
    given(answer.refusal, (answer.has_mean == 1).then_some(answer.mean))
}

pub fn ckms_error_bound(ckms: Ckms, list: &[Entry], blocks: &[u32]) -> Result<Fraction, Refusal> {
    // SAFETY: pointers and counts are those of `list` and `blocks`, which are only read.
    let answer = unsafe { stelo_ckms_error_bound(ckms, list.as_ptr(), list.len(), blocks.as_ptr(), blocks.len()) };
    given(answer.refusal, answer.error)
}
