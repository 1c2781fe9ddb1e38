//! The library against the model on any words whatever: sound states that runs reach, sound states that none does, altered words and lists, lists of
//! wrong length. Every call of a module is made on every case; the answer, the state's words and each lent word afterwards have to be the same,
//! and after a refusal they have to be those before.
mod states;
mod words;

use crate::domain::Verdict;
use crate::random::Random;
use crate::subject::{Given, Library, Model, Subject};
use crate::Tally;
use model::histogram::Bound;
use model::{Entry, Fraction, Number};
use states::{built_ckms, built_histogram, built_store, built_stream, reached_ckms, reached_store, reached_stream};
use std::collections::BTreeSet;
use std::sync::atomic::{AtomicBool, Ordering::Relaxed};
use words::{alter, alter32, alter64, edge, fraction, observations};

/// What one call answered, and what it left.
#[derive(PartialEq, Debug)]
struct Outcome {
    call: &'static str,
    answer: Given<Vec<u64>>,
    words: Vec<u64>,
    rows: Vec<Entry>,
    numbers: Vec<u32>,
}

/// The state's words, the lent entries and the lent numbers (block places or counts) that a call is given.
#[derive(Clone, Debug)]
struct Lent<const N: usize, W> {
    words: [W; N],
    rows: Vec<Entry>,
    numbers: Vec<u32>,
}

const GUARD: usize = 4;
const CANARY: u32 = 0xC0DE_CAFE;

/// Whether a list is lent as an allocation of its own, so that valgrind sees a read or a write outside it.
pub static EXACT: AtomicBool = AtomicBool::new(false);

/// Lends a copy of a list and hands back the copy. It stands between canaries: one that was written is a fault of the callee.
fn lent<T: Copy + PartialEq, R>(list: &[T], canary: T, call: impl FnOnce(&mut [T]) -> R) -> (R, Vec<T>) {
    let guard = if EXACT.load(Relaxed) { 0 } else { GUARD };
    let end = guard + list.len();
    let mut memory = vec![canary; end + guard].into_boxed_slice();
    memory[guard..end].copy_from_slice(list);
    let answer = call(&mut memory[guard..end]);
    assert!(memory[..guard].iter().chain(&memory[end..]).all(|x| *x == canary), "a word outside the lent list was written");
    (answer, memory[guard..end].to_vec())
}

impl<const N: usize, W: Copy + Into<u64>> Lent<N, W> {
    /// Makes one call on a copy of everything.
    fn call(&self, call: &'static str, make: impl FnOnce(&mut [W; N], &mut [Entry], &mut [u32]) -> Given<Vec<u64>>) -> Outcome {
        let mut words = self.words;
        let ((answer, numbers), rows) = lent(&self.rows, [CANARY; 3], |rows| lent(&self.numbers, CANARY, |numbers| make(&mut words, rows, numbers)));
        Outcome { call, answer, words: words.map(Into::into).to_vec(), rows, numbers }
    }

    /// After a refusal everything stands as before.
    fn stands(&self, outcome: &Outcome) -> bool {
        let before = self.words.map(Into::into);
        outcome.answer.is_ok() || (outcome.words == before && outcome.rows == self.rows && outcome.numbers == self.numbers)
    }

    fn judge(&self, ours: Vec<Outcome>, models: Vec<Outcome>, tally: &mut Tally) -> Verdict
    where
        W: std::fmt::Debug,
    {
        for (ours, models) in ours.into_iter().zip(models) {
            if ours != models {
                return Err(format!("{}: on {self:?} the library leaves {ours:?}, the model {models:?}", ours.call));
            }
            if !self.stands(&ours) {
                return Err(format!("{}: on {self:?} a refusal changed something: {ours:?}", ours.call));
            }
            tally.steps += 1;
            tally.answered(ours.call, ours.answer.err().unwrap_or(0));
        }
        tally.inputs += 1;
        Ok(())
    }
}

fn one(given: Given<u32>) -> Given<Vec<u64>> {
    given.map(|x| vec![x.into()])
}

fn two(given: Given<(u32, u32)>) -> Given<Vec<u64>> {
    given.map(|(x, y)| vec![x.into(), y.into()])
}

fn maybe(given: Given<Option<u64>>) -> Given<Vec<u64>> {
    given.map(|x| x.map_or(vec![], |x| vec![x]))
}

fn flat<W: Into<u64>, const N: usize>(given: Given<[W; N]>) -> Given<Vec<u64>> {
    given.map(|w| w.map(Into::into).to_vec())
}

/// Several inserts in a row: the answer has each refusal, and everything is compared at the end.
fn several(vs: &[u32], mut insert: impl FnMut(u32) -> Given<()>) -> Given<Vec<u64>> {
    Ok(vs.iter().map(|&v| insert(v).err().unwrap_or(0).into()).collect())
}

fn streams<S: Subject>(lent: &Lent<4, u32>, vs: &[u32], fractions: [Fraction; 2]) -> Vec<Outcome> {
    let [epsilon, phi] = fractions;
    vec![
        lent.call("Stream::open", |_, rows, _| flat(S::stream_open(epsilon, rows))),
        lent.call("Stream::insert", |w, rows, _| S::stream_insert(w, rows, vs[0]).map(|()| vec![])),
        lent.call("Stream::insert, several", |w, rows, _| several(vs, |v| S::stream_insert(w, rows, v))),
        lent.call("Stream::quantile", |w, rows, _| one(S::stream_quantile(*w, rows, phi))),
        lent.call("Stream::p", |w, rows, _| one(S::stream_p(*w, rows))),
        lent.call("Stream::n", |w, rows, _| one(S::stream_n(*w, rows))),
        lent.call("Stream::s", |w, rows, _| one(S::stream_s(*w, rows))),
    ]
}

fn histograms<S: Subject>(lent: &Lent<3, u64>, bounds: &[u32], vs: &[u32], l: Bound, u: Bound) -> Vec<Outcome> {
    let places = |given: Given<Vec<usize>>| given.map(|places| places.into_iter().map(|i| i as u64).collect());
    vec![
        lent.call("Histogram::open", |_, _, counts| flat(S::histogram_open(bounds, counts))),
        lent.call("Histogram::insert", |w, _, counts| S::histogram_insert(w, bounds, counts, vs[0]).map(|()| vec![])),
        lent.call("Histogram::insert, several", |w, _, counts| several(vs, |v| S::histogram_insert(w, bounds, counts, v))),
        lent.call("Histogram::count", |w, _, counts| one(S::histogram_count(*w, bounds, counts))),
        lent.call("Histogram::sum", |w, _, counts| maybe(S::histogram_sum(*w, bounds, counts))),
        lent.call("Histogram::total_below", |w, _, counts| one(S::total_below(*w, bounds, counts, u))),
        lent.call("Histogram::total_above", |w, _, counts| one(S::total_above(*w, bounds, counts, l))),
        lent.call("Histogram::total_between", |w, _, counts| one(S::total_between(*w, bounds, counts, l, u))),
        lent.call("Histogram::bins", |w, _, counts| places(S::bins(*w, bounds, counts, l, u))),
    ]
}

fn stores<S: Subject>(lent: &Lent<6, u32>, vs: &[u32], size: u32, fractions: [Fraction; 2]) -> Vec<Outcome> {
    let [error, q] = fractions;
    vec![
        lent.call("Store::open", |_, rows, blocks| flat(S::store_open(error, size, rows, blocks))),
        lent.call("Store::insert", |w, rows, blocks| S::store_insert(w, rows, blocks, vs[0]).map(|()| vec![])),
        lent.call("Store::insert, several", |w, rows, blocks| several(vs, |v| S::store_insert(w, rows, blocks, v))),
        lent.call("Store::compress", |w, rows, blocks| S::store_compress(w, rows, blocks).map(|()| vec![])),
        lent.call("Store::len", |w, rows, blocks| one(S::store_len(*w, rows, blocks))),
        lent.call("Store::is_empty", |w, rows, blocks| one(S::store_is_empty(*w, rows, blocks).map(u32::from))),
        lent.call("Store::query", |w, rows, blocks| two(S::store_query(*w, rows, blocks, q))),
    ]
}

fn ckmses<S: Subject>(lent: &Lent<10, u64>, vs: &[u32], fractions: [Fraction; 2]) -> Vec<Outcome> {
    let [error, q] = fractions;
    vec![
        lent.call("CKMS::open", |_, rows, blocks| flat(S::ckms_open(error, rows, blocks))),
        lent.call("CKMS::insert", |w, rows, blocks| S::ckms_insert(w, rows, blocks, vs[0]).map(|()| vec![])),
        lent.call("CKMS::insert, several", |w, rows, blocks| several(vs, |v| S::ckms_insert(w, rows, blocks, v))),
        lent.call("CKMS::query", |w, rows, blocks| two(S::ckms_query(*w, rows, blocks, q))),
        lent.call("CKMS::count", |w, rows, blocks| one(S::ckms_count(*w, rows, blocks))),
        lent.call("CKMS::last", |w, rows, blocks| maybe(S::ckms_last(*w, rows, blocks).map(|x| x.map(Into::into)))),
        lent.call("CKMS::cma", |w, rows, blocks| maybe(S::ckms_cma(*w, rows, blocks))),
        lent.call("CKMS::error_bound", |w, rows, blocks| flat(S::ckms_error_bound(*w, rows, blocks))),
    ]
}

pub fn hostile_streams(tally: &mut Tally, seed: u64, cases: u64) -> Verdict {
    let mut random = Random::new(seed, 4_000);
    for _ in 0..cases {
        let built = if random.one_in(2) { built_stream(&mut random) } else { None };
        let mut lent = built.unwrap_or_else(|| reached_stream(&mut random));
        alter(&mut random, &mut lent, alter32, u32::MAX);
        let (vs, fractions) = (observations(&mut random, &lent.rows), [fraction(&mut random), fraction(&mut random)]);
        lent.judge(streams::<Library>(&lent, &vs, fractions), streams::<Model>(&lent, &vs, fractions), tally)?;
    }
    Ok(())
}

/// A bound that is asked for.
fn bound(random: &mut Random, bounds: &[u32]) -> Bound {
    match random.below(4) {
        0 => Bound::PosInf,
        1 => Bound::Finite(edge(random)),
        2 if !bounds.is_empty() => Bound::Finite(random.pick(bounds).wrapping_sub(random.below(2) as u32)),
        _ => Bound::Finite(random.word() as u32),
    }
}

pub fn hostile_histograms(tally: &mut Tally, seed: u64, cases: u64) -> Verdict {
    let mut random = Random::new(seed, 4_001);
    for _ in 0..cases {
        let (mut lent, mut bounds) = built_histogram(&mut random);
        alter(&mut random, &mut lent, alter64, u64::MAX);
        match random.below(12) {
            0 => bounds.clear(),
            1 => bounds.resize(random.pick(&[1_024, 1_025, 2_000]), u32::MAX),
            2 => {
                let i = random.below(bounds.len() as u64) as usize;
                alter32(&mut random, &mut bounds[i]);
            }
            _ => {}
        }
        if random.one_in(8) {
            lent.numbers.resize(bounds.len() + 1, 0);
        }
        bounds.shrink_to_fit();
        let near: Vec<Entry> = bounds.iter().map(|&b| [b, 0, 0]).collect();
        let vs = observations(&mut random, &near);
        let (l, u) = (bound(&mut random, &bounds), bound(&mut random, &bounds));
        lent.judge(histograms::<Library>(&lent, &bounds, &vs, l, u), histograms::<Model>(&lent, &bounds, &vs, l, u), tally)
            .map_err(|why| format!("bounds {bounds:?}, observations {vs:?}, {l:?}, {u:?}: {why}"))?;
    }
    Ok(())
}

pub fn hostile_stores(tally: &mut Tally, seed: u64, cases: u64) -> Verdict {
    let mut random = Random::new(seed, 4_002);
    for _ in 0..cases {
        let built = if random.one_in(2) { built_store(&mut random) } else { None };
        let mut lent = built.unwrap_or_else(|| reached_store(&mut random));
        alter(&mut random, &mut lent, alter32, u32::MAX);
        let (vs, fractions) = (observations(&mut random, &lent.rows), [fraction(&mut random), fraction(&mut random)]);
        let size = edge(&mut random);
        lent.judge(stores::<Library>(&lent, &vs, size, fractions), stores::<Model>(&lent, &vs, size, fractions), tally)
            .map_err(|why| format!("observations {vs:?}, block {size}, fractions {fractions:?}: {why}"))?;
    }
    Ok(())
}

pub fn hostile_ckms(tally: &mut Tally, seed: u64, cases: u64) -> Verdict {
    let mut random = Random::new(seed, 4_003);
    for _ in 0..cases {
        let built = if random.one_in(2) { built_ckms(&mut random) } else { None };
        let mut lent = built.unwrap_or_else(|| reached_ckms(&mut random));
        alter(&mut random, &mut lent, alter64, u64::MAX);
        let (vs, fractions) = (observations(&mut random, &lent.rows), [fraction(&mut random), fraction(&mut random)]);
        lent.judge(ckmses::<Library>(&lent, &vs, fractions), ckmses::<Model>(&lent, &vs, fractions), tally)
            .map_err(|why| format!("observations {vs:?}, fractions {fractions:?}: {why}"))?;
    }
    Ok(())
}

/// The refusals that document 01 lists for a call. Several inserts in a row have theirs in the answer.
fn listed(call: &str) -> &'static [Number] {
    match call {
        "Stream::open" | "CKMS::open" => &[1, 2],
        "Store::open" => &[1, 2, 3],
        "Histogram::open" => &[1, 9, 10, 11],
        "Histogram::insert" => &[1, 4, 5],
        "Stream::insert" | "Store::insert" | "CKMS::insert" => &[1, 4, 5, 6],
        "Stream::quantile" | "Store::query" | "CKMS::query" => &[1, 4, 7, 8],
        _ if call.ends_with(", several") => &[],
        _ => &[1, 4],
    }
}

/// Each call was answered, met each refusal that is listed for it, and no other.
pub fn all_met(tally: &Tally) -> Verdict {
    let calls: BTreeSet<_> = tally.answers.keys().map(|&(call, _)| call).collect();
    for call in calls {
        let met: BTreeSet<Number> = tally.answers.keys().filter(|of| of.0 == call).map(|of| of.1).collect();
        let expected: BTreeSet<Number> = listed(call).iter().copied().chain([0]).collect();
        if met != expected {
            return Err(format!("{call}: met {met:?}, and document 01 lists {expected:?}; 0 is an answer"));
        }
    }
    Ok(())
}

/// What the refusals' numbers say.
pub fn name(number: Number) -> String {
    let names = ["an answer", "SLOTS", "EPSILON", "BLOCK", "DAMAGED", "COUNT", "FULL", "PHI", "EMPTY", "BOUNDS-EMPTY", "BOUNDS-MANY", "BOUNDS-ORDER"];
    names.get(number as usize).map_or_else(|| format!("number {number}"), |name| name.to_string())
}
