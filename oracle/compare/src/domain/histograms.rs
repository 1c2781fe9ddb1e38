//! The histogram beside the original.
use super::{same, sequences, Verdict};
use crate::random::{Random, KINDS};
use crate::subject::Subject;
use crate::Tally;
use model::histogram::Bound;
use quantiles::histogram::Histogram;

pub struct HistogramRun<'a, S: Subject> {
    original: Histogram<u64>,
    words: model::histogram::Words,
    bounds: &'a [u32],
    counts: Vec<u32>,
    subject: std::marker::PhantomData<S>,
}

fn original_bound(b: Bound) -> quantiles::histogram::Bound<u64> {
    match b {
        Bound::Finite(x) => quantiles::histogram::Bound::Finite(x.into()),
        Bound::PosInf => quantiles::histogram::Bound::PosInf,
    }
}

impl<'a, S: Subject> HistogramRun<'a, S> {
    pub fn open(bounds: &'a [u32]) -> Self {
        let mut counts = vec![9; bounds.len() + 1];
        let words = S::histogram_open(bounds, &mut counts).expect("the bounds are of the domain");
        let original = Histogram::new(bounds.iter().map(|&b| b.into()).collect()).expect("they are sorted");
        HistogramRun { original, words, bounds, counts, subject: std::marker::PhantomData }
    }

    pub fn insert(&mut self, v: u32) -> Verdict {
        let given = S::histogram_insert(&mut self.words, self.bounds, &mut self.counts, v);
        given.map_err(|number| format!("insert of {v} refused {number}"))?;
        self.original.insert(v.into());
        Ok(())
    }

    pub fn agrees(&self, pairs: &[(Bound, Bound)]) -> Verdict {
        let (w, bounds, counts) = (self.words, self.bounds, &self.counts[..]);
        for (i, (&count, bin)) in counts.iter().zip(self.original.iter()).enumerate() {
            same(&format!("bin {i}"), count as usize, bin.1)?;
        }
        same("bins", counts.len(), self.original.iter().count())?;
        same("count()", S::histogram_count(w, bounds, counts), Ok(self.original.count() as u32))?;
        same("sum()", S::histogram_sum(w, bounds, counts), Ok(self.original.sum()))?;
        for &(l, u) in pairs {
            let (below, above) = (S::total_below(w, bounds, counts, u), S::total_above(w, bounds, counts, l));
            same(&format!("total_below({u:?})"), below, Ok(self.original.total_below(original_bound(u)) as u32))?;
            same(&format!("total_above({l:?})"), above, Ok(self.original.total_above(original_bound(l)) as u32))?;
            let between = S::total_between(w, bounds, counts, l, u);
            same(&format!("total_between({l:?}, {u:?})"), between, Ok(self.original.total_between(original_bound(l), original_bound(u)) as u32))?;
            // The original has no view: its bins are chosen by its own order of bounds.
            let inside = |b: &quantiles::histogram::Bound<u64>| *b > original_bound(l) && *b <= original_bound(u);
            let places = self.original.iter().enumerate().filter(|(_, bin)| inside(&bin.0)).map(|(i, _)| i).collect();
            same(&format!("bins({l:?}, {u:?})"), S::bins(w, bounds, counts, l, u), Ok(places))?;
        }
        Ok(())
    }
}

/// All short inputs of the histogram: every list of up to 3 bounds over 0 .. 3, every sequence of 4 observations over 0 .. 4.
pub fn short<S: Subject>(tally: &mut Tally) -> Verdict {
    let ends = || (0..5).map(Bound::Finite).chain([Bound::PosInf]);
    let pairs: Vec<(Bound, Bound)> = ends().flat_map(|l| ends().map(move |u| (l, u))).collect();
    let all = (1..=3).flat_map(|k| sequences(4, k)).filter(|bounds| bounds.is_sorted());
    for bounds in all {
        for vs in sequences(5, 4) {
            let mut run = HistogramRun::<S>::open(&bounds);
            for &v in &vs {
                let agrees = run.insert(v).and_then(|()| run.agrees(&pairs));
                agrees.map_err(|why| format!("histogram, bounds {bounds:?}, observations {vs:?}: {why}"))?;
                tally.steps += 1;
            }
            tally.inputs += 1;
        }
    }
    Ok(())
}

fn bound(random: &mut Random, bounds: &[u32]) -> Bound {
    match random.below(4) {
        0 => Bound::PosInf,
        1 => Bound::Finite(random.word() as u32),
        2 => Bound::Finite(random.pick(bounds).wrapping_sub(1)),
        _ => Bound::Finite(random.pick(bounds)),
    }
}

pub fn random<S: Subject>(tally: &mut Tally, seed: u64, sizes: &[usize], n: u32) -> Verdict {
    for (part, (&size, kind)) in sizes.iter().flat_map(|k| KINDS.map(|kind| (k, kind))).enumerate() {
        let mut random = Random::new(seed, 1_000 + part as u64);
        let shift = random.below(32) as u32;
        let mut bounds: Vec<u32> = (0..size).map(|_| random.word() as u32 >> shift).collect();
        bounds.sort_unstable();
        let mut run = HistogramRun::<S>::open(&bounds);
        for i in 0..n {
            let v = kind.observation(i, n, &mut random);
            let pair = (bound(&mut random, &bounds), bound(&mut random, &bounds));
            let agrees = run.insert(v).and_then(|()| run.agrees(&[pair]));
            agrees.map_err(|why| format!("histogram, {size} bounds, {kind:?} of {n}, observation {i} ({v}): {why}"))?;
            tally.steps += 1;
        }
        tally.inputs += 1;
    }
    Ok(())
}
