//! The stream beside the original.
use super::{float, fractions, phi, rest_is_zero, same, sequences, Verdict, QUARTERS};
use crate::random::{Random, KINDS};
use crate::subject::Subject;
use crate::Tally;
use model::{Entry, Fraction, FULL};
use quantiles::greenwald_khanna::Stream;

pub struct StreamRun<S: Subject> {
    original: Stream<u32>,
    words: model::stream::Words,
    list: Vec<Entry>,
    subject: std::marker::PhantomData<S>,
}

impl<S: Subject> StreamRun<S> {
    pub fn open(epsilon: Fraction, slots: usize) -> Self {
        let mut list = vec![[9; 3]; slots];
        let words = S::stream_open(epsilon, &mut list).expect("the fraction is of the domain");
        StreamRun { original: Stream::new(float(epsilon)), words, list, subject: std::marker::PhantomData }
    }

    /// Inserts into both; false where the slots are full, and the domain ends.
    pub fn insert(&mut self, v: u32) -> Result<bool, String> {
        match S::stream_insert(&mut self.words, &mut self.list, v) {
            Ok(()) => self.original.insert(v),
            Err(FULL) if self.words[3] as usize == self.list.len() => return Ok(false),
            Err(number) => return Err(format!("insert of {v} refused {number}")),
        }
        Ok(true)
    }

    pub fn agrees(&self, phis: &[Fraction]) -> Verdict {
        let held = self.words[3] as usize;
        let summary = &self.original.summary;
        same("held", held, summary.len())?;
        for (i, (e, t)) in self.list.iter().zip(summary).enumerate() {
            if (e[0], e[1] as usize, e[2] as usize) != (t.v, t.g, t.delta) {
                return Err(format!("entry {i}: {e:?}, the original has {t:?}"));
            }
        }
        same("n", self.words[2] as usize, self.original.n())?;
        same("p()", S::stream_p(self.words, &self.list), Ok(self.original.p() as u32))?;
        same("n()", S::stream_n(self.words, &self.list), Ok(self.original.n() as u32))?;
        same("s()", S::stream_s(self.words, &self.list), Ok(self.original.s() as u32))?;
        for &f in phis {
            same(&format!("quantile {f:?}"), S::stream_quantile(self.words, &self.list, f), Ok(*self.original.quantile(float(f))))?;
        }
        rest_is_zero("list", &self.list[held..])
    }
}

/// All short inputs of the stream.
pub fn short<S: Subject>(tally: &mut Tally, dens: &[u32], shapes: &[(u32, usize)]) -> Verdict {
    for epsilon in fractions(dens, model::is_epsilon) {
        for &(values, length) in shapes {
            for vs in sequences(values, length) {
                let mut run = StreamRun::<S>::open(epsilon, length);
                for &v in &vs {
                    let agrees = run.insert(v).and_then(|_| run.agrees(&QUARTERS));
                    agrees.map_err(|why| format!("stream, ε {epsilon:?}, observations {vs:?}: {why}"))?;
                    tally.steps += 1;
                }
                tally.inputs += 1;
            }
        }
    }
    Ok(())
}

/// Random observations of every kind, `n` of each.
pub fn random<S: Subject>(tally: &mut Tally, seed: u64, epsilons: &[Fraction], n: u32) -> Verdict {
    for (part, (&epsilon, kind)) in epsilons.iter().flat_map(|e| KINDS.map(|kind| (e, kind))).enumerate() {
        let mut random = Random::new(seed, part as u64);
        let mut run = StreamRun::<S>::open(epsilon, 4_096);
        for i in 0..n {
            let v = kind.observation(i, n, &mut random);
            let phis = [phi(&mut random), phi(&mut random)];
            let taken = run.insert(v);
            let agrees = taken.and_then(|taken| run.agrees(&phis).map(|()| taken));
            let told = |why| format!("stream, ε {epsilon:?}, {kind:?} of {n}, observation {i} ({v}): {why}");
            if !agrees.map_err(told)? {
                tally.full(format!("stream ε {}/{} {kind:?} at {}", epsilon[0], epsilon[1], i + 1));
                break;
            }
            tally.steps += 1;
        }
        tally.inputs += 1;
    }
    Ok(())
}
