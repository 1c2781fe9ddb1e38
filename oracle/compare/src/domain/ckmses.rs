//! The CKMS beside the original.
use super::stores::{queries, store_agrees};
use super::{float, fractions, same, sequences, Verdict, QUARTERS};
use crate::random::{Random, KINDS};
use crate::subject::Subject;
use crate::Tally;
use model::{Entry, Fraction, FULL};
use quantiles::ckms::CKMS;

pub struct CkmsRun<S: Subject> {
    original: CKMS<u32>,
    error: Fraction,
    words: model::ckms::Words,
    list: Vec<Entry>,
    blocks: Vec<u32>,
    subject: std::marker::PhantomData<S>,
}

impl<S: Subject> CkmsRun<S> {
    pub fn open(error: Fraction, slots: usize) -> Self {
        let (mut list, mut blocks) = (vec![[9; 3]; slots], vec![9; slots]);
        let words = S::ckms_open(error, &mut list, &mut blocks).expect("the error is of the domain");
        CkmsRun { original: CKMS::new(float(error)), error, words, list, blocks, subject: std::marker::PhantomData }
    }

    pub fn insert(&mut self, v: u32) -> Result<bool, String> {
        match S::ckms_insert(&mut self.words, &mut self.list, &mut self.blocks, v) {
            Ok(()) => self.original.insert(v),
            Err(FULL) if self.words[3] as usize == self.list.len() => return Ok(false),
            Err(number) => return Err(format!("insert of {v} refused {number}")),
        }
        Ok(true)
    }

    pub fn agrees(&self, qs: &[Fraction]) -> Verdict {
        let [_, _, n, held, used, inserts, ..] = self.words;
        let (w, list, blocks) = (self.words, &self.list[..], &self.blocks[..]);
        store_agrees(held as u32, used as u32, n as u32, list, blocks, &self.original.samples)?;
        same("inserts", inserts as usize, self.original.inserts)?;
        same("count()", S::ckms_count(w, list, blocks), Ok(self.original.count() as u32))?;
        same("last()", S::ckms_last(w, list, blocks), Ok(self.original.last()))?;
        same("cma()", S::ckms_cma(w, list, blocks), Ok(self.original.cma().map(f64::to_bits)))?;
        same("error_bound()", S::ckms_error_bound(w, list, blocks), Ok(self.error))?;
        same("error_bound()", float(self.error).to_bits(), self.original.error_bound().to_bits())?;
        for &q in qs {
            let theirs = self.original.query(float(q)).map(|(rank, v)| (rank as u32, v)).ok_or(model::EMPTY);
            same(&format!("query {q:?}"), S::ckms_query(w, list, blocks, q), theirs)?;
        }
        Ok(())
    }
}

pub fn short<S: Subject>(tally: &mut Tally, dens: &[u32], shapes: &[(u32, usize)]) -> Verdict {
    for error in fractions(dens, model::is_error) {
        for &(values, length) in shapes {
            for vs in sequences(values, length) {
                let mut run = CkmsRun::<S>::open(error, length);
                for &v in &vs {
                    let agrees = run.insert(v).and_then(|_| run.agrees(&QUARTERS));
                    agrees.map_err(|why| format!("CKMS, error {error:?}, observations {vs:?}: {why}"))?;
                    tally.steps += 1;
                }
                tally.inputs += 1;
            }
        }
    }
    Ok(())
}

pub fn random<S: Subject>(tally: &mut Tally, seed: u64, errors: &[Fraction], n: u32) -> Verdict {
    for (part, (&error, kind)) in errors.iter().flat_map(|e| KINDS.map(|kind| (e, kind))).enumerate() {
        let mut random = Random::new(seed, 3_000 + part as u64);
        let mut run = CkmsRun::<S>::open(error, 4_096);
        for i in 0..n {
            let v = kind.observation(i, n, &mut random);
            let qs = queries(&mut random, run.words[3]);
            let agrees = run.insert(v).and_then(|taken| run.agrees(&qs).map(|()| taken));
            let told = |why| format!("CKMS, error {error:?}, {kind:?} of {n}, observation {i} ({v}): {why}");
            if !agrees.map_err(told)? {
                tally.full(format!("CKMS {}/{} {kind:?} at {}", error[0], error[1], i + 1));
                break;
            }
            tally.steps += 1;
        }
        tally.inputs += 1;
    }
    Ok(())
}
