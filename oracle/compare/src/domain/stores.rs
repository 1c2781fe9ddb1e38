//! The store beside the original.
use super::{float, fractions, phi, rest_is_zero, same, sequences, Verdict, QUARTERS};
use crate::random::{Random, KINDS};
use crate::subject::Subject;
use crate::Tally;
use model::{Entry, Fraction, FULL};
use quantiles::ckms::store::Store;

/// What to query a store for that holds so many entries. The original finds each place of its store by counting from the front, so a query costs it
/// the square of what it holds: of a large one it is asked now and then.
pub fn queries(random: &mut Random, held: u64) -> Vec<Fraction> {
    if held < 200 || random.one_in(held / 4) {
        vec![phi(random), phi(random)]
    } else {
        vec![]
    }
}

/// The entries and the blocks of the original's store against the lent lists.
pub fn store_agrees(held: u32, used: u32, n: u32, list: &[Entry], blocks: &[u32], original: &Store<u32>) -> Verdict {
    same("held", held as usize, original.len())?;
    same("n", n as usize, original.n)?;
    // An empty store has no block here, and one empty block there.
    let inner: Vec<_> = original.data.iter().filter(|inner| !inner.data.is_empty()).collect();
    same("blocks", used as usize, inner.len())?;
    for (i, inner) in inner.iter().enumerate() {
        same(&format!("length of block {i}"), blocks[i] as usize, inner.data.len())?;
    }
    let theirs = inner.iter().flat_map(|inner| &inner.data);
    for (i, (e, t)) in list.iter().zip(theirs).enumerate() {
        if *e != [t.v, t.g, t.delta] {
            return Err(format!("entry {i}: {e:?}, the original has {t:?}"));
        }
    }
    rest_is_zero("list", &list[held as usize..])?;
    rest_is_zero("blocks", &blocks[used as usize..])
}

pub struct StoreRun<S: Subject> {
    original: Store<u32>,
    words: model::store::Words,
    list: Vec<Entry>,
    blocks: Vec<u32>,
    subject: std::marker::PhantomData<S>,
}

impl<S: Subject> StoreRun<S> {
    pub fn open(error: Fraction, size: u32, slots: usize) -> Self {
        let (mut list, mut blocks) = (vec![[9; 3]; slots], vec![9; slots]);
        let words = S::store_open(error, size, &mut list, &mut blocks).expect("error and size are of the domain");
        StoreRun { original: Store::new(size as usize, float(error)), words, list, blocks, subject: std::marker::PhantomData }
    }

    pub fn insert(&mut self, v: u32) -> Result<bool, String> {
        match S::store_insert(&mut self.words, &mut self.list, &mut self.blocks, v) {
            Ok(()) => self.original.insert(v),
            Err(FULL) if self.words[3] as usize == self.list.len() => return Ok(false),
            Err(number) => return Err(format!("insert of {v} refused {number}")),
        }
        Ok(true)
    }

    pub fn compress(&mut self) -> Verdict {
        let given = S::store_compress(&mut self.words, &mut self.list, &mut self.blocks);
        given.map_err(|number| format!("compress refused {number}"))?;
        self.original.compress();
        Ok(())
    }

    pub fn agrees(&self, qs: &[Fraction]) -> Verdict {
        let [_, _, n, held, _, used] = self.words;
        let (list, blocks) = (&self.list[..], &self.blocks[..]);
        store_agrees(held, used, n, list, blocks, &self.original)?;
        same("len()", S::store_len(self.words, list, blocks), Ok(self.original.len() as u32))?;
        same("is_empty()", S::store_is_empty(self.words, list, blocks), Ok(self.original.is_empty()))?;
        for &q in qs {
            let theirs = self.original.query(float(q)).map(|(rank, v)| (rank as u32, v)).ok_or(model::EMPTY);
            same(&format!("query {q:?}"), S::store_query(self.words, list, blocks, q), theirs)?;
        }
        Ok(())
    }
}

/// All short inputs of the store; one symbol past the values stands for a compression.
pub fn short<S: Subject>(tally: &mut Tally, dens: &[u32], sizes: &[u32], shapes: &[(u32, usize)]) -> Verdict {
    for (error, &size) in fractions(dens, model::is_error).into_iter().flat_map(|e| sizes.iter().map(move |s| (e, s))) {
        for &(values, length) in shapes {
            for symbols in sequences(values + 1, length) {
                let mut run = StoreRun::<S>::open(error, size, length);
                for &v in &symbols {
                    let done = if v == values { run.compress() } else { run.insert(v).map(|_| ()) };
                    let agrees = done.and_then(|()| run.agrees(&QUARTERS));
                    agrees.map_err(|why| format!("store, error {error:?}, block {size}, observations {symbols:?} ({values}: compress): {why}"))?;
                    tally.steps += 1;
                }
                tally.inputs += 1;
            }
        }
    }
    Ok(())
}

pub fn random<S: Subject>(tally: &mut Tally, seed: u64, errors: &[Fraction], sizes: &[u32], n: u32) -> Verdict {
    let all = errors.iter().flat_map(|e| sizes.iter().flat_map(move |s| KINDS.map(|kind| (e, s, kind))));
    for (part, (&error, &size, kind)) in all.enumerate() {
        let mut random = Random::new(seed, 2_000 + part as u64);
        let mut run = StoreRun::<S>::open(error, size, 4_096);
        for i in 0..n {
            let v = kind.observation(i, n, &mut random);
            let qs = queries(&mut random, run.words[3].into());
            let mut step = || -> Result<bool, String> {
                let taken = run.insert(v)?;
                if random.one_in(16) {
                    run.agrees(&[])?;
                    run.compress()?;
                }
                run.agrees(&qs)?;
                Ok(taken)
            };
            let told = |why| format!("store, error {error:?}, block {size}, {kind:?} of {n}, observation {i} ({v}): {why}");
            if !step().map_err(told)? {
                tally.full(format!("store {}/{} block {size} {kind:?} at {}", error[0], error[1], i + 1));
                break;
            }
            tally.steps += 1;
        }
        tally.inputs += 1;
    }
    Ok(())
}
