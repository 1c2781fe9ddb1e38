//! CKMS: a store of block size 2,048 that compresses itself, the last value, and the running mean.
use crate::store::{lists_fit, sound as store_sound, walk, Held};
use crate::*;

/// num, den, n, held, blocks, inserts, 1 if there is a last, last, 1 if there is a mean, the mean's bits.
pub type Words = [u64; 10];

/// "CKMS uses 2,048."
const SIZE: u32 = 2_048;

/// The words of the store inside, if they fit.
fn store([num, den, n, held, blocks, ..]: Words) -> Option<store::Words> {
    let word = |w: u64| u32::try_from(w).ok();
    Some([word(num)?, word(den)?, word(n)?, word(held)?, SIZE, word(blocks)?])
}

/// max(1, ⌊1/(2·error)⌋).
pub fn modulus([num, den]: Fraction) -> u64 {
    (u64::from(den) / (2 * u64::from(num))).max(1)
}

fn sound(state: Words, list: &[Entry], blocks: &[u32]) -> bool {
    let Some(inner) = store(state) else {
        return false;
    };
    let [.., inserts, some_last, last, some_mean, mean] = state;
    // "Last value and mean none exactly when n is 0, else the mean finite", and words that fit no field are not sound.
    let rest = match (inner[2], some_last, some_mean) {
        (0, 0, 0) => last == 0 && mean == 0,
        (1.., 1, 1) => last <= u64::from(u32::MAX) && f64::from_bits(mean).is_finite(),
        _ => false,
    };
    store_sound(inner, list, blocks) && inserts < modulus([inner[0], inner[1]]) && rest
}

/// 1, 4: the words of the store inside.
fn tested(state: Words, list: &[Entry], blocks: &[u32]) -> Result<store::Words, Number> {
    if !lists_fit(list, blocks) {
        return Err(SLOTS);
    }
    if !sound(state, list, blocks) {
        return Err(DAMAGED);
    }
    Ok(store(state).unwrap())
}

/// 1, 2; the block size is allowed.
pub fn open(error: Fraction, list: &mut [Entry], blocks: &mut [u32]) -> Result<Words, Number> {
    store::open(error, SIZE, list, blocks)?;
    Ok([error[0].into(), error[1].into(), 0, 0, 0, 0, 0, 0, 0, 0])
}

/// 1, 4, 5, 6.
pub fn insert(state: &mut Words, list: &mut [Entry], blocks: &mut [u32], v: u32) -> Result<(), Number> {
    let inner = tested(*state, list, blocks)?;
    let [num, den, n, held, ..] = inner;
    if n == OBSERVATIONS {
        return Err(COUNT);
    }
    if held as usize == list.len() {
        return Err(FULL);
    }
    let n = n + 1;
    let mean = match state[8] {
        0 => f64::from(v),
        _ => {
            let s = f64::from_bits(state[9]);
            s + (f64::from(v) - s) / f64::from(n)
        }
    };
    let mut inside = Held::of(inner, list, blocks);
    inside.insert(v);
    let inserts = (state[5] + 1) % modulus([num, den]);
    if inserts == 0 {
        inside.compress();
    }
    let (held, used) = inside.put_back(list, blocks);
    *state = [num.into(), den.into(), n.into(), held.into(), used.into(), inserts, 1, v.into(), 1, mean.to_bits()];
    Ok(())
}

/// 1, 4, 7, 8.
pub fn query(state: Words, list: &[Entry], blocks: &[u32], q: Fraction) -> Result<(u32, u32), Number> {
    walk(tested(state, list, blocks)?, list, q)
}

/// 1, 4.
pub fn count(state: Words, list: &[Entry], blocks: &[u32]) -> Result<u32, Number> {
    Ok(tested(state, list, blocks)?[2])
}

/// 1, 4. "With nothing accepted, `last` and `cma` are none."
pub fn last(state: Words, list: &[Entry], blocks: &[u32]) -> Result<Option<u32>, Number> {
    tested(state, list, blocks)?;
    Ok((state[6] == 1).then_some(state[7] as u32))
}

/// 1, 4: the mean's bits.
pub fn cma(state: Words, list: &[Entry], blocks: &[u32]) -> Result<Option<u64>, Number> {
    tested(state, list, blocks)?;
    Ok((state[8] == 1).then_some(state[9]))
}

/// 1, 4.
pub fn error_bound(state: Words, list: &[Entry], blocks: &[u32]) -> Result<Fraction, Number> {
    let [num, den, ..] = tested(state, list, blocks)?;
    Ok([num, den])
}

#[cfg(test)]
mod tests {
    use super::*;

    fn run(error: Fraction, vs: impl IntoIterator<Item = u32>) -> (Words, Vec<Entry>, Vec<u32>) {
        let (mut list, mut blocks) = (vec![[5; 3]; 4_096], vec![5; 4_096]);
        let mut state = open(error, &mut list, &mut blocks).unwrap();
        for v in vs {
            insert(&mut state, &mut list, &mut blocks, v).unwrap();
        }
        (state, list, blocks)
    }

    #[test]
    fn case_10() {
        let (state, list, blocks) = run([1, 2], [1, 2, 3]);
        assert_eq!(&list[..3], [[1, 1, 0], [3, 2, 0], [0, 0, 0]]);
        assert_eq!(query(state, &list, &blocks, [1, 1]), Ok((2, 3)));
    }

    #[test]
    fn case_12() {
        let (state, list, blocks) = run([1, 10], [0, 100]);
        assert_eq!(cma(state, &list, &blocks), Ok(Some(50f64.to_bits())));
    }

    #[test]
    fn case_13() {
        let (state, list, blocks) = run([1, 1_000], 1..=1_000);
        for (q, answer) in [([0, 1], 1), ([998, 1_000], 998), ([999, 1_000], 999), ([1, 1], 1_000)] {
            assert_eq!(query(state, &list, &blocks, q), Ok((answer, answer)));
        }
    }
}
