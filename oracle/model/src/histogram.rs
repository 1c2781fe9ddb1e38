//! The histogram.
use crate::*;

/// count, 1 if there is a sum else 0, the sum.
pub type Words = [u64; 3];

/// A finite bound, or +Inf.
#[derive(Clone, Copy, PartialEq, Eq, Debug)]
pub enum Bound {
    Finite(u32),
    PosInf,
}

impl Bound {
    /// As a number: +Inf is above every other, and equals itself.
    fn number(self) -> u64 {
        match self {
            Bound::Finite(x) => x.into(),
            Bound::PosInf => u64::MAX,
        }
    }
}

/// The bounds of the bins, the last of which is +Inf.
fn ends(bounds: &[u32]) -> impl Iterator<Item = u64> + '_ {
    bounds.iter().map(|&b| b.into()).chain([u64::MAX])
}

/// 9, 10, 11: the opening rules of the bounds.
fn bounds_tested(bounds: &[u32]) -> Result<(), Number> {
    if bounds.is_empty() {
        return Err(BOUNDS_EMPTY);
    }
    if bounds.len() > 1_024 {
        return Err(BOUNDS_MANY);
    }
    if bounds.windows(2).any(|w| w[1] < w[0]) {
        return Err(BOUNDS_ORDER);
    }
    Ok(())
}

fn sound([count, some, sum]: Words, bounds: &[u32], counts: &[u32]) -> bool {
    // "Sum is none exactly when count is 0", and words that fit no field are not sound.
    let sum_fits = match some {
        0 => count == 0 && sum == 0,
        1 => count != 0 && u128::from(sum) <= u128::from(count) * 4_294_967_295,
        _ => false,
    };
    bounds_tested(bounds).is_ok()
        && count <= u64::from(OBSERVATIONS)
        && counts.iter().map(|&c| u128::from(c)).sum::<u128>() == u128::from(count)
        && sum_fits
}

/// 1, 4. "SLOTS only when the counts list isn't one longer than the bounds."
fn tested(state: Words, bounds: &[u32], counts: &[u32]) -> Result<(), Number> {
    if counts.len() != bounds.len() + 1 {
        return Err(SLOTS);
    }
    if !sound(state, bounds, counts) {
        return Err(DAMAGED);
    }
    Ok(())
}

/// 9, 10, 11, 1.
pub fn open(bounds: &[u32], counts: &mut [u32]) -> Result<Words, Number> {
    bounds_tested(bounds)?;
    if counts.len() != bounds.len() + 1 {
        return Err(SLOTS);
    }
    counts.fill(0);
    Ok([0, 0, 0])
}

/// 1, 4, 5.
pub fn insert(state: &mut Words, bounds: &[u32], counts: &mut [u32], v: u32) -> Result<(), Number> {
    tested(*state, bounds, counts)?;
    let [count, _, sum] = *state;
    if count == u64::from(OBSERVATIONS) {
        return Err(COUNT);
    }
    // "A value goes to the first bound ≥ it, else to +Inf."
    let bin = ends(bounds).position(|end| end >= v.into()).unwrap();
    counts[bin] += 1;
    *state = [count + 1, 1, sum + u64::from(v)];
    Ok(())
}

/// 1, 4.
pub fn count(state: Words, bounds: &[u32], counts: &[u32]) -> Result<u32, Number> {
    tested(state, bounds, counts)?;
    Ok(state[0] as u32)
}

/// 1, 4.
pub fn sum(state: Words, bounds: &[u32], counts: &[u32]) -> Result<Option<u64>, Number> {
    tested(state, bounds, counts)?;
    Ok((state[1] == 1).then_some(state[2]))
}

/// The bins whose bound passes the test, as places in the counts.
fn chosen(bounds: &[u32], test: impl Fn(u64) -> bool) -> Vec<usize> {
    ends(bounds).enumerate().filter(|&(_, end)| test(end)).map(|(i, _)| i).collect()
}

fn total(counts: &[u32], bins: &[usize]) -> u32 {
    bins.iter().map(|&i| counts[i]).sum()
}

/// 1, 4. "Bins with bound ≤ u."
pub fn total_below(state: Words, bounds: &[u32], counts: &[u32], upper: Bound) -> Result<u32, Number> {
    tested(state, bounds, counts)?;
    Ok(total(counts, &chosen(bounds, |end| end <= upper.number())))
}

/// 1, 4. "Bound > l."
pub fn total_above(state: Words, bounds: &[u32], counts: &[u32], lower: Bound) -> Result<u32, Number> {
    tested(state, bounds, counts)?;
    Ok(total(counts, &chosen(bounds, |end| end > lower.number())))
}

fn between(bounds: &[u32], lower: Bound, upper: Bound) -> Vec<usize> {
    if lower.number() >= upper.number() {
        return Vec::new();
    }
    chosen(bounds, |end| lower.number() < end && end <= upper.number())
}

/// 1, 4. "l < bound ≤ u, and 0 if l ≥ u."
pub fn total_between(state: Words, bounds: &[u32], counts: &[u32], lower: Bound, upper: Bound) -> Result<u32, Number> {
    tested(state, bounds, counts)?;
    Ok(total(counts, &between(bounds, lower, upper)))
}

/// 1, 4. "The bins between two bounds are handed back as a part of the caller's counts": their places, one behind the other.
pub fn bins(state: Words, bounds: &[u32], counts: &[u32], lower: Bound, upper: Bound) -> Result<Vec<usize>, Number> {
    tested(state, bounds, counts)?;
    let places = between(bounds, lower, upper);
    assert!(places.windows(2).all(|w| w[0] + 1 == w[1]));
    Ok(places)
}

#[cfg(test)]
mod tests {
    use super::*;

    fn filled(bounds: &[u32], vs: impl IntoIterator<Item = u32>) -> (Words, Vec<u32>) {
        let mut counts = vec![9; bounds.len() + 1];
        let mut state = open(bounds, &mut counts).unwrap();
        for v in vs {
            insert(&mut state, bounds, &mut counts, v).unwrap();
        }
        (state, counts)
    }

    #[test]
    fn case_7() {
        assert_eq!(filled(&[10, 100], [99, 100]).1, [0, 2, 0]);
    }

    #[test]
    fn case_8() {
        let bounds = [10, 256, 1987, 1990];
        let (state, counts) = filled(&bounds, 0..2_048);
        assert_eq!(counts, [11, 246, 1731, 3, 57]);
        assert_eq!(sum(state, &bounds, &counts), Ok(Some(2_096_128)));
        assert_eq!(total_above(state, &bounds, &counts, Bound::Finite(0)), Ok(2_048));
        assert_eq!(total_above(state, &bounds, &counts, Bound::Finite(11)), Ok(2_037));
    }
}
