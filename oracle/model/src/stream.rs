//! The Greenwald-Khanna stream.
use crate::*;

/// num, den, n, held.
pub type Words = [u32; 4];

/// p = ⌊2εn⌋.
pub fn p(epsilon: Fraction, n: u32) -> u128 {
    floor(2, epsilon, n)
}

/// "band(d) is the whole-number logarithm to base 2 of p − d + 1, rounded down."
pub fn band(p: u128, d: u128) -> u32 {
    (p - d + 1).ilog2()
}

fn sound([num, den, n, held]: Words, list: &[Entry]) -> bool {
    let epsilon = [num, den];
    if !is_epsilon(epsilon) || n > OBSERVATIONS || held as usize > list.len() {
        return false;
    }
    let p = p(epsilon, n);
    let held = &list[..held as usize];
    sound_entries(held, n)
        && held.first().is_none_or(|e| e[1] == 1 && e[2] == 0)
        && held.last().is_none_or(|e| e[2] == 0)
        && held.iter().all(|e| u128::from(e[1]) + u128::from(e[2]) <= p + 1)
}

/// 1, 4: what every call but opening tests first.
fn tested(state: Words, list: &[Entry]) -> Result<(), Number> {
    if !slots_fit(list.len()) {
        return Err(SLOTS);
    }
    if !sound(state, list) {
        return Err(DAMAGED);
    }
    Ok(())
}

/// 1, 2. "Opening zeroes all slots."
pub fn open(epsilon: Fraction, list: &mut [Entry]) -> Result<Words, Number> {
    if !slots_fit(list.len()) {
        return Err(SLOTS);
    }
    if !is_epsilon(epsilon) {
        return Err(EPSILON);
    }
    list.fill([0; 3]);
    Ok([epsilon[0], epsilon[1], 0, 0])
}

/// i from held−2 down to 1, one place at a time, with a removal for each deletion.
fn compress(p: u128, summary: &mut Vec<Entry>) {
    for i in (1..summary.len().saturating_sub(1)).rev() {
        let (t, next) = (summary[i], summary[i + 1]);
        let all = u128::from(t[1]) + u128::from(next[1]) + u128::from(next[2]);
        if all < p && band(p, t[2].into()) <= band(p, next[2].into()) {
            summary.remove(i);
            summary[i][1] += t[1];
        }
    }
}

/// 1, 4, 5, 6.
pub fn insert(state: &mut Words, list: &mut [Entry], v: u32) -> Result<(), Number> {
    tested(*state, list)?;
    let [num, den, n, held] = *state;
    let epsilon = [num, den];
    if n == OBSERVATIONS {
        return Err(COUNT);
    }
    if held as usize == list.len() {
        return Err(FULL);
    }
    let mut summary = list[..held as usize].to_vec();
    let place = summary.iter().position(|e| e[0] > v).unwrap_or(summary.len());
    let middle = place != 0 && place != summary.len();
    let delta = if middle { p(epsilon, n) as u32 } else { 0 };
    summary.insert(place, [v, 1, delta]);
    let most = summary.len();
    let n = n + 1;
    let period = den / (2 * num);
    if n % period == 0 {
        compress(p(epsilon, n), &mut summary);
    }
    lay(list, &summary, most);
    *state = [num, den, n, summary.len() as u32];
    Ok(())
}

/// 1, 4, 7, 8.
pub fn quantile(state: Words, list: &[Entry], phi: Fraction) -> Result<u32, Number> {
    tested(state, list)?;
    let [num, den, n, held] = state;
    if !is_phi(phi) {
        return Err(PHI);
    }
    if n == 0 {
        return Err(EMPTY);
    }
    let limit = floor(1, phi, n) + floor(1, [num, den], n);
    let summary = &list[..held as usize];
    let mut sum = 0;
    for i in 1..summary.len() {
        sum += u128::from(summary[i - 1][1]);
        if sum + u128::from(summary[i][1]) + u128::from(summary[i][2]) > limit {
            return Ok(summary[i - 1][0]);
        }
    }
    Ok(summary[summary.len() - 1][0])
}

/// Which of its numbers a stream is asked for.
#[derive(Clone, Copy, Debug)]
pub enum Of {
    P,
    N,
    S,
}

/// 1, 4.
pub fn number(state: Words, list: &[Entry], of: Of) -> Result<u32, Number> {
    tested(state, list)?;
    let [num, den, n, held] = state;
    Ok(match of {
        Of::P => p([num, den], n) as u32,
        Of::N => n,
        Of::S => held,
    })
}

#[cfg(test)]
mod tests {
    use super::*;

    fn run(epsilon: Fraction, slots: usize, vs: &[u32]) -> (Result<(), Number>, Words, Vec<Entry>) {
        let mut list = vec![[7; 3]; slots];
        let mut state = open(epsilon, &mut list).unwrap();
        let done = vs.iter().try_for_each(|&v| insert(&mut state, &mut list, v));
        (done, state, list)
    }

    fn entries(epsilon: Fraction, vs: &[u32]) -> Vec<Entry> {
        let (done, state, list) = run(epsilon, 4_096, vs);
        assert_eq!(done, Ok(()));
        list[..state[3] as usize].to_vec()
    }

    #[test]
    fn readings_of_document_01() {
        let (_, state, list) = run([1, 4], 6, &[30, 10, 20, 40, 25, 35]);
        assert_eq!(list, [[10, 1, 0], [20, 1, 1], [30, 2, 0], [40, 2, 0], [0; 3], [0; 3]]);
        for (phi, v) in [([1, 2], 30), ([0, 1], 10), ([1, 1], 40), ([1, 4], 10)] {
            assert_eq!(quantile(state, &list, phi), Ok(v));
        }
        assert_eq!((band(3, 0), band(3, 2), band(3, 3)), (2, 1, 0));
        assert_eq!(run([1, 4], 2, &[1, 2, 3]).0, Err(FULL));
    }

    #[test]
    fn readings_of_the_design() {
        assert_eq!(entries([1, 3], &[1, 0, 0]), [[0, 1, 0], [0, 1, 1], [1, 1, 0]]);
        assert_eq!(entries([1, 2], &[0, 0, 0]), [[0, 1, 0], [0, 2, 0]]);
        assert_eq!(entries([3, 7], &[2, 1, 1, 1, 1, 1, 1, 1, 0]), [[0, 1, 0], [1, 1, 0], [1, 1, 1], [2, 6, 0]]);
        assert_eq!(entries([1, 3], &[0, 0, 0, 0, 0]), [[0, 1, 0], [0, 2, 0], [0, 2, 0]]);
        assert_eq!(entries([3, 8], &[0, 0, 0, 0]), [[0, 1, 0], [0, 1, 0], [0, 2, 0]]);
    }
}
