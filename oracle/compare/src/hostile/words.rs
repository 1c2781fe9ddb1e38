//! Words that the rules turn on, fractions, lists, and what alters them.
use super::Lent;
use crate::random::Random;
use model::{Entry, Fraction, OBSERVATIONS};

/// A word that some rule turns on.
pub fn edge(random: &mut Random) -> u32 {
    random.pick(&[
        0,
        1,
        2,
        3,
        1_024,
        2_048,
        2_049,
        4_096,
        4_097,
        65_536,
        65_537,
        OBSERVATIONS - 1,
        OBSERVATIONS,
        OBSERVATIONS + 1,
        1 << 31,
        3_999_999_999,
        4_000_000_000,
        u32::MAX - 1,
        u32::MAX,
    ])
}

/// The bits of a float that some rule turns on.
pub fn float(random: &mut Random) -> u64 {
    let floats = [0.0, -0.0, 1.0, -1.5, f64::MAX, f64::MIN, f64::MIN_POSITIVE, f64::INFINITY, f64::NEG_INFINITY, f64::NAN, 4_294_967_295.0];
    match random.below(3) {
        0 => random.word(),
        1 => random.pick(&[1, (1 << 63) | 1, 0x7FF0_0000_0000_0001, 0x7FF8_0000_0000_0000, u64::MAX]),
        _ => random.pick(&floats).to_bits(),
    }
}

pub fn alter32(random: &mut Random, x: &mut u32) {
    *x = match random.below(5) {
        0 => *x ^ (1 << random.below(32)),
        1 => x.wrapping_add(1),
        2 => x.wrapping_sub(1),
        3 => random.word() as u32,
        _ => edge(random),
    };
}

pub fn alter64(random: &mut Random, x: &mut u64) {
    *x = match random.below(7) {
        0 => *x ^ (1 << random.below(64)),
        1 => x.wrapping_add(1),
        2 => x.wrapping_sub(1),
        3 => random.word(),
        4 => *x | (1 << 32),
        5 => float(random),
        _ => edge(random).into(),
    };
}

/// A fraction: of the domain, any that is allowed, or one past some limit.
pub fn fraction(random: &mut Random) -> Fraction {
    match random.below(6) {
        0 => [edge(random), edge(random)],
        1 => {
            let den = random.within(1, 65_536) as u32;
            [random.within(0, u64::from(den) + 1) as u32, den]
        }
        2 => random.pick(&[[1, 2], [501, 1_000], [0, 7], [1, 0], [1, 65_537], [1, 65_536], [65_535, 65_536], [1, 49], [3, 11]]),
        _ => {
            let den = 1 << random.below(11);
            [random.within(0, den) as u32, den as u32]
        }
    }
}

/// One that is allowed, which a state is built with.
pub fn allowed(random: &mut Random, test: fn(Fraction) -> bool) -> Fraction {
    loop {
        let f = fraction(random);
        if test(f) {
            return f;
        }
    }
}

/// Few slots mostly, since all that the rules speak of happens in few; the most now and then.
pub fn slots(random: &mut Random) -> usize {
    match random.below(400) {
        0 => 4_096,
        1..4 => random.within(1, 4_096) as usize,
        4..40 => random.within(1, 200) as usize,
        _ => random.within(1, 16) as usize,
    }
}

/// Numbers from 1 to `most` that add up to `sum`, if there are any.
pub fn parts(random: &mut Random, count: usize, sum: u64, most: u64) -> Option<Vec<u32>> {
    let mut rest = sum;
    let mut made = Vec::new();
    for i in 0..count {
        let behind = (count - 1 - i) as u64;
        let least = 1.max(rest.saturating_sub(behind.saturating_mul(most)));
        let largest = most.min(rest.checked_sub(behind)?);
        if least > largest {
            return None;
        }
        let part = match random.below(3) {
            0 => least,
            1 => largest,
            _ => random.within(least, largest),
        };
        made.push(u32::try_from(part).ok()?);
        rest -= part;
    }
    (rest == 0).then_some(made)
}

/// Values that never fall, close together or over all of u32.
pub fn rising(random: &mut Random, count: usize) -> Vec<u32> {
    let shift = random.pick(&[0, 0, 8, 24, 28, 30]);
    let mut values: Vec<u32> = (0..count).map(|_| random.word() as u32 >> shift).collect();
    values.sort_unstable();
    values
}

/// How many observations a state that is built has taken: few, or near the limit.
pub fn taken(random: &mut Random, held: usize) -> u64 {
    let most = u64::from(OBSERVATIONS);
    match random.below(4) {
        0 => held as u64,
        1 => held as u64 + random.below(100),
        2 => most - random.below(3),
        _ => random.within(held as u64, most),
    }
}

/// A list whose free places hold anything.
pub fn list(random: &mut Random, slots: usize, held: &[Entry]) -> Vec<Entry> {
    let junk = random.one_in(2);
    let mut list = held.to_vec();
    while list.len() < slots {
        list.push(if junk { [random.word() as u32, random.word() as u32, random.word() as u32] } else { [0; 3] });
    }
    list
}

pub fn numbers(random: &mut Random, places: usize, used: &[u32]) -> Vec<u32> {
    let junk = random.one_in(2);
    let mut numbers = used.to_vec();
    while numbers.len() < places {
        numbers.push(if junk { random.word() as u32 } else { 0 });
    }
    numbers
}

/// Observations that meet the values held.
pub fn observations(random: &mut Random, rows: &[Entry]) -> Vec<u32> {
    let one = |random: &mut Random| match random.below(4) {
        0 => edge(random),
        1 if !rows.is_empty() => random.pick(rows)[0].wrapping_add(random.pick(&[0, 1, u32::MAX])),
        _ => random.word() as u32 >> random.below(32),
    };
    (0..random.within(1, 6)).map(|_| one(random)).collect()
}

/// Alters what a call is lent, or leaves it as it is: a bit, a word, all words, the length of a list.
pub fn alter<const N: usize, W: Copy>(random: &mut Random, lent: &mut Lent<N, W>, word: fn(&mut Random, &mut W), ones: W) {
    match random.below(10) {
        0 | 1 => {
            let i = random.below(N as u64) as usize;
            word(random, &mut lent.words[i]);
        }
        2 | 3 if !lent.rows.is_empty() => {
            let i = random.below(lent.rows.len() as u64) as usize;
            alter32(random, &mut lent.rows[i][random.clone().below(3) as usize]);
        }
        4 if !lent.numbers.is_empty() => {
            let i = random.below(lent.numbers.len() as u64) as usize;
            alter32(random, &mut lent.numbers[i]);
        }
        5 => {
            let length = random.pick(&[0, 1, lent.rows.len() / 2, lent.rows.len().saturating_sub(1), lent.rows.len() + 1, 4_096, 4_097]);
            lent.rows.resize(length, [1, 1, 0]);
        }
        6 => {
            let length = random.pick(&[0, 1, lent.numbers.len().saturating_sub(1), lent.numbers.len() + 1, lent.rows.len()]);
            lent.numbers.resize(length, 1);
        }
        7 if random.one_in(8) => {
            lent.words = [ones; N];
            lent.rows.fill([u32::MAX; 3]);
            lent.numbers.fill(u32::MAX);
        }
        _ => {}
    }
}
