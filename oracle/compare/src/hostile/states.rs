//! Sound states: those that a run reaches, and those that none need reach.
use super::words::{allowed, edge, float, list, numbers, parts, rising, slots, taken};
use super::Lent;
use crate::random::{Random, KINDS};
use model::{ckms, store, stream, Entry, OBSERVATIONS};

/// A stream that a run reaches.
pub fn reached_stream(random: &mut Random) -> Lent<4, u32> {
    let mut rows = vec![[0; 3]; slots(random)];
    let mut words = stream::open(allowed(random, model::is_epsilon), &mut rows).expect("it is allowed");
    let (kind, n) = (random.pick(&KINDS), random.within(0, 2 * rows.len() as u64) as u32);
    for i in 0..n {
        let v = kind.observation(i, n, random);
        // A full one stays as it is.
        let _ = stream::insert(&mut words, &mut rows, v);
    }
    let rows = list(random, rows.len(), &rows[..words[3] as usize]);
    Lent { words, rows, numbers: vec![] }
}

/// A sound stream that no run need reach.
pub fn built_stream(random: &mut Random) -> Option<Lent<4, u32>> {
    let slots = slots(random);
    let held = random.within(1, slots as u64) as usize;
    let epsilon = allowed(random, model::is_epsilon);
    let n = taken(random, held);
    let p = stream::p(epsilon, n as u32) as u64;
    let mut gs = vec![1];
    gs.extend(parts(random, held - 1, n - 1, p + 1)?);
    let values = rising(random, held);
    let ends = |i: usize| i == 0 || i == held - 1;
    let delta = |random: &mut Random, i: usize| if ends(i) { 0 } else { random.within(0, p + 1 - u64::from(gs[i])) as u32 };
    let entries: Vec<Entry> = (0..held).map(|i| [values[i], gs[i], delta(random, i)]).collect();
    let rows = list(random, slots, &entries);
    Some(Lent { words: [epsilon[0], epsilon[1], n as u32, held as u32], rows, numbers: vec![] })
}

/// A sound histogram and its bounds.
pub fn built_histogram(random: &mut Random) -> (Lent<3, u64>, Vec<u32>) {
    let size = match random.below(100) {
        0 => 1_024,
        1..5 => random.within(1, 1_024) as usize,
        _ => random.within(1, 12) as usize,
    };
    let bounds = rising(random, size);
    let mut counts = vec![0u32; size + 1];
    for _ in 0..random.below(20) {
        let room = u64::from(OBSERVATIONS) - counts.iter().map(|&c| u64::from(c)).sum::<u64>();
        let more = random.pick(&[1, 2, room, room / 2, room.saturating_sub(1)]).min(room) as u32;
        let i = random.below(counts.len() as u64) as usize;
        counts[i] += more;
    }
    let count: u64 = counts.iter().map(|&c| u64::from(c)).sum();
    let most = count * u64::from(u32::MAX);
    let sum = random.pick(&[0, most, random.clone().within(0, most)]);
    let words = if count == 0 { [0, 0, 0] } else { [count, 1, sum] };
    (Lent { words, rows: vec![], numbers: counts }, bounds)
}

/// A store that a run reaches.
pub fn reached_store(random: &mut Random) -> Lent<6, u32> {
    let slots = slots(random);
    let (mut rows, mut blocks) = (vec![[0; 3]; slots], vec![0; slots]);
    let size = random.pick(&[1, 2, 3, 5, 2_048, 4_096]);
    let mut words = store::open(allowed(random, model::is_error), size, &mut rows, &mut blocks).expect("it is allowed");
    let (kind, n) = (random.pick(&KINDS), random.within(0, 2 * slots.min(300) as u64) as u32);
    for i in 0..n {
        let v = kind.observation(i, n, random);
        let _ = store::insert(&mut words, &mut rows, &mut blocks, v);
        if random.one_in(8) {
            store::compress(&mut words, &mut rows, &mut blocks).expect("it is sound");
        }
    }
    let rows = list(random, slots, &rows[..words[3] as usize]);
    let blocks = numbers(random, slots, &blocks[..words[5] as usize]);
    Lent { words, rows, numbers: blocks }
}

/// Sound entries of a store that no run need reach, and the lengths of their blocks.
pub fn built_blocks(random: &mut Random, slots: usize, size: u32) -> Option<(u32, Vec<Entry>, Vec<u32>)> {
    let held = random.within(1, slots as u64) as usize;
    let n = taken(random, held);
    let gs = parts(random, held, n, n)?;
    let values = rising(random, held);
    let largest = random.pick(&[0, 3, 1_000, 3_999_999_999]);
    let entries = (0..held).map(|i| [values[i], gs[i], random.within(0, largest) as u32]).collect();
    let least = held.div_ceil(size as usize) as u64;
    let count = random.within(least, held as u64) as usize;
    Some((n as u32, entries, parts(random, count, held as u64, size.into())?))
}

pub fn built_store(random: &mut Random) -> Option<Lent<6, u32>> {
    let (slots, size) = (slots(random), random.pick(&[1, 2, 3, 5, 2_048, 4_096]));
    let error = allowed(random, model::is_error);
    let (n, entries, lengths) = built_blocks(random, slots, size)?;
    let words = [error[0], error[1], n, entries.len() as u32, size, lengths.len() as u32];
    Some(Lent { words, rows: list(random, slots, &entries), numbers: numbers(random, slots, &lengths) })
}

/// A CKMS that a run reaches.
pub fn reached_ckms(random: &mut Random) -> Lent<10, u64> {
    let slots = slots(random);
    let (mut rows, mut blocks) = (vec![[0; 3]; slots], vec![0; slots]);
    let mut words = ckms::open(allowed(random, model::is_error), &mut rows, &mut blocks).expect("it is allowed");
    let (kind, n) = (random.pick(&KINDS), random.within(0, 2 * slots.min(300) as u64) as u32);
    for i in 0..n {
        let v = kind.observation(i, n, random);
        let _ = ckms::insert(&mut words, &mut rows, &mut blocks, v);
    }
    let rows = list(random, slots, &rows[..words[3] as usize]);
    let blocks = numbers(random, slots, &blocks[..words[4] as usize]);
    Lent { words, rows, numbers: blocks }
}

pub fn built_ckms(random: &mut Random) -> Option<Lent<10, u64>> {
    let slots = slots(random);
    let error = allowed(random, model::is_error);
    let (n, entries, lengths) = built_blocks(random, slots, 2_048)?;
    let modulus = ckms::modulus(error);
    let inserts = random.pick(&[0, modulus - 1, random.clone().below(modulus)]);
    let (held, used) = (entries.len() as u64, lengths.len() as u64);
    let words = [error[0].into(), error[1].into(), n.into(), held, used, inserts, 1, edge(random).into(), 1, float(random)];
    Some(Lent { words, rows: list(random, slots, &entries), numbers: numbers(random, slots, &lengths) })
}
