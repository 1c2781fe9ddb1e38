//! Times the library beside the original: same input, one run, optimised builds, taken by turns, the best of several.
//!
//!     cargo run --release -p bench -- [--quick]
//!
//! Each insert of the library tests the whole state first; the original tests nothing.
use quantiles::ckms::CKMS;
use quantiles::greenwald_khanna::Stream;
use quantiles::histogram::Histogram;
use std::hint::black_box;
use std::time::{Duration, Instant};
use stelomavunt::{ckms, greenwald_khanna, histogram, Entry, Fraction};

#[derive(Clone, Copy, PartialEq, Debug)]
enum Kind {
    Random,
    Ascending,
    HeavyTailed,
}

const KINDS: [Kind; 3] = [Kind::Random, Kind::Ascending, Kind::HeavyTailed];

/// The observations, the same for both.
fn observations(kind: Kind, n: u32) -> Vec<u32> {
    let mut x = 0x9E37_79B9_7F4A_7C15u64;
    let mut word = || {
        x ^= x << 13;
        x ^= x >> 7;
        x ^= x << 17;
        x
    };
    let one = |i: u32, word: u64| match kind {
        Kind::Random => (word >> 32) as u32,
        Kind::Ascending => i,
        Kind::HeavyTailed => (u64::from(u32::MAX) / (1 + (word >> 40))) as u32,
    };
    (0..n).map(|i| one(i, word())).collect()
}

/// The best times of both, in nanoseconds for each of `n`, taken by turns.
fn by_turns(rounds: u32, n: u32, mut ours: impl FnMut() -> Duration, mut original: impl FnMut() -> Duration) -> [f64; 2] {
    let mut best = [Duration::MAX; 2];
    for _ in 0..rounds {
        best = [best[0].min(ours()), best[1].min(original())];
    }
    best.map(|t| t.as_secs_f64() * 1e9 / f64::from(n))
}

fn row(what: &str, [ours, original]: [f64; 2]) {
    println!("| {what} | {ours:.1} | {original:.1} | {:.2} |", ours / original);
}

fn timed<T>(run: impl FnOnce() -> T) -> Duration {
    let start = Instant::now();
    black_box(run());
    start.elapsed()
}

fn heading(what: &str) {
    println!("\n| {what} | library, ns | original, ns | ratio |\n|---|---|---|---|");
}

/// A stream of ours with its list, after all observations.
fn filled(epsilon: Fraction, vs: &[u32]) -> (greenwald_khanna::Stream, Vec<Entry>) {
    let mut list = vec![Entry::default(); 4_096];
    let mut stream = greenwald_khanna::Stream::open(epsilon, &mut list).expect("it is allowed");
    for &v in vs {
        stream.insert(&mut list, v).expect("the slots are enough");
    }
    (stream, list)
}

fn filled_original(epsilon: Fraction, vs: &[u32]) -> Stream<u32> {
    let mut stream = Stream::new(float(epsilon));
    for &v in vs {
        stream.insert(v);
    }
    stream
}

fn float(f: Fraction) -> f64 {
    f64::from(f.num) / f64::from(f.den)
}

fn streams(rounds: u32, n: u32) {
    heading(&format!("stream, {n} single inserts"));
    for den in [16, 128, 1_024] {
        let epsilon = Fraction { num: 1, den };
        for kind in KINDS {
            let vs = observations(kind, n);
            let held = filled(epsilon, &vs).0.words()[3];
            let times = by_turns(rounds, n, || timed(|| filled(epsilon, &vs)), || timed(|| filled_original(epsilon, &vs)));
            row(&format!("ε 1/{den}, {kind:?}, {held} held at the end"), times);
        }
    }
}

fn quantiles(rounds: u32, n: u32) {
    heading("stream, quantile of a stream of random observations");
    let asked = 2_000;
    for den in [16, 128, 1_024] {
        let epsilon = Fraction { num: 1, den };
        let vs = observations(Kind::Random, n);
        let ((stream, list), original) = (filled(epsilon, &vs), filled_original(epsilon, &vs));
        let phis: Vec<Fraction> = (0..asked).map(|i| Fraction { num: i % 1_025, den: 1_024 }).collect();
        let ours = || timed(|| phis.iter().map(|&phi| u64::from(stream.quantile(&list, phi).expect("there is one"))).sum::<u64>());
        let theirs = || timed(|| phis.iter().map(|&phi| u64::from(*original.quantile(float(phi)))).sum::<u64>());
        row(&format!("ε 1/{den}, {} held", stream.words()[3]), by_turns(rounds, asked, ours, theirs));
    }
}

/// Bounds that cut the observations into bins of about equal counts, as a quality page has them.
fn equal_bins(vs: &[u32], size: u32) -> Vec<u32> {
    let mut sorted = vs.to_vec();
    sorted.sort_unstable();
    (1..=size as usize).map(|i| sorted[i * (vs.len() - 1) / (size as usize + 1)]).collect()
}

fn histograms(rounds: u32, n: u32) {
    heading(&format!("histogram, {n} inserts"));
    for size in [64u32, 464, 1_024] {
        for kind in [Kind::Random, Kind::HeavyTailed] {
            let vs = observations(kind, n);
            let bounds = equal_bins(&vs, size);
            let ours = || {
                let mut counts = vec![0; bounds.len() + 1];
                let mut histogram = histogram::Histogram::open(&bounds, &mut counts).expect("they are allowed");
                timed(|| vs.iter().for_each(|&v| histogram.insert(&bounds, &mut counts, v).expect("it is sound")))
            };
            let original = || {
                let mut histogram = Histogram::<u64>::new(bounds.iter().map(|&b| b.into()).collect()).expect("they are sorted");
                timed(|| vs.iter().for_each(|&v| histogram.insert(v.into())))
            };
            row(&format!("{size} bounds, {kind:?}"), by_turns(rounds, n, ours, original));
        }
    }
}

fn ckmses(rounds: u32, most: u32) {
    heading("CKMS, inserts");
    for (error, n) in [(Fraction { num: 1, den: 2 }, 100_000), (Fraction { num: 1, den: 8 }, 50_000), (Fraction { num: 1, den: 64 }, 20_000)] {
        let n = n.min(most);
        let vs = observations(Kind::Random, n);
        let fill = || {
            let (mut list, mut blocks) = (vec![Entry::default(); 4_096], vec![0; 4_096]);
            let mut ckms = ckms::CKMS::open(error, &mut list, &mut blocks).expect("it is allowed");
            for &v in &vs {
                ckms.insert(&mut list, &mut blocks, v).expect("the slots are enough");
            }
            ckms
        };
        let original = || {
            let mut ckms = CKMS::<u32>::new(float(error));
            vs.iter().for_each(|&v| ckms.insert(v));
            ckms
        };
        let held = fill().words()[3];
        let times = by_turns(rounds, n, || timed(fill), || timed(original));
        row(&format!("error {}/{}, {n} random observations, {held} held at the end", error.num, error.den), times);
    }
}

fn main() {
    let quick = std::env::args().any(|arg| arg == "--quick");
    let (rounds, n) = if quick { (2, 50_000) } else { (5, 1_000_000) };
    println!("The best of {rounds} rounds, library and original by turns; nanoseconds for each call.");
    streams(rounds, n);
    quantiles(rounds, n);
    histograms(rounds, n);
    ckmses(rounds, n);
}
