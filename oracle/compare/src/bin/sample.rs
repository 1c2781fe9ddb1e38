//! Writes the fixed list that `crates/original_answers` replays: its `stdin`, the inputs, and its `stdout`, what the original answers.
//!
//!     cargo run --profile checked -p compare --bin sample -- FOLDER
//!
//! Only the original is asked. A case is its kind, how many words follow, and those words, each a u32, little-endian; the kind 0 ends the list.
#[path = "../random.rs"]
#[allow(dead_code)]
mod random;

use quantiles::ckms::store::Store;
use quantiles::ckms::CKMS;
use quantiles::greenwald_khanna::Stream;
use quantiles::histogram::{Bound, Histogram};
use random::{Random, KINDS};
use std::fmt::Write;

const SEED: u64 = 71;

/// A store's observation that stands for a compression.
const COMPRESS: u32 = u32::MAX;

#[derive(Default)]
struct List {
    words: Vec<u32>,
    text: String,
}

impl List {
    fn case(&mut self, kind: u32, head: &[u32], observations: &[u32]) {
        self.words.extend([kind, (head.len() + observations.len()) as u32]);
        self.words.extend(head.iter().chain(observations));
    }

    fn line(&mut self, line: std::fmt::Arguments) {
        writeln!(self.text, "{line}").expect("a String takes all");
    }

    fn stream(&mut self, num: u32, den: u32, vs: &[u32]) {
        self.case(1, &[num, den], vs);
        let mut stream = Stream::new(f64::from(num) / f64::from(den));
        vs.iter().for_each(|&v| stream.insert(v));
        self.line(format_args!("stream {num}/{den}\nn {}", stream.n()));
        for t in &stream.summary {
            self.line(format_args!("entry {} {} {}", t.v, t.g, t.delta));
        }
        for k in 0..9 {
            self.line(format_args!("quantile {}", stream.quantile(f64::from(k) / 8.0)));
        }
    }

    fn histogram(&mut self, bounds: &[u32], vs: &[u32]) {
        let head: Vec<u32> = [bounds.len() as u32].into_iter().chain(bounds.iter().copied()).collect();
        self.case(2, &head, vs);
        let mut histogram = Histogram::<u64>::new(bounds.iter().map(|&b| b.into()).collect()).expect("they are sorted");
        vs.iter().for_each(|&v| histogram.insert(v.into()));
        self.line(format_args!("histogram {}", bounds.len()));
        for bin in histogram.iter() {
            self.line(format_args!("bin {}", bin.1));
        }
        self.line(format_args!("count {}\nsum {}", histogram.count(), histogram.sum().expect("there are observations")));
        for &b in bounds {
            let b = Bound::Finite(b.into());
            self.line(format_args!("below {}\nabove {}", histogram.total_below(b), histogram.total_above(b)));
            self.line(format_args!("between {}", histogram.total_between(b, Bound::PosInf)));
        }
    }

    fn blocks(&mut self, store: &Store<u32>) {
        for inner in &store.data {
            self.line(format_args!("block {}", inner.data.len()));
        }
        for e in store.data.iter().flat_map(|inner| &inner.data) {
            self.line(format_args!("entry {} {} {}", e.v, e.g, e.delta));
        }
        for k in 0..9 {
            let (rank, v) = store.query(f64::from(k) / 8.0).expect("there are observations");
            self.line(format_args!("query {rank} {v}"));
        }
    }

    fn store(&mut self, num: u32, den: u32, size: u32, vs: &[u32]) {
        self.case(3, &[num, den, size], vs);
        let mut store = Store::new(size as usize, f64::from(num) / f64::from(den));
        for &v in vs {
            if v == COMPRESS {
                store.compress();
            } else {
                store.insert(v);
            }
        }
        self.line(format_args!("store {num}/{den}\nsize {size}\nn {}", store.n));
        self.blocks(&store);
    }

    fn ckms(&mut self, num: u32, den: u32, vs: &[u32]) {
        self.case(4, &[num, den], vs);
        let mut ckms = CKMS::<u32>::new(f64::from(num) / f64::from(den));
        vs.iter().for_each(|&v| ckms.insert(v));
        let (last, mean) = (ckms.last().expect("there is one"), ckms.cma().expect("there is one"));
        self.line(format_args!("ckms {num}/{den}\ncount {}\nlast {last}\nmean {:016x}\ninserts {}", ckms.count(), mean.to_bits(), ckms.inserts));
        let samples = ckms.samples.clone();
        self.blocks(&samples);
    }
}

fn main() -> std::io::Result<()> {
    let folder = std::env::args().nth(1).expect("the folder to write to");
    let (mut random, mut list) = (Random::new(SEED, 0), List::default());
    for (i, kind) in KINDS.into_iter().cycle().take(24).enumerate() {
        let n = [7, 40, 150][i / 8];
        let mut few = || (0..n).map(|j| kind.observation(j, n, &mut random)).collect::<Vec<u32>>();
        let (num, den) = [(1, 2), (1, 4), (3, 8), (1, 8), (5, 32), (1, 16), (1, 64), (1, 128)][(i * 3 + i / 8) % 8];
        list.stream(num, den, &few());
        list.ckms(num, den, &few());
        let mut vs: Vec<u32> = few().into_iter().map(|v| v.min(COMPRESS - 1)).collect();
        vs.iter_mut().skip(5).step_by(9).for_each(|v| *v = COMPRESS);
        list.store(num, den, [1, 2, 3, 7][i % 4], &vs);
        let mut bounds = few();
        bounds.sort_unstable();
        bounds.truncate(1 + i);
        list.histogram(&bounds, &few());
    }
    list.words.push(0);
    let bytes: Vec<u8> = list.words.iter().flat_map(|w| w.to_le_bytes()).collect();
    assert!(bytes.len() < 65_536, "the program reads at most 65,536 bytes");
    std::fs::write(format!("{folder}/stdin"), bytes)?;
    std::fs::write(format!("{folder}/stdout"), list.text)
}
