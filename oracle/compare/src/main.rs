//! Compares the library with the original on document 01's domain, and with the model on any words whatever.
//!
//!     cargo run --profile checked -p compare -- [--long] [--seed N] [--cases N] [--exact] [--only PART]
//!
//! Exit status 0: no mismatch. 1: a mismatch, said in the last line, with the seed that shows it again.
mod domain;
mod hostile;
mod random;
mod subject;

use domain::{ckmses, histograms, stores, streams, Verdict};
use std::collections::BTreeMap;
use std::sync::atomic::Ordering::Relaxed;
use std::time::Instant;
use subject::{Library, Model, Subject};

/// What was compared.
#[derive(Default)]
pub struct Tally {
    pub inputs: u64,
    pub steps: u64,
    /// Runs that ended early since every slot was taken.
    full: Vec<String>,
    /// How many calls were answered (0) or refused, by call and number.
    pub answers: BTreeMap<(&'static str, u32), u64>,
}

impl Tally {
    pub fn full(&mut self, which: String) {
        self.full.push(which);
    }

    pub fn answered(&mut self, call: &'static str, number: u32) {
        *self.answers.entry((call, number)).or_default() += 1;
    }

    /// The same by number alone.
    fn by_number(&self) -> BTreeMap<u32, u64> {
        let mut by_number = BTreeMap::new();
        for (&(_, number), count) in &self.answers {
            *by_number.entry(number).or_default() += count;
        }
        by_number
    }
}

struct Asked {
    long: bool,
    seed: u64,
    /// How many states of any words are made for each module, twice as many for the stream.
    cases: Option<u64>,
    only: Option<String>,
}

fn asked() -> Result<Asked, String> {
    let mut asked = Asked { long: false, seed: 20_261_115, cases: None, only: None };
    let mut args = std::env::args().skip(1);
    while let Some(arg) = args.next() {
        match arg.as_str() {
            "--long" => asked.long = true,
            "--seed" => asked.seed = args.next().and_then(|s| s.parse().ok()).ok_or("--seed wants a number")?,
            "--cases" => asked.cases = Some(args.next().and_then(|s| s.parse().ok()).ok_or("--cases wants a number")?),
            // For valgrind: see hostile.rs.
            "--exact" => hostile::EXACT.store(true, Relaxed),
            "--only" => asked.only = Some(args.next().ok_or("--only wants the beginning of a part's name")?),
            _ => return Err(format!("{arg}: not known; there are --long, --seed N, --cases N, --exact, --only PART")),
        }
    }
    Ok(asked)
}

/// Runs a part and says how much was compared.
fn part(asked: &Asked, name: &str, run: impl FnOnce(&mut Tally) -> Verdict) -> Verdict {
    if asked.only.as_ref().is_some_and(|only| !name.starts_with(only.as_str())) {
        return Ok(());
    }
    let (start, mut tally) = (Instant::now(), Tally::default());
    run(&mut tally).map_err(|why| format!("{name}: {why}"))?;
    println!("{name}: {} inputs, {} steps, no mismatch ({:.1} s)", tally.inputs, tally.steps, start.elapsed().as_secs_f64());
    for which in &tally.full {
        println!("    ended FULL: {which}");
    }
    if !tally.answers.is_empty() {
        let each: Vec<String> = tally.by_number().iter().map(|(&number, count)| format!("{} {count}", hostile::name(number))).collect();
        println!("    answers: {}", each.join(", "));
    }
    Ok(())
}

fn against_original<S: Subject>(asked: &Asked) -> Verdict {
    let (long, seed) = (asked.long, asked.seed);
    let name = |what: &str| format!("{} and original, {what}", S::NAME);
    let dens: &[u32] = if long { &[2, 4, 8, 16, 32] } else { &[2, 4, 8] };
    let shapes: &[(u32, usize)] = if long { &[(4, 7), (3, 9), (2, 13)] } else { &[(3, 7), (2, 10)] };
    part(asked, &name("stream, short"), |t| streams::short::<S>(t, dens, shapes))?;
    let epsilons = [[1, 2], [1, 4], [3, 8], [1, 16], [5, 32], [1, 128], [100, 1_024], [1, 512], [1, 1_024]];
    part(asked, &name("stream, random"), |t| streams::random::<S>(t, seed, &epsilons, if long { 50_000 } else { 4_000 }))?;
    part(asked, &name("histogram, short"), |t| histograms::short::<S>(t))?;
    let sizes = [1, 2, 7, 64, 464, 1_024];
    part(asked, &name("histogram, random"), |t| histograms::random::<S>(t, seed, &sizes, if long { 20_000 } else { 1_000 }))?;
    let shapes: &[(u32, usize)] = if long { &[(3, 7), (2, 9)] } else { &[(2, 7)] };
    part(asked, &name("store, short"), |t| stores::short::<S>(t, &dens[..3], &[1, 2, 3], shapes))?;
    let errors = [[1, 2], [1, 4], [7, 8], [3, 16], [1, 64], [1, 1_024], [1_023, 1_024]];
    let n = if long { 3_000 } else { 400 };
    part(asked, &name("store, random"), |t| stores::random::<S>(t, seed, &errors, &[1, 2, 3, 16, 4_096], n))?;
    let shapes: &[(u32, usize)] = if long { &[(4, 7), (2, 12)] } else { &[(3, 7), (2, 10)] };
    part(asked, &name("CKMS, short"), |t| ckmses::short::<S>(t, dens, shapes))?;
    part(asked, &name("CKMS, random"), |t| ckmses::random::<S>(t, seed, &errors, if long { 20_000 } else { 2_000 }))
}

/// The whole scans: a million observations.
fn whole_scans(asked: &Asked) -> Verdict {
    let epsilons = [[1, 2], [1, 16], [1, 128], [1, 512], [1, 1_024]];
    part(asked, "library and original, stream, 1,000,000 observations", |t| streams::random::<Library>(t, asked.seed, &epsilons, 1_000_000))
}

/// Any words whatever. Where no number of cases is asked for, each call has to meet each of its refusals.
fn hostile(asked: &Asked) -> Verdict {
    let (seed, cases) = (asked.seed, asked.cases.unwrap_or(if asked.long { 250_000 } else { 20_000 }));
    let any_words = |what: &str, run: fn(&mut Tally, u64, u64) -> Verdict, cases: u64| {
        part(asked, &format!("library and model, {what}, any words"), |t| {
            run(t, seed, cases)?;
            if asked.cases.is_none() {
                hostile::all_met(t)
            } else {
                Ok(())
            }
        })
    };
    any_words("stream", hostile::hostile_streams, 2 * cases)?;
    any_words("histogram", hostile::hostile_histograms, cases)?;
    any_words("store", hostile::hostile_stores, cases)?;
    any_words("CKMS", hostile::hostile_ckms, cases)
}

fn run(asked: &Asked) -> Verdict {
    part(asked, "band", |t| domain::bands(t, if asked.long { 8_000_000 } else { 1_000_000 }))?;
    // The model is judged before it judges.
    against_original::<Model>(asked)?;
    against_original::<Library>(asked)?;
    hostile(asked)?;
    if asked.long {
        whole_scans(asked)?;
    }
    Ok(())
}

fn main() {
    let asked = asked().unwrap_or_else(|why| {
        eprintln!("compare: {why}");
        std::process::exit(2);
    });
    let form = if asked.long { "long" } else { "short" };
    println!("compare: the {form} form, seed {}, kinds {:?}", asked.seed, domain::kinds());
    if let Err(why) = run(&asked) {
        println!("compare: MISMATCH, seed {}: {why}", asked.seed);
        std::process::exit(1);
    }
    println!("compare: no mismatch, seed {}", asked.seed);
}
