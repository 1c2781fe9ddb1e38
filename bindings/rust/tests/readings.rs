//! The customer's readings, through the binding. The numbers are those of their table.
use stelomavunt::histogram::Bound;
use stelomavunt::{ckms, greenwald_khanna, histogram, owned, Entry, Fraction, Refusal};

fn f(num: u32, den: u32) -> Fraction {
    Fraction { num, den }
}

fn e(v: u32, g: u32, delta: u32) -> Entry {
    Entry { v, g, delta }
}

#[test]
fn case_1_and_2_stream() {
    let mut stream = owned::Stream::<6>::new(f(1, 4)).unwrap();
    for v in [30, 10, 20, 40, 25, 35] {
        stream.insert(v).unwrap();
    }
    assert_eq!(stream.entries(), [e(10, 1, 0), e(20, 1, 1), e(30, 2, 0), e(40, 2, 0)]);
    for (phi, v) in [(f(1, 2), 30), (f(0, 1), 10), (f(1, 1), 40), (f(1, 4), 10)] {
        assert_eq!(stream.quantile(phi), Ok(v));
    }
    assert_eq!((stream.n(), stream.s(), stream.p()), (Ok(6), Ok(4), Ok(3)));
}

#[test]
fn case_5_full() {
    let mut stream = owned::Stream::<2>::new(f(1, 4)).unwrap();
    assert_eq!([1, 2, 3].map(|v| stream.insert(v)), [Ok(()), Ok(()), Err(Refusal::Full)]);
    assert_eq!(stream.n(), Ok(2));
}

#[test]
fn case_6_epsilon() {
    assert!(owned::Stream::<8>::new(f(1, 2)).is_ok());
    assert!(owned::Stream::<8>::new(f(1, 65_536)).is_ok());
    for epsilon in [f(501, 1_000), f(0, 7), f(1, 0), f(1, 65_537)] {
        assert_eq!(owned::Stream::<8>::new(epsilon).err(), Some(Refusal::Epsilon));
    }
}

#[test]
fn case_7_and_8_histogram() {
    let mut seven = owned::Histogram::<3>::new(&[10, 100]).unwrap();
    seven.insert(99).unwrap();
    seven.insert(100).unwrap();
    assert_eq!(seven.counts(), [0, 2, 0]);
    let mut eight = owned::Histogram::<5>::new(&[10, 256, 1_987, 1_990]).unwrap();
    assert_eq!(eight.sum(), Ok(None));
    for v in 0..2_048 {
        eight.insert(v).unwrap();
    }
    assert_eq!(eight.counts(), [11, 246, 1_731, 3, 57]);
    assert_eq!(eight.sum(), Ok(Some(2_096_128)));
    assert_eq!(eight.total_above(Bound::Finite(0)), Ok(2_048));
    assert_eq!(eight.total_above(Bound::Finite(11)), Ok(2_037));
}

#[test]
fn case_9_store() {
    let mut store = owned::Store::<8>::new(2, f(1, 2)).unwrap();
    for v in [10, 20, 30, 40, 50, 45] {
        store.insert(v).unwrap();
    }
    assert_eq!(store.entries()[4], e(45, 1, 2));
    assert_eq!((store.len(), store.is_empty()), (Ok(6), Ok(false)));
    store.compress().unwrap();
    assert!(store.entries().iter().map(|e| e.g).sum::<u32>() == 6);
}

#[test]
fn case_10_12_and_13_ckms() {
    let mut ten = owned::CKMS::<8>::new(f(1, 2)).unwrap();
    assert_eq!((ten.last(), ten.cma(), ten.count()), (Ok(None), Ok(None), Ok(0)));
    for v in [1, 2, 3] {
        ten.insert(v).unwrap();
    }
    assert_eq!(ten.entries(), [e(1, 1, 0), e(3, 2, 0)]);
    assert_eq!(ten.query(f(1, 1)), Ok((2, 3)));
    assert_eq!(ten.error_bound(), Ok(f(1, 2)));
    let mut twelve = owned::CKMS::<8>::new(f(1, 10)).unwrap();
    twelve.insert(0).unwrap();
    twelve.insert(100).unwrap();
    assert_eq!((twelve.cma(), twelve.last()), (Ok(Some(50.0)), Ok(Some(100))));
    let mut thirteen = owned::CKMS::<2_000>::new(f(1, 1_000)).unwrap();
    for v in 1..=1_000 {
        thirteen.insert(v).unwrap();
    }
    for (q, answer) in [(f(0, 1), 1), (f(998, 1_000), 998), (f(999, 1_000), 999), (f(1, 1), 1_000)] {
        assert_eq!(thirteen.query(q), Ok((answer, answer)));
    }
}

#[test]
fn refusals_in_order() {
    let mut none: [Entry; 0] = [];
    assert_eq!(greenwald_khanna::Stream::open(f(1, 0), &mut none), Err(Refusal::Slots));
    let mut list = [Entry::default(); 2];
    let stream = greenwald_khanna::Stream::open(f(1, 2), &mut list).unwrap();
    assert_eq!(stream.quantile(&list, f(2, 1)), Err(Refusal::Phi));
    assert_eq!(stream.quantile(&list, f(1, 1)), Err(Refusal::Empty));
    assert_eq!(stream.quantile(&none, f(2, 1)), Err(Refusal::Slots));
    assert_eq!(ckms::Store::open(f(1, 1), 0, &mut list, &mut [0]), Err(Refusal::Slots));
    assert_eq!(ckms::Store::open(f(1, 1), 0, &mut list, &mut [0; 2]), Err(Refusal::Epsilon));
    assert_eq!(ckms::Store::open(f(1, 2), 0, &mut list, &mut [0; 2]), Err(Refusal::Block));
    assert_eq!(histogram::Histogram::open(&[], &mut []), Err(Refusal::BoundsEmpty));
    assert_eq!(histogram::Histogram::open(&[0; 1_025], &mut []), Err(Refusal::BoundsMany));
    assert_eq!(histogram::Histogram::open(&[2, 1], &mut []), Err(Refusal::BoundsOrder));
    assert_eq!(histogram::Histogram::open(&[1, 2], &mut []), Err(Refusal::Slots));
}

/// A stored state is taken up again, and every word that fits no field is DAMAGED, after SLOTS.
#[test]
fn words() {
    let (mut list, mut blocks) = ([Entry::default(); 8], [0; 8]);
    let mut ckms = ckms::CKMS::open(f(1, 4), &mut list, &mut blocks).unwrap();
    assert_eq!(ckms.words(), [1, 4, 0, 0, 0, 0, 0, 0, 0, 0]);
    let fresh = ckms.words();
    for (i, x) in [(0, 1 << 32 | 1), (2, 1 << 32), (6, 2), (7, 1), (8, 2), (9, 1), (9, 1 << 63), (9, f64::NAN.to_bits())] {
        let mut w = fresh;
        w[i] = x;
        let mut altered = ckms::CKMS::from_words(w);
        assert_eq!(altered.insert(&mut list, &mut blocks, 5), Err(Refusal::Damaged), "word {i} is {x:#x}");
        assert_eq!(altered.count(&list, &blocks), Err(Refusal::Damaged));
        assert_eq!(altered.count(&list, &[]), Err(Refusal::Slots));
        assert_eq!(altered.words(), w);
    }
    ckms.insert(&mut list, &mut blocks, 5).unwrap();
    assert_eq!(ckms.words(), [1, 4, 1, 1, 1, 1, 1, 5, 1, 5f64.to_bits()]);
    assert_eq!(ckms::CKMS::from_words(ckms.words()), ckms);

    let bounds = [10];
    let mut counts = [0; 2];
    let histogram = histogram::Histogram::open(&bounds, &mut counts).unwrap();
    for w in [[1 << 32, 0, 0], [0, 2, 0], [0, 0, 1], [0, 1, 0]] {
        assert_eq!(histogram::Histogram::from_words(w).count(&bounds, &counts), Err(Refusal::Damaged));
    }
    assert_eq!(histogram::Histogram::from_words(histogram.words()), histogram);
}

#[test]
fn bins_are_the_callers_own() {
    let bounds = [10, 20, 30];
    let mut counts = [0; 4];
    let mut histogram = histogram::Histogram::open(&bounds, &mut counts).unwrap();
    for v in [5, 15, 15, 25, 35] {
        histogram.insert(&bounds, &mut counts, v).unwrap();
    }
    let part = histogram.bins(&bounds, &counts, Bound::Finite(10), Bound::Finite(30)).unwrap();
    assert_eq!(part, [2, 1]);
    assert!(core::ptr::eq(part, &counts[1..3]));
    assert_eq!(histogram.bins(&bounds, &counts, Bound::PosInf, Bound::Finite(0)), Ok(&[][..]));
}
