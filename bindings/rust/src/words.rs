//! The states and the answers as the archive has them: structs of plain words, with the fields of `bindings/c/stelomavunt.h` in its order.
use crate::histogram::Bound;
use crate::{Fraction, Refusal};

#[repr(C)]
#[derive(Clone, Copy, PartialEq, Eq, Debug)]
pub struct Stream {
    pub num: u32,
    pub den: u32,
    pub n: u32,
    pub held: u32,
}

#[repr(C)]
#[derive(Clone, Copy, PartialEq, Eq, Debug)]
pub struct Histogram {
    pub count: u64,
    pub has_sum: u64,
    pub sum: u64,
}

#[repr(C)]
#[derive(Clone, Copy, PartialEq, Eq, Debug)]
pub struct Store {
    pub num: u32,
    pub den: u32,
    pub n: u32,
    pub held: u32,
    pub block: u32,
    pub blocks: u32,
}

/// The mean is a float here; whoever keeps the words keeps its bits.
#[repr(C)]
#[derive(Clone, Copy)]
pub struct Ckms {
    pub num: u64,
    pub den: u64,
    pub n: u64,
    pub held: u64,
    pub blocks: u64,
    pub inserts: u64,
    pub has_last: u64,
    pub last: u64,
    pub has_mean: u64,
    pub mean: f64,
}

/// A bound that is asked for; `infinite` other than 0 is +Inf, whatever `value` says.
#[repr(C)]
pub struct BoundWords {
    pub infinite: u32,
    pub value: u32,
}

impl From<Bound> for BoundWords {
    fn from(bound: Bound) -> BoundWords {
        match bound {
            Bound::Finite(value) => BoundWords { infinite: 0, value },
            Bound::PosInf => BoundWords { infinite: 1, value: 0 },
        }
    }
}

#[repr(C)]
pub struct StreamAnswer {
    pub refusal: u32,
    pub stream: Stream,
}

#[repr(C)]
pub struct HistogramAnswer {
    pub refusal: u32,
    pub histogram: Histogram,
}

#[repr(C)]
pub struct StoreAnswer {
    pub refusal: u32,
    pub store: Store,
}

#[repr(C)]
pub struct CkmsAnswer {
    pub refusal: u32,
    pub ckms: Ckms,
}

#[repr(C)]
pub struct Number {
    pub refusal: u32,
    pub value: u32,
}

#[repr(C)]
pub struct Sum {
    pub refusal: u32,
    pub has_sum: u32,
    pub sum: u64,
}

#[repr(C)]
pub struct Part {
    pub refusal: u32,
    pub start: usize,
    pub length: usize,
}

#[repr(C)]
pub struct Ranked {
    pub refusal: u32,
    pub rank: u32,
    pub value: u32,
}

#[repr(C)]
pub struct Last {
    pub refusal: u32,
    pub has_last: u32,
    pub last: u32,
}

#[repr(C)]
pub struct Mean {
    pub refusal: u32,
    pub has_mean: u32,
    pub mean: f64,
}

#[repr(C)]
pub struct ErrorBound {
    pub refusal: u32,
    pub error: Fraction,
}

/// What a flat answer says: its value where the refusal is 0.
pub fn given<T>(refusal: u32, value: T) -> Result<T, Refusal> {
    match refusal {
        0 => Ok(value),
        1 => Err(Refusal::Slots),
        2 => Err(Refusal::Epsilon),
        3 => Err(Refusal::Block),
        5 => Err(Refusal::Count),
        6 => Err(Refusal::Full),
        7 => Err(Refusal::Phi),
        8 => Err(Refusal::Empty),
        9 => Err(Refusal::BoundsEmpty),
        10 => Err(Refusal::BoundsMany),
        11 => Err(Refusal::BoundsOrder),
        12 => Err(Refusal::File),
        // 4; the contracts allow no other number.
        _ => Err(Refusal::Damaged),
    }
}
