//! Random numbers from a seed that is printed, and the kinds of observations that scans are made of.

/// splitmix64.
#[derive(Clone)]
pub struct Random(u64);

impl Random {
    /// A sequence of its own for each part of the run, so that a part can be run again alone.
    pub fn new(seed: u64, part: u64) -> Random {
        Random(seed ^ part.wrapping_mul(0x9E37_79B9_7F4A_7C15))
    }

    pub fn word(&mut self) -> u64 {
        self.0 = self.0.wrapping_add(0x9E37_79B9_7F4A_7C15);
        let mut z = self.0;
        z = (z ^ (z >> 30)).wrapping_mul(0xBF58_476D_1CE4_E5B9);
        z = (z ^ (z >> 27)).wrapping_mul(0x94D0_49BB_1331_11EB);
        z ^ (z >> 31)
    }

    /// From 0 to `end` - 1.
    pub fn below(&mut self, end: u64) -> u64 {
        ((u128::from(self.word()) * u128::from(end)) >> 64) as u64
    }

    pub fn within(&mut self, from: u64, to: u64) -> u64 {
        from + self.below(to - from + 1)
    }

    pub fn one_in(&mut self, n: u64) -> bool {
        self.below(n) == 0
    }

    pub fn pick<T: Copy>(&mut self, from: &[T]) -> T {
        from[self.below(from.len() as u64) as usize]
    }
}

#[derive(Clone, Copy, PartialEq, Eq, Debug)]
pub enum Kind {
    Uniform,
    Ascending,
    Descending,
    Constant,
    FewValues,
    HeavyTailed,
    ZigZag,
    Edges,
}

pub const KINDS: [Kind; 8] =
    [Kind::Uniform, Kind::Ascending, Kind::Descending, Kind::Constant, Kind::FewValues, Kind::HeavyTailed, Kind::ZigZag, Kind::Edges];

impl Kind {
    /// Observation number i, counted from 0, of at most `n`.
    pub fn observation(self, i: u32, n: u32, random: &mut Random) -> u32 {
        match self {
            Kind::Uniform => random.word() as u32,
            Kind::Ascending => i,
            Kind::Descending => n - i,
            Kind::Constant => 7,
            Kind::FewValues => random.below(5) as u32,
            // A scan's intensities: most near the floor, few far above it.
            Kind::HeavyTailed => (u64::from(u32::MAX) / (1 + random.below(1 << 24))) as u32,
            // High and low by turns, each time nearer to the middle.
            Kind::ZigZag if i.is_multiple_of(2) => n + (n - i),
            Kind::ZigZag => i,
            Kind::Edges => random.pick(&[0, 1, 2, u32::MAX / 2, u32::MAX - 1, u32::MAX]),
        }
    }
}
