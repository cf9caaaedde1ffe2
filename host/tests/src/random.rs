//! A deterministic generator of pseudo-random numbers, and the tables made with it.

/// The generator splitmix64: the same numbers for the same seed, everywhere.
pub struct Random(u64);

impl Random {
    pub fn new(seed: u64) -> Self {
        Random(seed)
    }

    pub fn next(&mut self) -> u64 {
        self.0 = self.0.wrapping_add(0x9e37_79b9_7f4a_7c15);
        let z = (self.0 ^ (self.0 >> 30)).wrapping_mul(0xbf58_476d_1ce4_e5b9);
        let z = (z ^ (z >> 27)).wrapping_mul(0x94d0_49bb_1331_11eb);
        z ^ (z >> 31)
    }

    /// A number below `bound`, which is not 0.
    pub fn below(&mut self, bound: u64) -> u64 {
        self.next() % bound
    }

    pub fn residue(&mut self, m: u32) -> u32 {
        self.below(m.into()) as u32
    }

    pub fn word(&mut self) -> u32 {
        self.next() as u32
    }

    pub fn byte(&mut self) -> u8 {
        self.next() as u8
    }

    pub fn pick<'a, T>(&mut self, choices: &'a [T]) -> &'a T {
        &choices[self.below(choices.len() as u64) as usize]
    }
}

/// How the entries of an input are chosen.
#[derive(Clone, Copy, Debug, PartialEq)]
pub enum Fill {
    Zeros,
    Largest,
    Uniform,
    /// 0 and m − 1 alone
    Extremes,
    /// mostly 0
    Sparse,
    /// one entry that is not 0
    Single,
}

pub const FILLS: [Fill; 6] = [Fill::Zeros, Fill::Largest, Fill::Uniform, Fill::Extremes, Fill::Sparse, Fill::Single];

impl Fill {
    pub fn entries(self, length: usize, m: u32, random: &mut Random) -> Vec<u32> {
        let single = random.below(length as u64) as usize;
        let entry = |i| match self {
            Fill::Zeros => 0,
            Fill::Largest => m - 1,
            Fill::Uniform => random.residue(m),
            Fill::Extremes => *random.pick(&[0, m - 1]),
            Fill::Sparse if random.below(8) == 0 => random.residue(m),
            Fill::Single if i == single => 1 + random.residue(m - 1),
            Fill::Sparse | Fill::Single => 0,
        };
        (0..length).map(entry).collect()
    }
}
