//! A generator of numbers (Steele, Lea and Flood 2014), since those of the standard library have
//! other seeds in each process.

/// Random numbers of a run, which are those of its seed.
#[derive(Clone, Debug)]
pub struct Draw(u64);

impl Draw {
    /// The generator of one of the runs under a seed.
    pub(crate) fn of_run(seed: u64, run: u64) -> Draw {
        let start = Draw(seed).number() ^ Draw(!run).number();
        Draw(Draw(start).number())
    }

    /// A number of 64 bits.
    pub(crate) fn number(&mut self) -> u64 {
        self.0 = self.0.wrapping_add(0x9e37_79b9_7f4a_7c15);
        let mixed = (self.0 ^ (self.0 >> 30)).wrapping_mul(0xbf58_476d_1ce4_e5b9);
        let mixed = (mixed ^ (mixed >> 27)).wrapping_mul(0x94d0_49bb_1331_11eb);
        mixed ^ (mixed >> 31)
    }

    /// A number below another one, which isn't 0.
    pub fn below(&mut self, bound: u64) -> u64 {
        ((u128::from(self.number()) * u128::from(bound)) >> 64) as u64
    }

    /// A place in a list of this length, which isn't 0.
    pub fn place(&mut self, length: usize) -> usize {
        self.below(length as u64) as usize
    }
}
