//! Numbers from a seed (SplitMix64), so that a run can be repeated without a crate from a registry.

pub struct Random(u64);

impl Random {
    /// A sequence of its own for each number: what is drawn for it does not hang on how the work is shared out.
    pub fn of(seed: u64, number: u64) -> Random {
        let mut first = Random(seed);
        let seed = first.next();
        Random(seed ^ number.wrapping_mul(0xd1b5_4a32_d192_ed03))
    }

    pub fn next(&mut self) -> u64 {
        self.0 = self.0.wrapping_add(0x9e37_79b9_7f4a_7c15);
        let mut z = self.0;
        z = (z ^ (z >> 30)).wrapping_mul(0xbf58_476d_1ce4_e5b9);
        z = (z ^ (z >> 27)).wrapping_mul(0x94d0_49bb_1331_11eb);
        z ^ (z >> 31)
    }

    pub fn below(&mut self, n: usize) -> usize {
        (self.next() % n as u64) as usize
    }

    /// From `least` to `most`, and an end of the two more often than the rest.
    pub fn within(&mut self, least: u32, most: u32) -> u32 {
        match self.below(8) {
            0 => least,
            1 => most,
            _ => least + self.below((most - least + 1) as usize) as u32,
        }
    }

    pub fn one_in(&mut self, n: usize) -> bool {
        self.below(n) == 0
    }

    pub fn of_these<T: Copy>(&mut self, all: &[T]) -> T {
        all[self.below(all.len())]
    }
}
