//! A small seeded source of numbers (splitmix64), so that every case can be made again.

pub struct Rng(u64);

impl Rng {
    /// The source of case `index` of a kind: it does not depend on the cases before it.
    pub fn of_case(seed: u64, kind: u64, index: u64) -> Self {
        let mut mixed = Rng(seed);
        let a = mixed.bits();
        let mut mixed = Rng(a ^ kind.wrapping_mul(0xD6E8_FEB8_6659_FD93));
        let b = mixed.bits();
        Rng(b ^ index.wrapping_mul(0xA076_1D64_78BD_642F))
    }

    pub fn bits(&mut self) -> u64 {
        self.0 = self.0.wrapping_add(0x9E37_79B9_7F4A_7C15);
        let mut z = self.0;
        z = (z ^ (z >> 30)).wrapping_mul(0xBF58_476D_1CE4_E5B9);
        z = (z ^ (z >> 27)).wrapping_mul(0x94D0_49BB_1331_11EB);
        z ^ (z >> 31)
    }

    /// A number below `n`; `n` is at least 1.
    pub fn below(&mut self, n: u64) -> u64 {
        self.bits() % n
    }

    /// A number from `low` to `high`, both included.
    pub fn between(&mut self, low: u64, high: u64) -> u64 {
        low + self.below(high - low + 1)
    }

    pub fn index(&mut self, n: usize) -> usize {
        self.below(n as u64) as usize
    }

    pub fn chance(&mut self, percent: u64) -> bool {
        self.below(100) < percent
    }

    pub fn pick<T: Copy>(&mut self, choices: &[T]) -> T {
        choices[self.index(choices.len())]
    }

    /// A number from 0 to `high` whose length, not whose value, is spread evenly.
    pub fn any_length(&mut self, high: u64) -> u64 {
        let bits = 64 - high.leading_zeros() as u64;
        let shift = self.between(0, bits);
        let cap = if shift >= 63 { u64::MAX } else { (1u64 << shift) - 1 };
        self.between(0, cap.min(high))
    }
}
