//! Seeded numbers of every size, for the tests that run many calls; each of them uses a part.
#![allow(dead_code)]

pub struct Numbers(pub u64);

impl Numbers {
    /// splitmix64.
    pub fn bits(&mut self) -> u64 {
        self.0 = self.0.wrapping_add(0x9E3779B97F4A7C15);
        let mixed = (self.0 ^ self.0 >> 30).wrapping_mul(0xBF58476D1CE4E5B9);
        let mixed = (mixed ^ mixed >> 27).wrapping_mul(0x94D049BB133111EB);
        mixed ^ mixed >> 31
    }

    pub fn below(&mut self, limit: usize) -> usize {
        (self.bits() % limit as u64) as usize
    }

    pub fn one_in(&mut self, count: usize) -> bool {
        self.below(count) == 0
    }

    /// Small whole numbers, ordinary ones, any finite bits, and rarely what is not finite.
    pub fn double(&mut self) -> f64 {
        match self.below(64) {
            0 => f64::from_bits(self.bits()),
            1 => [f64::NAN, f64::INFINITY, -0.0, f64::MAX, 5e-324][self.below(5)],
            2..24 => self.below(9) as f64 - 4.0,
            _ => (self.bits() >> 11) as f64 / (1u64 << 51) as f64 - 2.0,
        }
    }

    /// Finite, of sizes around two to the power of `scale`.
    pub fn finite(&mut self, scale: i32) -> f64 {
        let near = (self.bits() >> 11) as f64 / (1u64 << 51) as f64 - 2.0;
        near * 2f64.powi(scale)
    }

    pub fn list(&mut self, count: usize) -> Vec<f64> {
        (0..count).map(|_| self.double()).collect()
    }

    /// A list that is finite but for one in a hundred.
    pub fn matrix(&mut self, count: usize) -> Vec<f64> {
        if self.one_in(100) {
            return self.list(count);
        }
        let scale = [0, 0, 0, 0, 30, -30, 500, -500, 1020, -1060][self.below(10)];
        let whole = self.one_in(3);
        let entry = |numbers: &mut Numbers| {
            if whole {
                (numbers.below(5) as f64 - 2.0) * 2f64.powi(scale)
            } else {
                numbers.finite(scale)
            }
        };
        (0..count).map(|_| entry(self)).collect()
    }
}
