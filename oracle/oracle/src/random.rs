//! A small deterministic generator (splitmix64), so that a count and a seed name the same cases on every machine.

pub const STEP: u64 = 0x9E37_79B9_7F4A_7C15;

pub struct Random {
    counter: u64,
}

impl Random {
    pub fn new(seed: u64) -> Random {
        Random { counter: seed }
    }

    pub fn bits(&mut self) -> u64 {
        self.counter = self.counter.wrapping_add(STEP);
        let mut z = self.counter;
        z = (z ^ (z >> 30)).wrapping_mul(0xBF58_476D_1CE4_E5B9);
        z = (z ^ (z >> 27)).wrapping_mul(0x94D0_49BB_1331_11EB);
        z ^ (z >> 31)
    }

    /// A generator of its own, which takes nothing from this one.
    pub fn aside(&self) -> Random {
        Random::new(!self.counter)
    }

    pub fn below(&mut self, k: usize) -> usize {
        (self.bits() % k as u64) as usize
    }

    /// Both ends included.
    pub fn between(&mut self, low: i64, high: i64) -> i64 {
        low + (self.bits() % (high - low + 1) as u64) as i64
    }

    pub fn percent(&mut self, k: usize) -> bool {
        self.below(100) < k
    }

    pub fn pick<T: Copy>(&mut self, of: &[T]) -> T {
        of[self.below(of.len())]
    }

    /// From -1 up to 1.
    pub fn unit(&mut self) -> f64 {
        (self.bits() >> 11) as f64 / (1u64 << 52) as f64 - 1.0
    }

    /// Any sign, a random mantissa, the given binary exponent (subnormal where it is below -1022).
    pub fn scaled(&mut self, exponent: i64) -> f64 {
        let mantissa = 1.0 + (self.bits() >> 12) as f64 / (1u64 << 52) as f64;
        let sign = if self.percent(50) { -1.0 } else { 1.0 };
        sign * mantissa * power_of_two(exponent)
    }

    /// From below 1e-320 to above 1e307.
    pub fn wild(&mut self) -> f64 {
        let exponent = self.between(-1070, 1022);
        self.scaled(exponent)
    }
}

pub fn power_of_two(exponent: i64) -> f64 {
    if exponent < -1022 {
        f64::from_bits(1u64 << (exponent + 1074).max(0))
    } else {
        f64::from_bits(((exponent.min(1023) + 1023) as u64) << 52)
    }
}
