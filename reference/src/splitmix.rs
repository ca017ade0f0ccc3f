//! SplitMix64 and random f64 arguments.

/// The generator of document 02 [11], with 64-bit wrapping arithmetic.
pub struct SplitMix64 {
    state: u64,
}

/// Values at which something happens in f64: zeros, ends of the format, infinities and NaNs of each kind.
pub const SPECIALS: [u64; 28] = [
    0x0000_0000_0000_0000, // +0
    0x8000_0000_0000_0000, // -0
    0x7FF0_0000_0000_0000, // +inf
    0xFFF0_0000_0000_0000, // -inf
    0x7FF8_0000_0000_0000, // quiet NaN
    0xFFF8_0000_0000_0000,
    0x7FFF_FFFF_FFFF_FFFF,
    0xFFFF_FFFF_FFFF_FFFF,
    0x7FF0_0000_0000_0001, // signalling NaN
    0xFFF0_0000_0000_0001,
    0x7FF7_FFFF_FFFF_FFFF,
    0xFFF4_0000_0000_0000,
    0x0000_0000_0000_0001, // least subnormal
    0x8000_0000_0000_0001,
    0x000F_FFFF_FFFF_FFFF, // largest subnormal
    0x800F_FFFF_FFFF_FFFF,
    0x0010_0000_0000_0000, // least normal
    0x8010_0000_0000_0000,
    0x7FEF_FFFF_FFFF_FFFF, // largest finite
    0xFFEF_FFFF_FFFF_FFFF,
    0x7FD0_0000_0000_0000, // 2^1022
    0xFFD0_0000_0000_0000,
    0x3FF0_0000_0000_0000, // 1
    0xBFF0_0000_0000_0000,
    0x3FE0_0000_0000_0000, // 1/2
    0xBFE0_0000_0000_0000,
    0x4024_0000_0000_0000, // 10
    0xC024_0000_0000_0000,
];

impl SplitMix64 {
    pub fn new(seed: u64) -> Self {
        Self { state: seed }
    }

    /// The next 64 bits.
    pub fn draw(&mut self) -> u64 {
        self.state = self.state.wrapping_add(0x9E37_79B9_7F4A_7C15);
        let mut z = self.state;
        z = (z ^ (z >> 30)).wrapping_mul(0xBF58_476D_1CE4_E5B9);
        z = (z ^ (z >> 27)).wrapping_mul(0x94D0_49BB_1331_11EB);
        z ^ (z >> 31)
    }

    /// A number below n; n is not 0.
    pub fn below(&mut self, n: usize) -> usize {
        (self.draw() % n as u64) as usize
    }

    /// True once in n draws.
    pub fn one_in(&mut self, n: usize) -> bool {
        self.below(n) == 0
    }

    /// One of a list.
    pub fn pick<T: Copy>(&mut self, list: &[T]) -> T {
        list[self.below(list.len())]
    }

    /// Uniform in 0..1, in steps of 2^-53.
    pub fn unit(&mut self) -> f64 {
        (self.draw() >> 11) as f64 / 9_007_199_254_740_992.0
    }

    /// Uniform between two ends.
    pub fn uniform(&mut self, lo: f64, hi: f64) -> f64 {
        lo + self.unit() * (hi - lo)
    }

    /// Any bit pattern.
    pub fn pattern(&mut self) -> f64 {
        f64::from_bits(self.draw())
    }

    /// One of the special values.
    pub fn special(&mut self) -> f64 {
        f64::from_bits(self.pick(&SPECIALS))
    }

    /// A subnormal of either sign, its number of leading zeros uniform.
    pub fn subnormal(&mut self) -> f64 {
        let bits = self.draw();
        let shift = 12 + self.below(52);
        f64::from_bits((bits >> shift) | (bits << 63))
    }

    /// A value at most `steps` bit patterns from x.
    pub fn near(&mut self, x: f64, steps: u32) -> f64 {
        let step = self.below(2 * steps as usize + 1) as i64 - i64::from(steps);
        f64::from_bits(x.to_bits().wrapping_add_signed(step))
    }

    /// Any f64: a pattern, a special, a subnormal, one near a special, or an ordinary number.
    pub fn argument(&mut self) -> f64 {
        match self.below(8) {
            0 => self.special(),
            1 => self.subnormal(),
            2 => {
                let x = self.special();
                self.near(x, 4)
            }
            3 => self.uniform(-10.0, 10.0),
            4 => self.uniform(-800.0, 800.0),
            _ => self.pattern(),
        }
    }
}

#[cfg(test)]
mod tests {
    use super::*;

    /// The first numbers of seed 0, as the generator's author published them.
    #[test]
    fn first_draws() {
        let mut rng = SplitMix64::new(0);
        assert_eq!(rng.draw(), 0xE220_A839_7B1D_CDAF);
        assert_eq!(rng.draw(), 0x6E78_9E6A_A1B9_65F4);
        assert_eq!(rng.draw(), 0x06C4_5D18_8009_454F);
    }

    #[test]
    fn subnormals_are_subnormal() {
        let mut rng = SplitMix64::new(7);
        for _ in 0..10_000 {
            let x = rng.subnormal();
            assert!(x.abs() < f64::MIN_POSITIVE);
        }
    }
}
