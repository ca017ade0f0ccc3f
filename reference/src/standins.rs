//! Document 01's stand-ins for library mathematics, written from its text; max and min from IEEE 754-2019 clause 9.6, as document 02 [3]
//! has it.
//!
//! Each operation is rounded once, in the order shown there; no multiplication is fused with an addition. The larger
//! functions are kept as calls, so that the benchmark compares calls with calls. The features `platform` and `rounded` put
//! other exp and ln in their places, for the near-tie in examples/ only.

use std::ops::Sub;

/// 1/ln 2, for the number of doublings in exp.
const INV_LN2: f64 = f64::from_bits(0x3FF7_1547_652B_82FE);
/// H and L: ln 2 in two parts.
const H: f64 = f64::from_bits(0x3FE6_2E42_FEE0_0000);
const L: f64 = f64::from_bits(0x3DEA_39EF_3579_3C76);
/// Above it, ln halves the mantissa.
const LN_FOLD: f64 = f64::from_bits(0x3FF6_A09E_667F_3BCD);
/// 2/pi, for the number of quarter turns in sin and cos.
const INV_QUARTER: f64 = f64::from_bits(0x3FE4_5F30_6DC9_C883);
/// A quarter turn in two parts.
const QUARTER_H: f64 = f64::from_bits(0x3FF9_21FB_5440_0000);
const QUARTER_L: f64 = f64::from_bits(0x3DD0_B461_1A62_6331);
/// An eighth of a turn, a quarter and a half.
const EIGHTH: f64 = f64::from_bits(0x3FE9_21FB_5444_2D18);
const QUARTER: f64 = f64::from_bits(0x3FF9_21FB_5444_2D18);
const HALF: f64 = f64::from_bits(0x4009_21FB_5444_2D18);
/// 2^20, the largest magnitude that sin and cos take.
const LARGEST_ANGLE: f64 = 1_048_576.0;

const FRACTION: u64 = (1 << 52) - 1;
const ONE: u64 = 1023 << 52;

/// 2^k for a normal result.
fn power_of_two(k: i32) -> f64 {
    f64::from_bits(((k + 1023) as u64) << 52)
}

/// The nearest whole number, ties away from zero, a zero being +0.
pub fn nearest(x: f64) -> f64 {
    // From 2^52 on every f64 is whole; a NaN stays one.
    if x.is_nan() || x.abs() >= 4_503_599_627_370_496.0 {
        return x;
    }
    // The cast cuts the fraction off; the rest is exact, and an integer has only one zero.
    let whole = x as i64;
    let rest = x - whole as f64;
    (whole + i64::from(rest >= 0.5) - i64::from(rest <= -0.5)) as f64
}

/// e to the power x.
#[inline(never)]
pub fn exp(x: f64) -> f64 {
    if cfg!(feature = "platform") {
        return x.exp();
    }
    if cfg!(feature = "rounded") && x.abs() <= 700.0 {
        return crate::rounded::exp(x);
    }
    if x.is_nan() {
        return f64::NAN;
    }
    if x >= 710.0 {
        return f64::INFINITY;
    }
    if x <= -746.0 {
        return 0.0;
    }
    let k = nearest(x * INV_LN2);
    let r = (x - k * H) - k * L;
    let mut s = 1.0;
    for d in [
        14.0, 13.0, 12.0, 11.0, 10.0, 9.0, 8.0, 7.0, 6.0, 5.0, 4.0, 3.0, 2.0, 1.0,
    ] {
        s = 1.0 + (r * s) / d;
    }
    let k = k as i32;
    let a = k.div_euclid(2);
    (s * power_of_two(a)) * power_of_two(k - a)
}

/// The natural logarithm.
#[inline(never)]
pub fn ln(x: f64) -> f64 {
    if cfg!(any(feature = "platform", feature = "rounded")) {
        return x.ln();
    }
    if x.is_nan() || x < 0.0 {
        return f64::NAN;
    }
    if x == 0.0 {
        return f64::NEG_INFINITY;
    }
    if x == f64::INFINITY {
        return x;
    }
    // x = m * 2^e with 1 <= m < 2.
    let bits = x.to_bits();
    let (fraction, mut e) = if bits >> 52 == 0 {
        // A subnormal: its highest one moves to the place of the hidden one.
        let shift = bits.leading_zeros() - 11;
        ((bits << shift) & FRACTION, -1022 - shift as i32)
    } else {
        (bits & FRACTION, (bits >> 52) as i32 - 1023)
    };
    let mut m = f64::from_bits(ONE | fraction);
    if m > LN_FOLD {
        m /= 2.0;
        e += 1;
    }
    let f = (m - 1.0) / (m + 1.0);
    let w = f * f;
    let mut s = 1.0 / 23.0;
    for j in [21.0, 19.0, 17.0, 15.0, 13.0, 11.0, 9.0, 7.0, 5.0, 3.0, 1.0] {
        s = 1.0 / j + w * s;
    }
    let e = f64::from(e);
    e * H + ((2.0 * f) * s + e * L)
}

/// The quarter turns in b, modulo 4, and the angle that remains. None where document 01 gives NaN.
fn reduce(b: f64) -> Option<(i64, f64)> {
    if b.is_nan() || b.abs() > LARGEST_ANGLE {
        return None;
    }
    let n = nearest(b * INV_QUARTER);
    let r = (b - n * QUARTER_H) - n * QUARTER_L;
    Some(((n as i64).rem_euclid(4), r))
}

/// Document 01's s.
fn sine_part(r: f64) -> f64 {
    let w = r * r;
    let mut s = 1.0;
    for d in [16.0, 14.0, 12.0, 10.0, 8.0, 6.0, 4.0, 2.0] {
        s = 1.0 - (w * s) / (d * (d + 1.0));
    }
    r * s
}

/// Document 01's C.
fn cosine_part(r: f64) -> f64 {
    let w = r * r;
    let mut c = 1.0;
    for d in [18.0, 16.0, 14.0, 12.0, 10.0, 8.0, 6.0, 4.0, 2.0] {
        c = 1.0 - (w * c) / ((d - 1.0) * d);
    }
    c
}

/// The sine.
#[inline(never)]
pub fn sin(b: f64) -> f64 {
    match reduce(b) {
        None => f64::NAN,
        Some((0, r)) => sine_part(r),
        Some((1, r)) => cosine_part(r),
        Some((2, r)) => -sine_part(r),
        Some((_, r)) => -cosine_part(r),
    }
}

/// The cosine.
#[inline(never)]
pub fn cos(b: f64) -> f64 {
    match reduce(b) {
        None => f64::NAN,
        Some((0, r)) => cosine_part(r),
        Some((1, r)) => -sine_part(r),
        Some((2, r)) => -cosine_part(r),
        Some((_, r)) => sine_part(r),
    }
}

/// The arctangent of t in 0..1. Document 01 names no other argument; those go through the same steps.
#[inline(never)]
pub fn atan(t: f64) -> f64 {
    let (u, base) = if t > 0.4142 {
        ((t - 1.0) / (t + 1.0), EIGHTH)
    } else {
        (t, 0.0)
    };
    let w = u * u;
    let mut s = 1.0 / 43.0;
    for j in [
        41.0, 39.0, 37.0, 35.0, 33.0, 31.0, 29.0, 27.0, 25.0, 23.0, 21.0, 19.0, 17.0, 15.0, 13.0,
        11.0, 9.0, 7.0, 5.0, 3.0, 1.0,
    ] {
        s = 1.0 / j - w * s;
    }
    base + u * s
}

/// IEEE 754-2019 clause 9.6, maximumNumber: x if x > y, y if y > x, the number if the other operand is a NaN, a NaN if both are; here
/// -0 compares less than +0. Equal operands with the same sign are the same.
#[inline]
pub fn max(x: f64, y: f64) -> f64 {
    if x > y || y.is_nan() {
        x
    } else if y > x || x.is_nan() || x.is_sign_negative() {
        y
    } else {
        x
    }
}

/// The same clause, minimumNumber: x if x < y, y if y < x.
#[inline]
pub fn min(x: f64, y: f64) -> f64 {
    if x < y || y.is_nan() {
        x
    } else if y < x || x.is_nan() || y.is_sign_negative() {
        y
    } else {
        x
    }
}

/// IEEE 754 clause 5.3.1: the least number of the format that compares greater than x.
#[inline]
pub fn next_up(x: f64) -> f64 {
    if x.is_nan() {
        return x;
    }
    if x == f64::INFINITY {
        return x;
    }
    if x == 0.0 {
        // The positive number of least magnitude, from either zero.
        return f64::from_bits(1);
    }
    if x > 0.0 {
        f64::from_bits(x.to_bits() + 1)
    } else {
        // Towards zero; the negative number of least magnitude gives -0, -inf the lowest finite number.
        f64::from_bits(x.to_bits() - 1)
    }
}

/// IEEE 754 clause 5.3.1: nextDown(x) is -nextUp(-x).
#[inline]
pub fn next_down(x: f64) -> f64 {
    -next_up(-x)
}

/// Whether the sign bit is set. IEEE 754 gives the sign of a NaN no meaning (clause 6.3), so a NaN answers false.
#[inline]
pub fn sign_bit(x: f64) -> bool {
    !x.is_nan() && x.is_sign_negative()
}

/// The angle, negated where `sign` has its sign bit set.
fn with_sign(angle: f64, sign: f64) -> f64 {
    if sign_bit(sign) { -angle } else { angle }
}

/// A complex number, in the place of num_complex's.
#[derive(Clone, Copy, Debug, PartialEq)]
pub struct Complex64 {
    pub re: f64,
    pub im: f64,
}

impl Complex64 {
    pub fn new(re: f64, im: f64) -> Self {
        Self { re, im }
    }

    /// exp(re) * cos(im), exp(re) * sin(im).
    #[inline(never)]
    pub fn exp(self) -> Self {
        let scale = exp(self.re);
        Self::new(scale * cos(self.im), scale * sin(self.im))
    }

    /// The logarithm of the magnitude, and the angle.
    #[inline(never)]
    pub fn ln(self) -> Self {
        let Self { re, im } = self;
        if im == 0.0 {
            let angle = if sign_bit(re) {
                with_sign(HALF, im)
            } else {
                im
            };
            return Self::new(ln(re.abs()), angle);
        }
        let (x, y) = (re.abs(), im.abs());
        // With a NaN neither is larger; it comes out through the quotient.
        let (larger, smaller) = if y <= x { (x, y) } else { (y, x) };
        let q = smaller / larger;
        let magnitude = ln(larger) + 0.5 * ln(1.0 + q * q);
        let mut angle = if y <= x {
            atan(y / x)
        } else {
            QUARTER - atan(x / y)
        };
        if re < 0.0 {
            angle = HALF - angle;
        }
        Self::new(magnitude, with_sign(angle, im))
    }
}

impl Sub for Complex64 {
    type Output = Self;

    fn sub(self, other: Self) -> Self {
        Self::new(self.re - other.re, self.im - other.im)
    }
}

#[cfg(test)]
mod tests {
    use super::*;
    use crate::splitmix::SplitMix64;

    fn bits(b: u64) -> f64 {
        f64::from_bits(b)
    }

    #[test]
    fn exp_at_closed_values() {
        assert_eq!(exp(0.0), 1.0);
        assert_eq!(exp(-0.0), 1.0);
        assert_eq!(
            exp(bits(0x3FB9_9999_9999_999A)).to_bits(),
            0x3FF1_AEC7_B35A_00D4
        );
        assert_eq!(exp(710.0), f64::INFINITY);
        assert_eq!(exp(f64::INFINITY), f64::INFINITY);
        assert_eq!(exp(-746.0).to_bits(), 0);
        assert_eq!(exp(f64::NEG_INFINITY).to_bits(), 0);
        assert!(exp(f64::NAN).is_nan());
    }

    #[test]
    fn ln_at_closed_values() {
        assert_eq!(ln(1.0).to_bits(), 0);
        assert_eq!(
            ln(bits(0x3FB9_9999_9999_999A)).to_bits(),
            0xC002_6BB1_BBB5_5515
        );
        assert_eq!(ln(bits(1)).to_bits(), 0xC087_4385_446D_71C3);
        assert_eq!(ln(0.0), f64::NEG_INFINITY);
        assert_eq!(ln(-0.0), f64::NEG_INFINITY);
        assert_eq!(ln(f64::INFINITY), f64::INFINITY);
        assert!(ln(-1.0).is_nan());
        assert!(ln(f64::NEG_INFINITY).is_nan());
        assert!(ln(f64::NAN).is_nan());
    }

    #[test]
    fn sin_cos_atan_at_closed_values() {
        assert_eq!(sin(1.0).to_bits(), 0x3FEA_ED54_8F09_0CEE);
        assert_eq!(
            cos(bits(0x40F8_6A08_0000_0000)).to_bits(),
            0xBFEC_9CF6_7D74_25B8
        );
        assert_eq!(
            atan(bits(0x3FD3_3333_3333_3333)).to_bits(),
            0x3FD2_A73A_661E_AF05
        );
        assert_eq!(sin(0.0).to_bits(), 0);
        assert_eq!(sin(-0.0).to_bits(), (-0.0_f64).to_bits());
        assert_eq!(cos(0.0), 1.0);
        assert!(!sin(LARGEST_ANGLE).is_nan());
        assert!(sin(next_up(LARGEST_ANGLE)).is_nan());
        assert!(cos(next_down(-LARGEST_ANGLE)).is_nan());
        assert!(cos(f64::INFINITY).is_nan());
    }

    #[test]
    fn complex_at_closed_values() {
        let z = Complex64::new(3.0, -4.0).ln();
        assert_eq!(z.re.to_bits(), 0x3FF9_C041_F7ED_8D33);
        assert_eq!(z.im.to_bits(), 0xBFED_AC67_0561_BB4F);
        for (re, im, angle) in [
            (0.0, 0.0, 0.0),
            (0.0, -0.0, -0.0),
            (-0.0, 0.0, HALF),
            (-0.0, -0.0, -HALF),
            (-2.0, 0.0, HALF),
            (-2.0, -0.0, -HALF),
            (2.0, -0.0, -0.0),
        ] {
            let z = Complex64::new(re, im).ln();
            assert_eq!(z.im.to_bits(), f64::to_bits(angle), "{re} {im}");
        }
        let z = Complex64::new(0.0, -0.0).exp();
        assert_eq!((z.re, z.im.to_bits()), (1.0, (-0.0_f64).to_bits()));
    }

    #[test]
    fn max_and_min_by_the_clause() {
        for (a, b, greater, lesser) in [
            (-0.0, -0.0, -0.0, -0.0),
            (-0.0, 0.0, 0.0, -0.0),
            (0.0, -0.0, 0.0, -0.0),
            (0.0, 0.0, 0.0, 0.0),
            (1.0, 2.0, 2.0, 1.0),
            (2.0, 1.0, 2.0, 1.0),
            (-0.0, bits(1), bits(1), -0.0),
        ] {
            assert_eq!(max(a, b).to_bits(), f64::to_bits(greater), "{a} {b}");
            assert_eq!(min(a, b).to_bits(), f64::to_bits(lesser), "{a} {b}");
        }
        for op in [max, min] {
            for x in [2.0, 0.0, -0.0, f64::INFINITY, f64::NEG_INFINITY] {
                assert_eq!(op(f64::NAN, x).to_bits(), x.to_bits());
                assert_eq!(op(x, f64::NAN).to_bits(), x.to_bits());
            }
            assert!(op(f64::NAN, f64::NAN).is_nan());
        }
    }

    /// The order of the patterns, `total_cmp`, is the clause's where there is no NaN.
    #[test]
    fn max_and_min_by_a_second_reading() {
        let mut rng = SplitMix64::new(3);
        for _ in 0..1_000_000 {
            let a = rng.argument();
            let b = match rng.below(3) {
                0 => -a,
                1 => rng.near(a, 2),
                _ => rng.argument(),
            };
            if !a.is_nan() && !b.is_nan() {
                let [lesser, greater] = if a.total_cmp(&b).is_lt() {
                    [a, b]
                } else {
                    [b, a]
                };
                assert_eq!(max(a, b).to_bits(), greater.to_bits(), "{a} {b}");
                assert_eq!(min(a, b).to_bits(), lesser.to_bits(), "{a} {b}");
            }
        }
    }

    /// Rust's `round` has the same ties; only its zero may be negative.
    #[test]
    fn nearest_by_a_second_reading() {
        let mut rng = SplitMix64::new(1);
        for k in -3000..3000 {
            for step in -2_i64..=2 {
                let x = bits((f64::from(k) / 2.0).to_bits().wrapping_add_signed(step));
                if !x.is_nan() {
                    assert_eq!(nearest(x).to_bits(), (x.round() + 0.0).to_bits(), "{x}");
                }
            }
        }
        for _ in 0..1_000_000 {
            let x = rng.argument();
            if !x.is_nan() {
                assert_eq!(nearest(x).to_bits(), (x.round() + 0.0).to_bits(), "{x}");
            }
        }
    }

    #[test]
    fn neighbours_by_a_second_reading() {
        let mut rng = SplitMix64::new(2);
        for _ in 0..1_000_000 {
            let x = rng.argument();
            if x.is_nan() {
                assert!(next_up(x).is_nan() && next_down(x).is_nan());
            } else {
                assert_eq!(next_up(x).to_bits(), x.next_up().to_bits(), "{x}");
                assert_eq!(next_down(x).to_bits(), x.next_down().to_bits(), "{x}");
            }
        }
    }
}
