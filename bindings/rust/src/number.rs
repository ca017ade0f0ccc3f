//! The f64 operations of document 01's stand-ins, fixed to the bit, also where Rust's own leave a choice: the sign of a zero, the
//! bits of a NaN.
//!
//! ```
//! use eml::number;
//!
//! assert_eq!(number::max(f64::NAN, 1.0), 1.0);
//! assert!(number::max(-0.0, 0.0).is_sign_positive());
//! assert_eq!(number::bits_of(-f64::NAN), 0x7FF8_0000_0000_0000);
//! assert_eq!(number::next_up(1.0), 1.0 + f64::EPSILON);
//! ```

use crate::raw;

/// The larger, maximumNumber of IEEE 754-2019, clause 9.6: -0 is below +0, and a NaN yields the other operand.
///
/// ```
/// use eml::number::{max, min};
///
/// for (a, b) in [(-0.0, 0.0), (0.0, -0.0)] {
///     assert_eq!(max(a, b).to_bits(), 0.0_f64.to_bits());
///     assert_eq!(min(a, b).to_bits(), (-0.0_f64).to_bits());
/// }
/// ```
#[inline]
#[must_use]
pub fn max(a: f64, b: f64) -> f64 {
    raw::eml_max(a, b)
}

/// The smaller, minimumNumber of the same clause: -0 is below +0, and a NaN yields the other operand.
#[inline]
#[must_use]
pub fn min(a: f64, b: f64) -> f64 {
    raw::eml_min(a, b)
}

/// The magnitude.
#[inline]
#[must_use]
pub fn abs(x: f64) -> f64 {
    raw::eml_abs(x)
}

/// Whether the sign bit is set; false for a NaN.
#[inline]
#[must_use]
pub fn sign_bit(x: f64) -> bool {
    raw::eml_sign_bit(x)
}

/// The least f64 above `x` (IEEE 754-2019, clause 5.3.1). Of the negative number of least magnitude it is -0; +inf and a NaN stay.
///
/// ```
/// use eml::number::next_up;
///
/// let least = f64::from_bits(1);
/// assert_eq!(next_up(-least).to_bits(), (-0.0_f64).to_bits());
/// assert_eq!([next_up(-0.0), next_up(0.0)], [least, least]);
/// assert_eq!(next_up(f64::INFINITY), f64::INFINITY);
/// assert_eq!(next_up(f64::NEG_INFINITY), f64::MIN);
/// assert!(next_up(f64::NAN).is_nan());
/// ```
#[inline]
#[must_use]
pub fn next_up(x: f64) -> f64 {
    raw::eml_next_up(x)
}

/// The greatest f64 below `x` (IEEE 754-2019, clause 5.3.1), which is `-next_up(-x)`: of the positive number of least magnitude it
/// is +0; -inf and a NaN stay.
#[inline]
#[must_use]
pub fn next_down(x: f64) -> f64 {
    raw::eml_next_down(x)
}

/// The f64 that has these bits.
#[inline]
#[must_use]
pub fn of_bits(b: u64) -> f64 {
    raw::eml_of_bits(b)
}

/// The bits of an f64; those of every NaN are 7FF8000000000000.
#[inline]
#[must_use]
pub fn bits_of(x: f64) -> u64 {
    raw::eml_bits_of(x)
}
