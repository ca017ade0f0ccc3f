//! The mathematics of document 01's stand-ins, fixed to the bit: for who computes widths as the solver does.
//!
//! ```
//! use eml::maths;
//!
//! let x = f64::from_bits(0xBFAF_DECC_AD1C_C760);
//! assert_eq!(maths::exp(x).to_bits(), 0x3FEE_119F_11F8_8672); // on every machine
//! assert!(maths::ln(-1.0).is_nan());
//! let (real, imag) = maths::complex_ln(-1.0, 0.0);
//! assert_eq!((real, imag.to_bits()), (0.0, 0x4009_21FB_5444_2D18)); // pi i
//! ```

use crate::raw;

/// e to the power `x`.
#[inline]
#[must_use]
pub fn exp(x: f64) -> f64 {
    raw::eml_exp(x)
}

/// The natural logarithm; NaN below zero.
#[inline]
#[must_use]
pub fn ln(x: f64) -> f64 {
    raw::eml_ln(x)
}

/// The sine; NaN where |x| is over 2^20.
#[inline]
#[must_use]
pub fn sin(x: f64) -> f64 {
    raw::eml_sin(x)
}

/// The cosine; NaN where |x| is over 2^20.
#[inline]
#[must_use]
pub fn cos(x: f64) -> f64 {
    raw::eml_cos(x)
}

/// The arctangent, meant for 0 to 1.
#[inline]
#[must_use]
pub fn atan(x: f64) -> f64 {
    raw::eml_atan(x)
}

/// exp of `re + im i`: the real and the imaginary part.
#[inline]
#[must_use]
pub fn complex_exp(re: f64, im: f64) -> (f64, f64) {
    let (mut real, mut imag) = (0.0, 0.0);
    raw::eml_complex_exp(re, im, &mut real, &mut imag);
    (real, imag)
}

/// ln of `re + im i`: the real and the imaginary part.
#[inline]
#[must_use]
pub fn complex_ln(re: f64, im: f64) -> (f64, f64) {
    let (mut real, mut imag) = (0.0, 0.0);
    raw::eml_complex_ln(re, im, &mut real, &mut imag);
    (real, imag)
}
