//! Intervals.

use crate::format::MOST_VALUES;
use crate::raw;

/// An interval: two ends, laid out as the static library has them.
///
/// The methods take any f64, NaN and reversed ends too, and refuse nothing.
///
/// ```
/// use eml::Interval;
///
/// let bar = Interval::new(1.0, 3.0);
/// assert_eq!(bar.midpoint(), 2.0);
/// assert_eq!(bar.split().1, Interval::new(2.0, 3.0));
/// assert!(bar.intersect(Interval::point(4.0)).is_empty());
/// ```
#[derive(Clone, Copy, Debug, PartialEq)]
#[repr(C)]
pub struct Interval {
    /// The lower end.
    pub lo: f64,
    /// The upper end.
    pub hi: f64,
}

/// The interval that a call writes to two places.
#[inline]
fn written(call: impl FnOnce(&mut f64, &mut f64)) -> Interval {
    let mut i = Interval { lo: 0.0, hi: 0.0 };
    call(&mut i.lo, &mut i.hi);
    i
}

impl Interval {
    /// From `lo` to `hi`.
    #[inline]
    #[must_use]
    pub fn new(lo: f64, hi: f64) -> Self {
        written(|low, high| raw::eml_interval_new(lo, hi, low, high))
    }

    /// Just `v`.
    #[inline]
    #[must_use]
    pub fn point(v: f64) -> Self {
        written(|low, high| raw::eml_interval_point(v, low, high))
    }

    /// Whether `lo` is above `hi`, or an end is a NaN.
    #[inline]
    #[must_use]
    pub fn is_empty(self) -> bool {
        raw::eml_interval_is_empty(self.lo, self.hi)
    }

    /// `hi - lo`.
    #[inline]
    #[must_use]
    pub fn width(self) -> f64 {
        raw::eml_interval_width(self.lo, self.hi)
    }

    /// `(lo + hi) / 2`.
    #[inline]
    #[must_use]
    pub fn midpoint(self) -> f64 {
        raw::eml_interval_midpoint(self.lo, self.hi)
    }

    /// Whether `x` is between the ends.
    #[inline]
    #[must_use]
    pub fn contains(self, x: f64) -> bool {
        raw::eml_interval_contains(self.lo, self.hi, x)
    }

    /// The lower and the upper half.
    #[inline]
    #[must_use]
    pub fn split(self) -> (Self, Self) {
        let (mut low, mut middle, mut high) = (0.0, 0.0, 0.0);
        raw::eml_interval_split(self.lo, self.hi, &mut low, &mut middle, &mut high);
        let lower = Self {
            lo: low,
            hi: middle,
        };
        let upper = Self {
            lo: middle,
            hi: high,
        };
        (lower, upper)
    }

    /// What both have; empty where they lie apart. Of two `lo` that are -0 and +0 it takes +0,
    /// of two such `hi` -0.
    #[inline]
    #[must_use]
    pub fn intersect(self, other: Self) -> Self {
        written(|low, high| {
            raw::eml_interval_intersect(self.lo, self.hi, other.lo, other.hi, low, high);
        })
    }

    /// The smallest interval that has both. Of two `lo` that are -0 and +0 it takes -0, of two such `hi` +0.
    #[inline]
    #[must_use]
    pub fn hull(self, other: Self) -> Self {
        written(|low, high| {
            raw::eml_interval_hull(self.lo, self.hi, other.lo, other.hi, low, high);
        })
    }

    /// exp of both ends.
    #[inline]
    #[must_use]
    pub fn exp(self) -> Self {
        written(|low, high| raw::eml_interval_exp(self.lo, self.hi, low, high))
    }

    /// ln of both ends; empty, [+inf, -inf], where `lo` is zero or below, or an end is not finite.
    #[inline]
    #[must_use]
    pub fn ln(self) -> Self {
        written(|low, high| raw::eml_interval_ln(self.lo, self.hi, low, high))
    }

    /// The arguments whose exp is in this interval: its [`ln`](Self::ln).
    #[inline]
    #[must_use]
    pub fn exp_inv(self) -> Self {
        written(|low, high| raw::eml_interval_exp_inv(self.lo, self.hi, low, high))
    }

    /// The arguments whose ln is in this interval: its [`exp`](Self::exp).
    #[inline]
    #[must_use]
    pub fn ln_inv(self) -> Self {
        written(|low, high| raw::eml_interval_ln_inv(self.lo, self.hi, low, high))
    }
}

/// From the lower and the upper end.
impl From<(f64, f64)> for Interval {
    #[inline]
    fn from((lo, hi): (f64, f64)) -> Self {
        Self { lo, hi }
    }
}

/// The ends of bounds, in two lists. Over 16 bounds are refused with 9 whatever they are, so that 17 stand for any more.
pub(crate) struct Ends {
    lo: [f64; Self::PLACES],
    hi: [f64; Self::PLACES],
    count: usize,
}

impl Ends {
    pub(crate) const PLACES: usize = MOST_VALUES + 1;

    pub(crate) fn of(bounds: &[Interval]) -> Self {
        let (mut lo, mut hi) = ([0.0; Self::PLACES], [0.0; Self::PLACES]);
        let count = bounds.len().min(Self::PLACES);
        for (i, bound) in bounds[..count].iter().enumerate() {
            (lo[i], hi[i]) = (bound.lo, bound.hi);
        }
        Self { lo, hi, count }
    }

    pub(crate) fn lo(&self) -> &[f64] {
        &self.lo[..self.count]
    }

    pub(crate) fn hi(&self) -> &[f64] {
        &self.hi[..self.count]
    }
}
