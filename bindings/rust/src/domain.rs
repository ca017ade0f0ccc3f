//! The box that a run starts from.

use crate::interval::Ends;
use crate::{Bounds, Interval, List, Refusal, calls};

/// One interval for each variable: the source's `IntervalDomain`.
///
/// ```
/// use eml::{Interval, IntervalDomain};
///
/// let mut domain = IntervalDomain::new(&[Interval::new(1.0, 3.0)], 2)?;
/// assert_eq!(*domain.vars, [Interval::new(1.0, 3.0), Interval::new(-10.0, 10.0)]);
/// assert!(!domain.is_empty());
/// domain.vars[1] = Interval::new(3.0, 1.0);
/// assert!(domain.is_empty());
/// # Ok::<(), eml::Refusal>(())
/// ```
#[derive(Clone, Copy, Debug, PartialEq)]
pub struct IntervalDomain {
    /// The intervals; the place is the variable's number.
    pub vars: Bounds,
}

impl IntervalDomain {
    /// The first `num_vars` bounds, with [-10,10] for a missing one.
    ///
    /// # Errors
    ///
    /// 9 for over 16 bounds, an unsound one, or over 16 variables.
    pub fn new(bounds: &[Interval], num_vars: usize) -> Result<Self, Refusal> {
        let bounds = Ends::of(bounds);
        let (mut lo, mut hi) = ([0.0; Ends::PLACES], [0.0; Ends::PLACES]);
        calls::domain_new(bounds.lo(), bounds.hi(), num_vars, &mut lo, &mut hi)?;
        let places = core::array::from_fn(|i| Interval {
            lo: lo[i],
            hi: hi[i],
        });
        Ok(Self {
            vars: List::new(places, num_vars),
        })
    }

    /// Whether any of the intervals is empty.
    #[must_use]
    pub fn is_empty(&self) -> bool {
        let (ends, mut out) = (Ends::of(&self.vars), false);
        calls::domain_is_empty(ends.lo(), ends.hi(), &mut out).expect("at most 16 of each");
        out
    }
}
