//! What the solver answers.

use crate::calls::SolvePlaces;
use crate::format::MOST_VALUES;
use crate::numbered::{LIBRARY, try_from_number};
use crate::{List, Point, Refusal, number};
use core::fmt;

/// Why the solver stopped. It is displayed as document 01's stop word.
#[derive(Clone, Copy, Debug, PartialEq, Eq, Hash)]
#[repr(u8)]
pub enum Stop {
    /// A point passes the check.
    Assignment = 0,
    /// Narrowing met a conflict. That is no proof that there is no point: narrowing does not round outward, and a constraint with a
    /// constant often ends so. A number posed as a variable in a narrow range seldom does.
    ///
    /// [`Records::check_midpoint`](crate::Records::check_midpoint) may show that a conflict is false. To find a point, solve again
    /// under a quantifier, Exists, over a variable that the constraint does not name, from 0 to 0, and with that as its bound:
    /// narrowing leaves quantifiers alone, so there is no conflict, only halving.
    ///
    /// ```
    /// use eml::{Builder, Stop};
    ///
    /// // Variable 0 is above 0.25, in [0.125,0.3125], whose midpoint is not.
    /// let (mut nodes, mut constraints) = ([0; 16 * 9], [0; 24 * 2]);
    /// let mut builder = Builder::new(&mut nodes, &mut constraints);
    /// let (x, quarter) = (builder.var(0)?, builder.constant(0.25)?);
    /// builder.gt(x, quarter)?;
    /// builder.bound(0.125, 0.3125)?;
    /// let (records, bounds) = (builder.records()?, builder.bounds());
    /// assert_eq!(records.solve(bounds, 10_000, 1e-8)?.stop, Stop::Conflict);
    /// assert_eq!(records.check_midpoint(bounds)?, None);
    ///
    /// // Again, with variable 1, which the constraint does not name.
    /// builder.exists(1, (0.0, 0.0))?;
    /// builder.bound(0.0, 0.0)?;
    /// let again = builder.records()?.solve(builder.bounds(), 10_000, 1e-8)?;
    /// assert_eq!(again.assignment(), Some(&[0.265625, 0.0][..]));
    /// # Ok::<(), eml::Refusal>(())
    /// ```
    ///
    /// Bounds go in by order, so every lower variable needs one first: [-10,10] where it had none. A problem with all 16 variables
    /// has none free.
    Conflict = 1,
    /// The box became narrower than the tolerance, and its point does not pass.
    Tolerance = 2,
    /// As many halvings as the limit allows, and no point passed.
    Limit = 3,
    /// There are no variables, and the constraint does not hold.
    Unsatisfied = 4,
}

try_from_number!(Stop: Assignment, Conflict, Tolerance, Limit, Unsatisfied);

impl fmt::Display for Stop {
    fn fmt(&self, f: &mut fmt::Formatter<'_>) -> fmt::Result {
        f.pad(match self {
            Self::Assignment => "assignment",
            Self::Conflict => "conflict",
            Self::Tolerance => "tolerance",
            Self::Limit => "limit",
            Self::Unsatisfied => "unsatisfied",
        })
    }
}

/// An answer of the solver. It is displayed as the lines that document 01's printing program prints.
#[derive(Clone, Copy, Debug, PartialEq)]
#[non_exhaustive]
pub struct Solution {
    /// Why it stopped.
    pub stop: Stop,
    /// The assignment; no other answer has values.
    pub point: Point,
    /// Whether the assignment is exact: there are no variables, or the limit is above 0 and the box was narrower than the
    /// tolerance before any halving. False for any other answer.
    pub exact: bool,
    /// The residual of any answer but an assignment, which has +0; +inf for conflict and unsatisfied.
    pub residual: f64,
    /// How many halves were written, at most the limit.
    pub halvings: usize,
}

impl Solution {
    /// The values of an assignment, one for each variable; `None` for any other answer.
    #[must_use]
    pub fn assignment(&self) -> Option<&[f64]> {
        (self.stop == Stop::Assignment).then_some(&*self.point)
    }

    /// The answer that a call writes. There is room for every point, so none is refused with 10.
    pub(crate) fn written(
        call: impl FnOnce(&mut SolvePlaces<'_>) -> Result<(), Refusal>,
    ) -> Result<Self, Refusal> {
        let mut values = [0.0; MOST_VALUES];
        let mut to = SolvePlaces {
            stop: 0,
            exact: false,
            residual: 0.0,
            halvings: 0,
            count: 0,
            point: &mut values,
        };
        call(&mut to)?;
        let SolvePlaces {
            stop,
            exact,
            residual,
            halvings,
            count,
            ..
        } = to;
        Ok(Self {
            stop: Stop::try_from(stop).expect(LIBRARY),
            point: List::new(values, count),
            exact,
            residual,
            halvings,
        })
    }
}

impl fmt::Display for Solution {
    fn fmt(&self, f: &mut fmt::Formatter<'_>) -> fmt::Result {
        writeln!(f, "{}", self.stop)?;
        if self.stop == Stop::Assignment {
            writeln!(f, "exact {}", u8::from(self.exact))?;
        } else {
            writeln!(f, "best {:016X}", number::bits_of(self.residual))?;
        }
        writeln!(f, "halvings {}", self.halvings)?;
        for (i, &x) in self.point.iter().enumerate() {
            writeln!(f, "v{i} {:016X}", number::bits_of(x))?;
        }
        Ok(())
    }
}
