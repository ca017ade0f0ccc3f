//! What the calls on records answer.

use crate::calls::{DecidePlaces, EvalPlaces};
use crate::format::MOST_VALUES;
use crate::numbered::{LIBRARY, try_from_number};
use crate::{List, Point, Refusal};
use core::fmt;

/// A node's value at a point, or the first error in postorder.
#[derive(Clone, Copy, Debug, PartialEq)]
#[non_exhaustive]
pub enum Evaluation {
    /// The value.
    Value(f64),
    /// A variable beyond the point.
    VarOutOfBounds {
        /// The variable.
        index: usize,
        /// How many values the point has.
        count: usize,
    },
    /// A NaN on the way.
    NanEncountered,
    /// A value that is not real, with the magnitude of its imaginary part.
    ComplexResult(f64),
    /// An Eml node's left value has this real part, which is beyond the clamp: above it or below its negative, infinities
    /// included. Only a [`strict`](crate::Settings::strict) evaluation answers this, and at one node before
    /// [`NanEncountered`](Self::NanEncountered). A real part that is a NaN is not beyond the clamp.
    ExpOverflow(f64),
}

impl Evaluation {
    /// The value; `None` for an error.
    #[must_use]
    pub fn value(self) -> Option<f64> {
        match self {
            Self::Value(value) => Some(value),
            _ => None,
        }
    }

    /// The answer that a call wrote.
    pub(crate) fn of(written: EvalPlaces) -> Self {
        match written.kind {
            0 => Self::Value(written.value),
            1 => Self::VarOutOfBounds {
                index: written.index,
                count: written.count,
            },
            2 => Self::NanEncountered,
            3 => Self::ComplexResult(written.value),
            4 => Self::ExpOverflow(written.value),
            other => unreachable!("no call writes the kind {other}"),
        }
    }
}

/// What narrowing did.
#[derive(Clone, Copy, Debug, PartialEq, Eq, Hash)]
#[repr(u8)]
pub enum Propagation {
    /// Some interval became narrower.
    Changed = 0,
    /// Nothing to narrow.
    Stable = 1,
    /// Narrowing met a conflict. What was written before stays.
    Conflict = 2,
}

try_from_number!(Propagation: Changed, Stable, Conflict);

impl Propagation {
    /// The answer that a call writes.
    pub(crate) fn written(
        call: impl FnOnce(&mut u8) -> Result<(), Refusal>,
    ) -> Result<Self, Refusal> {
        let mut answer = 0;
        call(&mut answer)?;
        Ok(Self::try_from(answer).expect(LIBRARY))
    }
}

/// A decision about a variable in a range.
#[derive(Clone, Copy, Debug, PartialEq)]
pub enum Decision {
    /// Propagation of the negation met a conflict, no more.
    True,
    /// A point that meets the constraint.
    TrueWithWitness(Point),
    /// A point that does not.
    FalseWithCounterexample(Point),
    /// No sample decided.
    Unknown,
}

impl Decision {
    /// The decision that a call writes. There is room for every point, so none is refused with 10.
    pub(crate) fn written(
        call: impl FnOnce(&mut DecidePlaces<'_>) -> Result<(), Refusal>,
    ) -> Result<Self, Refusal> {
        let mut values = [0.0; MOST_VALUES];
        let mut to = DecidePlaces {
            verdict: 0,
            count: 0,
            point: &mut values,
        };
        call(&mut to)?;
        let (verdict, count) = (to.verdict, to.count);
        let point = List::new(values, count);
        Ok(match verdict {
            0 => Self::True,
            1 => Self::TrueWithWitness(point),
            2 => Self::FalseWithCounterexample(point),
            3 => Self::Unknown,
            other => unreachable!("no call writes the verdict {other}"),
        })
    }
}

/// Why there is no decision.
#[derive(Clone, Copy, Debug, PartialEq, Eq, Hash)]
#[non_exhaustive]
pub enum DecisionError {
    /// The call was refused.
    Refused(Refusal),
    /// The constraint has no such variable, so the decision would be about nothing. Document 01 has no number for this: the
    /// exported calls take it, and then the variable alters nothing.
    NoSuchVariable {
        /// The variable that was asked for.
        var: usize,
        /// How many the constraint has.
        num_vars: usize,
    },
}

impl From<Refusal> for DecisionError {
    fn from(refusal: Refusal) -> Self {
        Self::Refused(refusal)
    }
}

impl fmt::Display for DecisionError {
    fn fmt(&self, f: &mut fmt::Formatter<'_>) -> fmt::Result {
        match self {
            Self::Refused(refusal) => refusal.fmt(f),
            Self::NoSuchVariable { var, num_vars } => {
                write!(f, "no variable {var}: the constraint has {num_vars}")
            }
        }
    }
}

impl core::error::Error for DecisionError {}
