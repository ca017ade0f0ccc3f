//! The refusals.

use crate::numbered::{LIBRARY, try_from_number};
use core::fmt;

/// Why a call was refused: document 01's numbers 1 to 10, and 14, which is for [`Settings`](crate::Settings).
///
/// The writer of a file can cause 1 to 7, the caller 8 to 10 and 14. Of several, the first is returned in the order 1 to 7, 14,
/// 8, 9, 10, and a refusal alters nothing that the call was lent.
///
/// ```
/// use eml::{Problem, Refusal};
///
/// let refusal = Problem::from_bytes(b"EMLQ").unwrap_err();
/// assert_eq!(refusal, Refusal::Header);
/// assert_eq!(refusal.number(), 1);
/// assert_eq!(refusal.to_string(), "refused 1: under 32 bytes, or wrong first eight bytes");
/// ```
#[derive(Clone, Copy, Debug, PartialEq, Eq, PartialOrd, Ord, Hash)]
#[non_exhaustive]
#[repr(u8)]
pub enum Refusal {
    /// 1: under 32 bytes, or wrong first eight bytes.
    Header = 1,
    /// 2: counts, offsets or length.
    Layout = 2,
    /// 3: node record.
    Node = 3,
    /// 4: expanded size or depth.
    Extent = 4,
    /// 5: constraint record, or too few finished constraints.
    Constraint = 5,
    /// 6: unsound range.
    Range = 6,
    /// 7: constraint depth, quantifier count, or not just one left.
    Nesting = 7,
    /// 8: limit above 1,000,000 or NaN tolerance.
    LimitOrTolerance = 8,
    /// 9: over 16 boxes or variables, or an unsound box or range.
    Boxes = 9,
    /// 10: output slice or node list too short.
    TooShort = 10,
    /// 14: a parameter outside its range.
    Parameter = 14,
}

try_from_number!(
    Refusal: Header, Layout, Node, Extent, Constraint, Range, Nesting, LimitOrTolerance, Boxes, TooShort,
    Parameter
);

impl Refusal {
    /// The number.
    #[must_use]
    pub fn number(self) -> u8 {
        self as u8
    }

    /// The words for the number.
    #[must_use]
    pub fn text(self) -> &'static str {
        match self {
            Self::Header => "under 32 bytes, or wrong first eight bytes",
            Self::Layout => "counts, offsets or length",
            Self::Node => "node record",
            Self::Extent => "expanded size or depth",
            Self::Constraint => "constraint record, or too few finished constraints",
            Self::Range => "unsound range",
            Self::Nesting => "constraint depth, quantifier count, or not just one left",
            Self::LimitOrTolerance => "limit above 1,000,000 or NaN tolerance",
            Self::Boxes => "over 16 boxes or variables, or an unsound box or range",
            Self::TooShort => "output slice or node list too short",
            Self::Parameter => "a parameter outside its range",
        }
    }

    /// What a call's number says: 0 is no refusal.
    #[inline]
    pub(crate) fn unless_zero(number: u8) -> Result<(), Self> {
        match number {
            0 => Ok(()),
            number => Err(Self::try_from(number).expect(LIBRARY)),
        }
    }
}

impl fmt::Display for Refusal {
    fn fmt(&self, f: &mut fmt::Formatter<'_>) -> fmt::Result {
        write!(f, "refused {}: {}", self.number(), self.text())
    }
}

impl core::error::Error for Refusal {}
