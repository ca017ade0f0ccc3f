//! Enumerations by number: the documents', or the order in which document 01 names them.

use core::fmt;

/// A number that stands for nothing in the enumeration that was asked for.
///
/// ```
/// use eml::{Stop, UnknownNumber};
///
/// assert_eq!(Stop::try_from(2), Ok(Stop::Tolerance));
/// assert_eq!(Stop::try_from(5), Err(UnknownNumber(5)));
/// ```
#[derive(Clone, Copy, Debug, PartialEq, Eq, Hash)]
pub struct UnknownNumber(pub u8);

impl fmt::Display for UnknownNumber {
    fn fmt(&self, f: &mut fmt::Formatter<'_>) -> fmt::Result {
        write!(f, "the number {} stands for nothing here", self.0)
    }
}

impl core::error::Error for UnknownNumber {}

/// The variant of each number, as the enumeration's definition has them.
macro_rules! try_from_number {
    ($name:ident: $($variant:ident),*) => {
        impl TryFrom<u8> for $name {
            type Error = $crate::UnknownNumber;

            fn try_from(number: u8) -> Result<Self, Self::Error> {
                match number {
                    $(number if number == Self::$variant as u8 => Ok(Self::$variant),)*
                    other => Err($crate::UnknownNumber(other)),
                }
            }
        }
    };
}
pub(crate) use try_from_number;

/// Why the library's own numbers are known: its contracts name them.
pub(crate) const LIBRARY: &str = "the library writes the numbers of its contracts only";
