//! Comparisons of two nodes.

use crate::format::CONSTRAINT_BYTES;
use crate::{Refusal, calls};

/// The bytes of a constraint's record.
pub type Record = [u8; CONSTRAINT_BYTES];

macro_rules! comparison {
    ($(#[$doc:meta])* $name:ident) => {
        $(#[$doc])*
        pub fn $name(nodes: &mut [u8], count: usize, x: usize, y: usize) -> Result<Record, Refusal> {
            let mut record = [0; CONSTRAINT_BYTES];
            calls::$name(nodes, count, x, y, &mut record)?;
            Ok(record)
        }
    };
}

comparison!(
    /// x < y: appends the nodes of x - y to a list of `count` nodes, as [`canonical::sub`](crate::canonical::sub). The record is
    /// the atom on the result.
    ///
    /// ```
    /// use eml::{Interval, Node, Records, Stop, lt};
    ///
    /// // Variable 0 and One, with free places for the seven nodes of a difference.
    /// let mut nodes = [0; 16 * 9];
    /// nodes[..16].copy_from_slice(&Node::Var(0).to_bytes());
    /// let atom = lt(&mut nodes, 2, 0, 1)?;
    /// let records = Records { nodes: &nodes, constraints: &atom };
    /// let solution = records.solve(&[Interval::new(0.5, 4.5)], 10_000, 1e-8)?;
    /// assert_eq!(solution.stop, Stop::Assignment);
    /// assert!(solution.point[0] < 1.0);
    /// # Ok::<(), eml::Refusal>(())
    /// ```
    ///
    /// # Errors
    ///
    /// As [`canonical::sub`](crate::canonical::sub).
    lt
);
comparison!(
    /// x <= y, as [`lt`].
    ///
    /// # Errors
    ///
    /// As [`lt`].
    le
);
comparison!(
    /// x > y, as [`lt`].
    ///
    /// # Errors
    ///
    /// As [`lt`].
    gt
);
comparison!(
    /// x >= y, as [`lt`].
    ///
    /// # Errors
    ///
    /// As [`lt`].
    ge
);
