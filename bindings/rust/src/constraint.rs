//! Constraints.

use crate::Interval;
use crate::format::{CONSTRAINT_BYTES, f64_at, u32_at};
use crate::numbered::try_from_number;

/// What an atom says of its node's value v, as the check tests it with document 01's numbers. Under other
/// [`Settings`](crate::Settings) the 1e-8 is their equality tolerance and the 1e-12 their slack. Its number is the kind of the
/// atom's record.
#[derive(Clone, Copy, Debug, PartialEq, Eq, Hash)]
#[repr(u8)]
pub enum Relation {
    /// |v| < 1e-8.
    EqZero = 0,
    /// v > 0.
    GtZero = 1,
    /// v >= -1e-12.
    GeZero = 2,
    /// v < 0.
    LtZero = 3,
    /// v <= 1e-12.
    LeZero = 4,
    /// |v| > 1e-12.
    NeZero = 5,
}

try_from_number!(Relation: EqZero, GtZero, GeZero, LtZero, LeZero, NeZero);

/// A constraint's record. Records are in postorder: one that takes others comes after them.
#[derive(Clone, Copy, Debug, PartialEq)]
pub enum Constraint {
    /// Kinds 0 to 5: a relation of a node.
    Atom {
        /// The relation.
        relation: Relation,
        /// The node's number.
        node: u32,
    },
    /// Kind 6: the last finished constraint does not hold.
    Not,
    /// Kind 7: each of the last so many finished constraints holds.
    And(u32),
    /// Kind 8: at least one of the last so many finished constraints holds.
    Or(u32),
    /// Kind 9: the last finished constraint holds with a variable at the lower end, the middle and the upper end of a range.
    ForAll {
        /// The variable, 0 to 15.
        var: u32,
        /// The range.
        range: Interval,
    },
    /// Kind 10: the last finished constraint holds with a variable at one of these.
    Exists {
        /// The variable, 0 to 15.
        var: u32,
        /// The range.
        range: Interval,
    },
}

impl Constraint {
    /// The constraint's record. The reader refuses what it does not take.
    ///
    /// ```
    /// use eml::{Constraint, Node, Records, Relation};
    ///
    /// // Variable 0 is not above 0.
    /// let above = Constraint::Atom { relation: Relation::GtZero, node: 0 };
    /// let constraints = [above, Constraint::Not].map(Constraint::to_bytes).concat();
    /// let records = Records { nodes: &Node::Var(0).to_bytes(), constraints: &constraints };
    /// assert!(records.check(&[-1.0])?);
    /// # Ok::<(), eml::Refusal>(())
    /// ```
    #[must_use]
    pub fn to_bytes(self) -> [u8; CONSTRAINT_BYTES] {
        let zero = Interval { lo: 0.0, hi: 0.0 };
        let (kind, argument, range) = match self {
            Self::Atom { relation, node } => (relation as u8, node, zero),
            Self::Not => (6, 0, zero),
            Self::And(taken) => (7, taken, zero),
            Self::Or(taken) => (8, taken, zero),
            Self::ForAll { var, range } => (9, var, range),
            Self::Exists { var, range } => (10, var, range),
        };
        let mut record = [0; CONSTRAINT_BYTES];
        record[0] = kind;
        record[4..8].copy_from_slice(&argument.to_le_bytes());
        record[8..16].copy_from_slice(&range.lo.to_le_bytes());
        record[16..].copy_from_slice(&range.hi.to_le_bytes());
        record
    }

    /// The constraint of a record whose kind is 0 to 10.
    pub(crate) fn of_kind(record: &[u8]) -> Self {
        let argument = u32_at(record, 4);
        let range = Interval {
            lo: f64_at(record, 8),
            hi: f64_at(record, 16),
        };
        match record[0] {
            6 => Self::Not,
            7 => Self::And(argument),
            8 => Self::Or(argument),
            9 => Self::ForAll {
                var: argument,
                range,
            },
            10 => Self::Exists {
                var: argument,
                range,
            },
            kind => Self::Atom {
                relation: Relation::try_from(kind).expect("kinds 0 to 5 are left"),
                node: argument,
            },
        }
    }

    /// How many finished constraints it takes.
    pub(crate) fn taken(self) -> u32 {
        match self {
            Self::Atom { .. } => 0,
            Self::And(taken) | Self::Or(taken) => taken,
            Self::Not | Self::ForAll { .. } | Self::Exists { .. } => 1,
        }
    }
}
