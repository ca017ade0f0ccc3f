//! Nodes.

use crate::format::{NODE_BYTES, f64_at, u32_at};

/// A node, as its record has it. Children are numbers of nodes before it in the list.
#[derive(Clone, Copy, Debug, PartialEq)]
pub enum Node {
    /// Kind 0: the number 1.
    One,
    /// Kind 1: a finite number.
    Const(f64),
    /// Kind 2: a variable, 0 to 15.
    Var(u32),
    /// Kind 3: exp(left) - ln(right).
    Eml {
        /// The number of the left child.
        left: u32,
        /// The number of the right child.
        right: u32,
    },
}

impl Node {
    /// The node's record. The reader refuses what it does not take.
    ///
    /// ```
    /// use eml::{Evaluation, Node, Records};
    ///
    /// let nodes = [Node::Const(0.0), Node::One, Node::Eml { left: 0, right: 1 }];
    /// let nodes = nodes.map(Node::to_bytes).concat();
    /// let records = Records { nodes: &nodes, constraints: &[] };
    /// assert_eq!(records.eval_real(2, &[])?, Evaluation::Value(1.0));
    /// # Ok::<(), eml::Refusal>(())
    /// ```
    #[must_use]
    pub fn to_bytes(self) -> [u8; NODE_BYTES] {
        let mut record = [0; NODE_BYTES];
        match self {
            Self::One => {}
            Self::Const(value) => {
                record[0] = 1;
                record[8..].copy_from_slice(&value.to_le_bytes());
            }
            Self::Var(var) => {
                record[0] = 2;
                record[4..8].copy_from_slice(&var.to_le_bytes());
            }
            Self::Eml { left, right } => {
                record[0] = 3;
                record[4..8].copy_from_slice(&left.to_le_bytes());
                record[8..12].copy_from_slice(&right.to_le_bytes());
            }
        }
        record
    }

    /// The node of a record that the reader took.
    pub(crate) fn of_tested(record: &[u8]) -> Self {
        match record[0] {
            0 => Self::One,
            1 => Self::Const(f64_at(record, 8)),
            2 => Self::Var(u32_at(record, 4)),
            _ => Self::Eml {
                left: u32_at(record, 4),
                right: u32_at(record, 8),
            },
        }
    }
}
