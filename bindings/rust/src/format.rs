//! The house file's numbers: the sizes of its parts, and its limits. What a record holds is in [`Node`](crate::Node) and
//! [`Constraint`](crate::Constraint).

/// The bytes before the nodes: the mark, and the offsets and counts.
pub const HEADER_BYTES: usize = 32;
/// The bytes of a node.
pub const NODE_BYTES: usize = 16;
/// The bytes of a constraint's record.
pub const CONSTRAINT_BYTES: usize = 24;
/// The bytes of a bound.
pub const BOUND_BYTES: usize = 16;

/// The most nodes.
pub const MOST_NODES: usize = 1024;
/// The most records of constraints.
pub const MOST_CONSTRAINTS: usize = 256;
/// The most variables, bounds, or values of a point.
pub const MOST_VALUES: usize = 16;
/// The bytes of the longest file.
pub const LONGEST_FILE: usize = HEADER_BYTES
    + NODE_BYTES * MOST_NODES
    + CONSTRAINT_BYTES * MOST_CONSTRAINTS
    + BOUND_BYTES * MOST_VALUES;

/// The largest expanded size of a node: 1, for Eml 1 and both children's.
pub const MOST_SIZE: usize = 4096;
/// The largest depth of a node: 1, for Eml 1 and the larger of the children's.
pub const MOST_DEPTH: usize = 128;
/// The largest depth of a constraint.
pub const MOST_CONSTRAINT_DEPTH: usize = 16;
/// The most quantifiers on a path.
pub const MOST_QUANTIFIERS: usize = 4;
/// The highest limit of halvings.
pub const MOST_LIMIT: usize = 1_000_000;

/// The four bytes from `at` on, as a little-endian number.
pub(crate) fn u32_at(bytes: &[u8], at: usize) -> u32 {
    let mut four = [0; 4];
    four.copy_from_slice(&bytes[at..at + 4]);
    u32::from_le_bytes(four)
}

/// The eight bytes from `at` on, as a little-endian f64.
pub(crate) fn f64_at(bytes: &[u8], at: usize) -> f64 {
    let mut eight = [0; 8];
    eight.copy_from_slice(&bytes[at..at + 8]);
    f64::from_le_bytes(eight)
}
