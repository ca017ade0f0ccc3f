//! Building terms: nodes appended to a list of `count` nodes, whose free places are the bytes after them.
//!
//! [`Builder`](crate::Builder) counts for its user; these are for who keeps the list.
//!
//! ```
//! use eml::{Node, Records, canonical};
//!
//! // Variable 0, with free places for the four nodes of its logarithm.
//! let mut nodes = [0; 16 * (1 + canonical::LN_NODES)];
//! nodes[..16].copy_from_slice(&Node::Var(0).to_bytes());
//! let ln = canonical::ln(&mut nodes, 1, 0)?;
//! let records = Records { nodes: &nodes, constraints: &[] };
//! let value = records.eval_real(ln, &[1.0])?.value().expect("ln 1 is real");
//! assert!(value.abs() < 1e-12);
//! # Ok::<(), eml::Refusal>(())
//! ```

use crate::{Refusal, calls};

/// How many nodes [`ln`] appends.
pub const LN_NODES: usize = 4;
/// How many nodes [`sub`] and a comparison append.
pub const SUB_NODES: usize = 7;

/// Appends the four nodes of ln x: the number of the last, which is the result.
///
/// # Errors
///
/// 2 to 4 of the list; then 3 for an operand that names no node, 4 for the result's size or depth, and 10 for too few free
/// places.
pub fn ln(nodes: &mut [u8], count: usize, x: usize) -> Result<usize, Refusal> {
    calls::canonical_ln(nodes, count, x)?;
    Ok(count + LN_NODES - 1)
}

/// Appends the seven nodes of x - y: the number of the last, which is the result.
///
/// # Errors
///
/// As [`ln`].
pub fn sub(nodes: &mut [u8], count: usize, x: usize, y: usize) -> Result<usize, Refusal> {
    calls::canonical_sub(nodes, count, x, y)?;
    Ok(count + SUB_NODES - 1)
}
