// From the repository cool-japan/oxieml, commit fd90575a01, file src/canonical.rs.
// Apache License, Version 2.0; the licence is in NOTICE at the root of this repository.
// This file was modified: only `ln` and `sub` are kept.
// REPLACED.md lists every change.

//! Canonical EML tree constructions for elementary functions.
//!
//! Implements Paper Tables 1-4: all elementary functions expressed
//! as EML trees using only `eml(x, y) = exp(x) - ln(y)` and the constant `1`.

use crate::tree::EmlTree;

/// Canonical constructions for elementary functions as EML trees.
///
/// Each method builds the EML tree representation of a standard mathematical
/// function, following the constructions from the paper (arXiv:2603.21852).
pub struct Canonical;

impl Canonical {
    // ================================================================
    // Table 1: Basic operations
    // ================================================================

    /// `ln(x) = eml(1, eml(eml(1, x), 1))` — depth 3
    ///
    /// Construction:
    /// - Inner: `eml(1, x) = e - ln(x)`
    /// - Middle: `eml(e - ln(x), 1) = exp(e - ln(x)) = exp(e)/x`
    /// - Outer: `eml(1, exp(e)/x) = e - ln(exp(e)/x) = e - (e - ln(x)) = ln(x)`
    pub fn ln(x: &EmlTree) -> EmlTree {
        let one = EmlTree::one();
        let inner = EmlTree::eml(&one, x); // e - ln(x)
        let middle = EmlTree::eml(&inner, &one); // exp(e - ln(x))
        EmlTree::eml(&one, &middle) // e - ln(exp(e-ln(x))) = ln(x)
    }

    // ================================================================
    // Table 2: Arithmetic operations
    // ================================================================

    /// `x - y` — subtraction via `eml(ln(x), eml(y, 1))`
    ///
    /// Key identity: `eml(ln(x), eml(y, 1)) = exp(ln(x)) - ln(exp(y)) = x - y`.
    ///
    /// This relies on complex evaluation where `exp(ln(z)) = z` on the
    /// principal branch, making the identity valid for all real inputs.
    pub fn sub(x: &EmlTree, y: &EmlTree) -> EmlTree {
        let one = EmlTree::one();
        let ln_x = Self::ln(x);
        let exp_y = EmlTree::eml(y, &one); // eml(y, 1) = exp(y)
        // eml(ln(x), exp(y)) = exp(ln(x)) - ln(exp(y)) = x - y
        EmlTree::eml(&ln_x, &exp_y)
    }
}
