// From the repository cool-japan/oxieml, commit fd90575a01, file src/tree.rs.
// Apache License, Version 2.0; the licence is in NOTICE at the root of this repository.
// This file was modified: only the tree and the calls that build it are kept.
// REPLACED.md lists every change.

//! EML tree data structures.
//!
//! The core representation: uniform binary trees where every internal node
//! is the EML operator `eml(x, y) = exp(x) - ln(y)` and leaves are either
//! the constant `1` or input variables.

use std::sync::Arc;

/// EML tree node. All nodes share the same type — uniform binary tree.
/// `Arc` enables O(1) subtree sharing during symbolic regression.
#[derive(Clone, Debug, PartialEq)]
pub enum EmlNode {
    /// Constant 1 (the only constant in the paper's grammar).
    One,

    /// Free floating-point constant (activated when `SymRegConfig.enable_const_leaf = true`).
    /// Not part of the base EML grammar; used during symbolic regression to represent
    /// learnable constants that are later snapped to named constants.
    Const(f64),

    /// Input variable referenced by index: x0, x1, ...
    Var(usize),

    /// `eml(left, right) = exp(left) - ln(right)`
    Eml {
        /// Left subtree (argument to exp).
        left: Arc<EmlNode>,
        /// Right subtree (argument to ln).
        right: Arc<EmlNode>,
    },
}

/// EML tree with metadata.
#[derive(Clone, Debug)]
pub struct EmlTree {
    /// Root node of the tree.
    pub root: Arc<EmlNode>,
    /// Number of distinct variables used in the tree.
    num_vars: usize,
}

impl EmlTree {
    /// Create a tree representing the constant 1.
    pub fn one() -> Self {
        Self {
            root: Arc::new(EmlNode::One),
            num_vars: 0,
        }
    }

    /// Create a tree representing variable `x_index`.
    pub fn var(index: usize) -> Self {
        Self {
            root: Arc::new(EmlNode::Var(index)),
            num_vars: index + 1,
        }
    }

    /// Create a tree representing `eml(left, right) = exp(left) - ln(right)`.
    pub fn eml(left: &EmlTree, right: &EmlTree) -> Self {
        Self {
            root: Arc::new(EmlNode::Eml {
                left: Arc::clone(&left.root),
                right: Arc::clone(&right.root),
            }),
            num_vars: left.num_vars.max(right.num_vars),
        }
    }

    /// Create a tree with a free constant leaf (active only when `SymRegConfig.enable_const_leaf = true`).
    pub fn const_val(v: f64) -> Self {
        Self {
            root: Arc::new(EmlNode::Const(v)),
            num_vars: 0,
        }
    }

    /// Number of distinct variables referenced.
    pub fn num_vars(&self) -> usize {
        self.num_vars
    }
}

impl PartialEq for EmlTree {
    fn eq(&self, other: &Self) -> bool {
        self.root == other.root
    }
}
