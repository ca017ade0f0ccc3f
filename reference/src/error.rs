// From the repository cool-japan/oxieml, commit fd90575a01, file src/error.rs.
// Apache License, Version 2.0; the licence is in NOTICE at the root of this repository.
// This file was modified: only the cases that the taken functions answer are kept, and `ExpOverflow`, which a strict evaluation answers.
// REPLACED.md lists every change.

//! Error types for the OxiEML crate.

/// Errors that can occur during EML tree operations.
#[derive(Clone, Debug, PartialEq)]
pub enum EmlError {
    /// Evaluation produced a complex result when real was expected.
    /// Contains the imaginary part magnitude.
    ComplexResult(f64),

    /// Numerical overflow during exp computation.
    /// Contains the argument that caused overflow.
    ExpOverflow(f64),

    /// Variable index out of bounds.
    /// (requested_index, num_vars)
    VarOutOfBounds(usize, usize),

    /// Symbolic regression failed to converge.
    ConvergenceFailed {
        /// Best MSE achieved
        best_mse: f64,
        /// Number of iterations completed
        iterations: usize,
    },

    /// NaN encountered during computation.
    NanEncountered,
}
