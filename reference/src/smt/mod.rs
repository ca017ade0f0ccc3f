//! The solver's modules. The source's own file of this name is not among the files that were published with document 01.

pub mod constraint;
pub mod helpers;
pub mod interval;
pub mod nra;
