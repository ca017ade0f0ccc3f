#![doc = include_str!("../README.md")]
#![no_std]
#![deny(missing_docs, unsafe_code)]

mod answer;
mod builder;
pub mod calls;
pub mod canonical;
mod comparison;
mod constraint;
mod domain;
pub mod format;
mod interval;
mod list;
pub mod maths;
mod node;
pub mod number;
mod numbered;
mod problem;
#[allow(unsafe_code)]
mod raw;
mod records;
mod refusal;
mod settings;
mod solution;

pub use answer::{Decision, DecisionError, Evaluation, Propagation};
pub use builder::{Builder, NodeId};
pub use comparison::{Record, ge, gt, le, lt};
pub use constraint::{Constraint, Relation};
pub use domain::IntervalDomain;
pub use interval::Interval;
pub use list::{Bounds, List, Point};
pub use node::Node;
pub use numbered::UnknownNumber;
pub use problem::{Problem, solve_file, solve_file_with};
pub use records::Records;
pub use refusal::Refusal;
pub use settings::Settings;
pub use solution::{Solution, Stop};
