//! The exported calls one for one: a slice for a pointer with a length, and every place that an answer is written to is the
//! caller's own.
//!
//! The other calls of this crate are made of these. They are for who lends the places: a refusal alters none of them.
//!
//! # Errors
//!
//! Records are tested first, 2 to 7; then 14, 8, 9 and 10 as far as a call has them. `eml.h` names those of each call.

#![allow(unsafe_code)]
#![deny(clippy::undocumented_unsafe_blocks)]

use crate::raw;
use crate::{Interval, Records, Refusal, Settings};

// What holds of every call below: a pointer and its length are those of one slice, which lives and, where it is written, is lent
// to nobody else until the call returns. The library takes every content, reads and writes within the slices and the places
// that it is lent, and keeps none of them. The lines at the calls say which slices and places these are. Settings go by value; the
// library has them as a usize, three f64 and a bool, in C's layout, and so has `Settings`, by its `repr(C)`.

/// Tests a file.
pub fn read(file: &[u8]) -> Result<(), Refusal> {
    // SAFETY: a slice that is read.
    Refusal::unless_zero(unsafe { raw::eml_read(file.as_ptr(), file.len()) })
}

/// Tests records given without a file.
pub fn read_records(records: Records<'_>) -> Result<(), Refusal> {
    let Records { nodes, constraints } = records;
    // SAFETY: slices that are read.
    Refusal::unless_zero(unsafe {
        raw::eml_read_records(
            nodes.as_ptr(),
            nodes.len(),
            constraints.as_ptr(),
            constraints.len(),
        )
    })
}

/// The number of variables of a file's constraint.
pub fn num_vars(file: &[u8], out: &mut u64) -> Result<(), Refusal> {
    // SAFETY: a slice that is read, and a place of a number.
    Refusal::unless_zero(unsafe { raw::eml_num_vars(file.as_ptr(), file.len(), out) })
}

/// The number of variables of a constraint given by records.
pub fn num_vars_records(records: Records<'_>, out: &mut u64) -> Result<(), Refusal> {
    let Records { nodes, constraints } = records;
    // SAFETY: slices that are read, and a place of a number.
    Refusal::unless_zero(unsafe {
        raw::eml_num_vars_records(
            nodes.as_ptr(),
            nodes.len(),
            constraints.as_ptr(),
            constraints.len(),
            out,
        )
    })
}

/// The first `num_vars` bounds, given by their lower and upper ends, with [-10,10] for a missing one, to the first places of
/// `out_lo` and `out_hi`.
pub fn domain_new(
    lo: &[f64],
    hi: &[f64],
    num_vars: usize,
    out_lo: &mut [f64],
    out_hi: &mut [f64],
) -> Result<(), Refusal> {
    // SAFETY: slices that are read, and two that are written.
    Refusal::unless_zero(unsafe {
        raw::eml_domain_new(
            lo.as_ptr(),
            lo.len(),
            hi.as_ptr(),
            hi.len(),
            num_vars,
            out_lo.as_mut_ptr(),
            out_lo.len(),
            out_hi.as_mut_ptr(),
            out_hi.len(),
        )
    })
}

/// Whether any of the intervals, given by their lower and upper ends, is empty.
pub fn domain_is_empty(lo: &[f64], hi: &[f64], out: &mut bool) -> Result<(), Refusal> {
    // SAFETY: slices that are read, and a place of a bool, which is written 0 or 1 only.
    Refusal::unless_zero(unsafe {
        raw::eml_domain_is_empty(lo.as_ptr(), lo.len(), hi.as_ptr(), hi.len(), out)
    })
}

/// Appends the four nodes of ln x to a list of `count` nodes, whose free places are the bytes after them.
pub fn canonical_ln(nodes: &mut [u8], count: usize, x: usize) -> Result<(), Refusal> {
    let (list, length) = (nodes.as_mut_ptr(), nodes.len());
    // SAFETY: a slice that is read and written.
    Refusal::unless_zero(unsafe { raw::eml_canonical_ln(list, length, count, x) })
}

/// Appends the seven nodes of x - y.
pub fn canonical_sub(nodes: &mut [u8], count: usize, x: usize, y: usize) -> Result<(), Refusal> {
    let (list, length) = (nodes.as_mut_ptr(), nodes.len());
    // SAFETY: a slice that is read and written.
    Refusal::unless_zero(unsafe { raw::eml_canonical_sub(list, length, count, x, y) })
}

macro_rules! comparison {
    ($(#[$doc:meta])* $name:ident, $raw:ident) => {
        $(#[$doc])*
        pub fn $name(
            nodes: &mut [u8],
            count: usize,
            x: usize,
            y: usize,
            out: &mut [u8],
        ) -> Result<(), Refusal> {
            let (list, length) = (nodes.as_mut_ptr(), nodes.len());
            let (record, room) = (out.as_mut_ptr(), out.len());
            // SAFETY: a slice that is read and written, and one that is written.
            Refusal::unless_zero(unsafe { raw::$raw(list, length, count, x, y, record, room) })
        }
    };
}

comparison!(
    /// x < y: appends as [`canonical_sub`] does, and writes the atom's record to the first 24 bytes of `out`.
    lt,
    eml_lt
);
comparison!(
    /// x <= y, as [`lt`].
    le,
    eml_le
);
comparison!(
    /// x > y, as [`lt`].
    gt,
    eml_gt
);
comparison!(
    /// x >= y, as [`lt`].
    ge,
    eml_ge
);

/// Document 01's numbers, not strict.
#[must_use]
pub fn usual_settings() -> Settings {
    raw::eml_usual_settings()
}

/// Tests settings: 14, or taken.
pub fn test_settings(settings: Settings) -> Result<(), Refusal> {
    Refusal::unless_zero(raw::eml_test_settings(settings))
}

/// Where [`eval_real`] writes. A place that the answer has nothing for stays.
#[derive(Clone, Copy, Debug, Default, PartialEq)]
pub struct EvalPlaces {
    /// 0 a value, 1 VarOutOfBounds, 2 NanEncountered, 3 ComplexResult, 4 ExpOverflow.
    pub kind: u8,
    /// The value, or what 3 and 4 carry.
    pub value: f64,
    /// The variable of 1.
    pub index: usize,
    /// The number of values of 1.
    pub count: usize,
}

/// A node's value at a point.
pub fn eval_real(
    nodes: &[u8],
    node: usize,
    point: &[f64],
    settings: Settings,
    to: &mut EvalPlaces,
) -> Result<(), Refusal> {
    // SAFETY: slices that are read, and places of numbers.
    Refusal::unless_zero(unsafe {
        raw::eml_eval_real(
            nodes.as_ptr(),
            nodes.len(),
            node,
            point.as_ptr(),
            point.len(),
            settings,
            &mut to.kind,
            &mut to.value,
            &mut to.index,
            &mut to.count,
        )
    })
}

/// Whether a point passes the check.
pub fn check(
    records: Records<'_>,
    point: &[f64],
    settings: Settings,
    passes: &mut bool,
) -> Result<(), Refusal> {
    let Records { nodes, constraints } = records;
    // SAFETY: slices that are read, and a place of a bool, which is written 0 or 1 only.
    Refusal::unless_zero(unsafe {
        raw::eml_check(
            nodes.as_ptr(),
            nodes.len(),
            constraints.as_ptr(),
            constraints.len(),
            point.as_ptr(),
            point.len(),
            settings,
            passes,
        )
    })
}

/// A point's residual.
pub fn residual(
    records: Records<'_>,
    point: &[f64],
    settings: Settings,
    out: &mut f64,
) -> Result<(), Refusal> {
    let Records { nodes, constraints } = records;
    // SAFETY: slices that are read, and a place of a number.
    Refusal::unless_zero(unsafe {
        raw::eml_residual(
            nodes.as_ptr(),
            nodes.len(),
            constraints.as_ptr(),
            constraints.len(),
            point.as_ptr(),
            point.len(),
            settings,
            out,
        )
    })
}

/// Writes the records of the normal form to `out` and their number to `written`.
pub fn to_nnf(records: Records<'_>, out: &mut [u8], written: &mut usize) -> Result<(), Refusal> {
    let Records { nodes, constraints } = records;
    // SAFETY: slices that are read, one that is written, and a place of a number.
    Refusal::unless_zero(unsafe {
        raw::eml_to_nnf(
            nodes.as_ptr(),
            nodes.len(),
            constraints.as_ptr(),
            constraints.len(),
            out.as_mut_ptr(),
            out.len(),
            written,
        )
    })
}

/// Narrows boxes, given by their lower and upper ends. `answer` is 0 for Changed, 1 Stable, 2 Conflict.
pub fn propagate(
    records: Records<'_>,
    settings: Settings,
    lo: &mut [f64],
    hi: &mut [f64],
    answer: &mut u8,
) -> Result<(), Refusal> {
    let Records { nodes, constraints } = records;
    // SAFETY: slices that are read, two that are read and written, and a place of a number.
    Refusal::unless_zero(unsafe {
        raw::eml_propagate(
            nodes.as_ptr(),
            nodes.len(),
            constraints.as_ptr(),
            constraints.len(),
            settings,
            lo.as_mut_ptr(),
            lo.len(),
            hi.as_mut_ptr(),
            hi.len(),
            answer,
        )
    })
}

/// Narrows one list of intervals, which it alters, as [`propagate`].
pub fn propagate_intervals(
    records: Records<'_>,
    settings: Settings,
    boxes: &mut [Interval],
    answer: &mut u8,
) -> Result<(), Refusal> {
    let Records { nodes, constraints } = records;
    // SAFETY: slices that are read, one that is read and written, and a place of a number. The library has an interval as two f64,
    // the lower end first, and so has `Interval`, by its `repr(C)`.
    Refusal::unless_zero(unsafe {
        raw::eml_propagate_intervals(
            nodes.as_ptr(),
            nodes.len(),
            constraints.as_ptr(),
            constraints.len(),
            settings,
            boxes.as_mut_ptr(),
            boxes.len(),
            answer,
        )
    })
}

/// Where [`solve_file`] and [`solve`] write.
#[derive(Debug)]
pub struct SolvePlaces<'a> {
    /// 0 assignment, 1 conflict, 2 tolerance, 3 limit, 4 unsatisfied.
    pub stop: u8,
    /// Whether an assignment is exact.
    pub exact: bool,
    /// The residual of any other answer.
    pub residual: f64,
    /// How many halves were written.
    pub halvings: usize,
    /// How many values the point has.
    pub count: usize,
    /// The point's values, in the first places.
    pub point: &'a mut [f64],
}

/// Solves a file.
pub fn solve_file(
    file: &[u8],
    limit: usize,
    tolerance: f64,
    settings: Settings,
    to: &mut SolvePlaces<'_>,
) -> Result<(), Refusal> {
    // SAFETY: a slice that is read, one that is written, and places of numbers and of a bool, which is written 0 or 1 only.
    Refusal::unless_zero(unsafe {
        raw::eml_solve_file(
            file.as_ptr(),
            file.len(),
            limit,
            tolerance,
            settings,
            &mut to.stop,
            &mut to.exact,
            &mut to.residual,
            &mut to.halvings,
            &mut to.count,
            to.point.as_mut_ptr(),
            to.point.len(),
        )
    })
}

/// Solves records with bounds, given by their lower and upper ends.
pub fn solve(
    records: Records<'_>,
    lo: &[f64],
    hi: &[f64],
    limit: usize,
    tolerance: f64,
    settings: Settings,
    to: &mut SolvePlaces<'_>,
) -> Result<(), Refusal> {
    let Records { nodes, constraints } = records;
    // SAFETY: slices that are read, one that is written, and places of numbers and of a bool, which is written 0 or 1 only.
    Refusal::unless_zero(unsafe {
        raw::eml_solve(
            nodes.as_ptr(),
            nodes.len(),
            constraints.as_ptr(),
            constraints.len(),
            lo.as_ptr(),
            lo.len(),
            hi.as_ptr(),
            hi.len(),
            limit,
            tolerance,
            settings,
            &mut to.stop,
            &mut to.exact,
            &mut to.residual,
            &mut to.halvings,
            &mut to.count,
            to.point.as_mut_ptr(),
            to.point.len(),
        )
    })
}

/// Where [`decide_forall`] and [`decide_exists`] write.
#[derive(Debug)]
pub struct DecidePlaces<'a> {
    /// 0 True, 1 TrueWithWitness, 2 FalseWithCounterexample, 3 Unknown.
    pub verdict: u8,
    /// How many values the point has.
    pub count: usize,
    /// The values of the witness or counterexample, in the first places.
    pub point: &'a mut [f64],
}

macro_rules! decision {
    ($(#[$doc:meta])* $name:ident, $raw:ident) => {
        $(#[$doc])*
        pub fn $name(
            records: Records<'_>,
            var: usize,
            range: Interval,
            num_vars: usize,
            settings: Settings,
            to: &mut DecidePlaces<'_>,
        ) -> Result<(), Refusal> {
            let Records { nodes, constraints } = records;
            // SAFETY: slices that are read, one that is written, and places of numbers.
            Refusal::unless_zero(unsafe {
                raw::$raw(
                    nodes.as_ptr(),
                    nodes.len(),
                    constraints.as_ptr(),
                    constraints.len(),
                    var,
                    range.lo,
                    range.hi,
                    num_vars,
                    settings,
                    &mut to.verdict,
                    &mut to.count,
                    to.point.as_mut_ptr(),
                    to.point.len(),
                )
            })
        }
    };
}

decision!(
    /// Whether the constraint holds for every value of `var` in `range`; refused with 10 under `num_vars` places.
    decide_forall,
    eml_decide_forall
);
decision!(
    /// Whether it holds for some value, as [`decide_forall`].
    decide_exists,
    eml_decide_exists
);
