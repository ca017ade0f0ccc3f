//! `solve` with its stop word and count of halvings, which document 01 adds. The steps are those of smt/nra.rs; what the Rust
//! itself answers is compared with it at every call.

use crate::error::EmlError;
use crate::eval::EvalCtx;
use crate::settings::Settings;
use crate::smt::constraint::EmlConstraint;
use crate::smt::helpers::{check_constraint, count_constraint_vars, evaluate_constraint_residual};
use crate::smt::interval::{Interval, IntervalDomain, PropResult};
use crate::smt::nra::EmlNraSolver;
use eml::Stop;

/// An assignment has its point and exactness, any other answer its residual.
#[derive(Clone, Debug)]
pub struct Answer {
    pub stop: Stop,
    pub point: Vec<f64>,
    pub exact: bool,
    pub residual: f64,
    pub halvings: usize,
}

fn assignment(point: Vec<f64>, exact: bool, halvings: usize) -> Answer {
    Answer {
        stop: Stop::Assignment,
        point,
        exact,
        residual: 0.0,
        halvings,
    }
}

fn failed(stop: Stop, residual: f64, halvings: usize) -> Answer {
    Answer {
        stop,
        point: Vec::new(),
        exact: false,
        residual,
        halvings,
    }
}

/// Solves, and holds the answer against what the Rust's own `solve` says.
pub fn solve(
    constraint: &EmlConstraint,
    bounds: &[(f64, f64)],
    limit: usize,
    tolerance: f64,
    settings: &Settings,
) -> Answer {
    let ours = steps(constraint, bounds, limit, tolerance, settings);
    let solver = EmlNraSolver {
        max_iterations: limit,
        tolerance,
        initial_bounds: bounds.to_vec(),
        settings: *settings,
    };
    let agrees = match solver.solve(constraint) {
        Ok(solution) => {
            let bits = |point: &[f64]| point.iter().map(|x| x.to_bits()).collect::<Vec<_>>();
            ours.stop == Stop::Assignment
                && bits(&solution.assignments) == bits(&ours.point)
                && solution.is_exact == ours.exact
        }
        Err(EmlError::ConvergenceFailed {
            best_mse,
            iterations,
        }) => {
            let counted = match ours.stop {
                Stop::Tolerance | Stop::Limit => limit,
                _ => 0,
            };
            ours.stop != Stop::Assignment
                && best_mse.to_bits() == ours.residual.to_bits()
                && iterations == counted
        }
        Err(_) => false,
    };
    assert!(agrees, "the Rust's solve says otherwise: {ours:?}");
    ours
}

fn steps(
    constraint: &EmlConstraint,
    bounds: &[(f64, f64)],
    limit: usize,
    tolerance: f64,
    settings: &Settings,
) -> Answer {
    let passes = |point: &[f64]| check_constraint(constraint, &EvalCtx::new(point, settings));
    let residual = |point: &[f64]| evaluate_constraint_residual(constraint, point, settings).abs();
    let variables = count_constraint_vars(constraint);
    if variables == 0 {
        return if passes(&[]) {
            assignment(Vec::new(), true, 0)
        } else {
            failed(Stop::Unsatisfied, f64::INFINITY, 0)
        };
    }
    let mut domain = IntervalDomain::new(bounds, variables);
    if domain.propagate(constraint, settings) == PropResult::Conflict {
        return failed(Stop::Conflict, f64::INFINITY, 0);
    }
    let middle = |domain: &IntervalDomain| -> Vec<f64> {
        domain.vars.iter().map(Interval::midpoint).collect()
    };
    let narrow = |domain: &IntervalDomain| domain.vars.iter().all(|v| v.width() < tolerance);
    let point = middle(&domain);
    if passes(&point) {
        // Under limit 0 the Rust makes its check after the loop.
        let exact = limit > 0 && narrow(&domain);
        return assignment(point, exact, 0);
    }
    for halvings in 1..=limit {
        let point = middle(&domain);
        // The last of the widest.
        let mut widest = 0;
        for (i, v) in domain.vars.iter().enumerate() {
            if v.width() >= domain.vars[widest].width() {
                widest = i;
            }
        }
        let (lower, upper) = domain.vars[widest].split();
        let at = |half: &Interval| {
            let mut point = point.clone();
            point[widest] = half.midpoint();
            residual(&point)
        };
        domain.vars[widest] = if at(&lower) < at(&upper) {
            lower
        } else {
            upper
        };
        if domain.propagate(constraint, settings) == PropResult::Conflict {
            return failed(Stop::Conflict, f64::INFINITY, halvings);
        }
        let point = middle(&domain);
        if passes(&point) {
            return assignment(point, false, halvings);
        }
        if narrow(&domain) {
            return failed(Stop::Tolerance, residual(&point), halvings);
        }
    }
    failed(Stop::Limit, residual(&middle(&domain)), limit)
}
