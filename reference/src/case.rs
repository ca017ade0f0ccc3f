//! A problem in every form that a call is given it in, and each call that receives the record of settings, of both sides.
//!
//! `solve` and so on are what the Rust answers. `compare_solve` and so on ask the port too, in every form of the call, and end the test
//! where its answer differs in a bit, or where a place is not as the call should leave it.

use crate::compare::{say, text};
use crate::counted::{self, Answer};
use crate::eval::EvalCtx;
use crate::generate::{self, Shape, Temper};
use crate::house::{self, Bodies, Parts, Problem};
use crate::port::{self, Evaluated, bits};
use crate::settings::Settings;
use crate::smt::constraint::EmlConstraint;
use crate::smt::helpers::{self, QuantResult};
use crate::smt::interval::{self, IntervalDomain, PropResult};
use crate::splitmix::SplitMix64;
use eml::{Interval, Stop};

/// What a lent place holds before a call.
pub const UNTOUCHED: f64 = -7.25;

/// Tolerances of a solver's call.
pub const TOLERANCES: [f64; 5] = [1e-8, 1e-8, 0.0, 0.1, f64::INFINITY];

/// Limits of a solver's call on the same problem.
const LIMITS: [usize; 9] = [1, 2, 3, 5, 8, 13, 30, 60, MOST];

/// The greatest of them.
pub const MOST: usize = 400;

/// What was seen under those limits.
#[derive(Default)]
pub struct Limited {
    pub problems: u64,
    /// By the stop word under the greatest limit.
    pub stops: [u64; 5],
    /// Answers "limit" below the halvings of another answer.
    pub cut: u64,
    /// Assignments that were checked.
    pub assigned: u64,
}

impl Limited {
    pub fn say(&self, what: &str) {
        let Self {
            problems,
            stops,
            cut,
            assigned,
        } = self;
        say(&format!(
            "limits {what}: {problems} problems under {} limits, all alike; assignment, conflict, tolerance, limit, unsatisfied {stops:?}; {cut} answers 'limit' below the halvings of another; {assigned} assignments checked",
            LIMITS.len()
        ));
    }
}

/// A decision of the Rust.
pub type Decide = fn(usize, f64, f64, &EmlConstraint, usize, &Settings) -> QuantResult;

/// A decision of both sides.
pub type Decision = (Decide, port::Decide);

pub const FORALL: Decision = (helpers::decide_forall, port::decide_forall);
pub const EXISTS: Decision = (helpers::decide_exists, port::decide_exists);

/// The number of the verdict, as the library has it, and the values of its point.
pub fn taken_apart(result: &QuantResult) -> (usize, &[f64]) {
    match result {
        QuantResult::True => (0, &[]),
        QuantResult::TrueWithWitness(point) => (1, point),
        QuantResult::FalseWithCounterexample { counterexample } => (2, counterexample),
        QuantResult::Unknown => (3, &[]),
    }
}

/// What a decision is asked, beside its constraint.
#[derive(Debug)]
pub struct Question {
    pub var: usize,
    pub range: (f64, f64),
    pub num_vars: usize,
}

pub struct Case {
    /// At most so many, and what other ranges are like.
    pub variables: usize,
    pub temper: Temper,
    pub parts: Parts,
    pub bodies: Bodies,
    pub problem: Problem,
}

pub fn listed(boxes: &[(f64, f64)]) -> Vec<Interval> {
    boxes.iter().map(|&ends| ends.into()).collect()
}

impl Case {
    pub fn new(parts: Parts, variables: usize, temper: Temper) -> Self {
        let bodies = parts.to_bodies();
        let problem = house::read_file(&bodies.to_file()).expect("sound");
        Self {
            variables,
            temper,
            parts,
            bodies,
            problem,
        }
    }

    pub fn drawn(rng: &mut SplitMix64, shape: &Shape) -> Self {
        let parts = generate::problem(rng, shape);
        Self::new(parts, shape.variables, shape.temper)
    }

    pub fn solve(&self, limit: usize, tolerance: f64, settings: &Settings) -> Answer {
        let Problem {
            constraint, bounds, ..
        } = &self.problem;
        counted::solve(constraint, bounds, limit, tolerance, settings)
    }

    pub fn compare_solve(&self, limit: usize, tolerance: f64, settings: &Settings) -> Answer {
        let theirs = self.solve(limit, tolerance, settings);
        let bounds = &self.problem.bounds;
        for ours in port::solve_both(&self.bodies, bounds, limit, tolerance, settings) {
            let call = format!("{:?} {limit} {tolerance} {settings:?}", self.parts);
            assert_eq!(text(&ours), text(&theirs), "{call}");
        }
        theirs
    }

    /// What the port answers, of the file.
    pub fn port(&self, limit: usize, tolerance: f64, settings: &Settings) -> Answer {
        let file = self.bodies.to_file();
        port::solve_file(&file, limit, tolerance, settings, 16).expect("accepted")
    }

    /// What the port answers under the greatest limit, which it answers under each limit that is not below the halvings; under the others it
    /// answers "limit". An assignment, under limit 0 too, passes the check under the same settings, inside the box that the call got.
    pub fn compare_limits(
        &self,
        tolerance: f64,
        settings: &Settings,
        seen: &mut Limited,
    ) -> Answer {
        let last = self.port(MOST, tolerance, settings);
        seen.problems += 1;
        seen.stops[last.stop as usize] += 1;
        for limit in LIMITS {
            let answer = self.port(limit, tolerance, settings);
            let call = || format!("{:?} {tolerance} {settings:?}: {answer:?}", self.parts);
            if last.stop == Stop::Limit || limit < last.halvings {
                let cut = (answer.stop, answer.halvings);
                assert_eq!(cut, (Stop::Limit, limit), "{}", call());
                seen.cut += u64::from(last.stop != Stop::Limit);
            } else {
                assert_eq!(text(&answer), text(&last), "{}", call());
            }
        }
        for answer in [&self.port(0, tolerance, settings), &last] {
            if answer.stop == Stop::Assignment {
                assert!(self.check(&answer.point, settings));
                let domain = IntervalDomain::new(&self.parts.bounds, answer.point.len());
                let inside = domain.vars.iter().zip(&answer.point);
                assert!(inside.into_iter().all(|(v, &x)| v.contains(x)));
                seen.assigned += 1;
            }
        }
        last
    }

    /// The answer and the bits of the boxes after it.
    pub fn propagate(
        &self,
        boxes: &[(f64, f64)],
        settings: &Settings,
    ) -> (PropResult, Vec<String>) {
        let vars = boxes
            .iter()
            .map(|&(lo, hi)| interval::Interval::new(lo, hi));
        let mut domain = IntervalDomain {
            vars: vars.collect(),
        };
        let answer = domain.propagate(&self.problem.constraint, settings);
        let vars = domain.vars.iter().map(|v| (v.lo, v.hi));
        (answer, bits(&listed(&vars.collect::<Vec<_>>())))
    }

    pub fn compare_propagate(
        &self,
        boxes: &[(f64, f64)],
        settings: &Settings,
    ) -> (PropResult, Vec<String>) {
        let theirs = self.propagate(boxes, settings);
        let (nodes, constraints) = (&self.bodies.nodes, &self.bodies.constraints);
        let call = || format!("{:?} {boxes:?} {settings:?}", self.parts);

        let mut list = listed(boxes);
        let answer = port::propagate_intervals(nodes, constraints, settings, &mut list);
        let ours = (answer.expect("accepted"), bits(&list));
        assert_eq!(ours, theirs, "{}", call());

        let (mut lo, mut hi) = port::ends(boxes);
        let answer = port::propagate(nodes, constraints, settings, &mut lo, &mut hi);
        let after: Vec<_> = lo.into_iter().zip(hi).collect();
        let ours = (answer.expect("accepted"), bits(&listed(&after)));
        assert_eq!(ours, theirs, "{}", call());

        for (before, after) in boxes.iter().zip(&after) {
            // No lo lowered, no hi raised, no interval emptied.
            assert!(before.0 <= after.0 && after.0 <= after.1 && after.1 <= before.1);
        }
        theirs
    }

    /// One of the later nodes, which are the larger trees; none of an empty list.
    pub fn any_node(&self, rng: &mut SplitMix64) -> Option<usize> {
        let count = self.parts.nodes.len();
        (count > 0).then(|| count - 1 - rng.below(count.min(8)))
    }

    pub fn eval_real(&self, node: usize, point: &[f64], settings: &Settings) -> Evaluated {
        let ctx = EvalCtx::new(point, settings);
        self.problem.trees[node].eval_real(&ctx).into()
    }

    pub fn compare_eval_real(&self, node: usize, point: &[f64], settings: &Settings) -> Evaluated {
        let theirs = self.eval_real(node, point, settings);
        let ours = port::eval_real(&self.bodies.nodes, node, point, settings).expect("accepted");
        let call = || format!("{node} of {:?} {point:?} {settings:?}", self.parts);
        assert_eq!(text(&ours), text(&theirs), "{}", call());
        theirs
    }

    pub fn check(&self, point: &[f64], settings: &Settings) -> bool {
        helpers::check_constraint(&self.problem.constraint, &EvalCtx::new(point, settings))
    }

    pub fn compare_check(&self, point: &[f64], settings: &Settings) -> bool {
        let theirs = self.check(point, settings);
        let (nodes, constraints) = (&self.bodies.nodes, &self.bodies.constraints);
        let ours = port::check(nodes, constraints, point, settings);
        let call = || format!("{:?} {point:?} {settings:?}", self.parts);
        assert_eq!(ours, Ok(theirs), "{}", call());
        theirs
    }

    pub fn residual(&self, point: &[f64], settings: &Settings) -> f64 {
        helpers::evaluate_constraint_residual(&self.problem.constraint, point, settings)
    }

    pub fn compare_residual(&self, point: &[f64], settings: &Settings) -> f64 {
        let theirs = self.residual(point, settings);
        let (nodes, constraints) = (&self.bodies.nodes, &self.bodies.constraints);
        let ours = port::residual(nodes, constraints, point, settings).expect("accepted");
        let call = || format!("{:?} {point:?} {settings:?}", self.parts);
        assert_eq!(text(&ours), text(&theirs), "{}", call());
        theirs
    }

    pub fn question(&self, rng: &mut SplitMix64) -> Question {
        let num_vars = generate::num_vars_about(rng, self.variables);
        Question {
            num_vars,
            var: generate::variable_about(rng, num_vars),
            range: generate::range_about(rng, &self.parts.bounds, self.temper),
        }
    }

    pub fn decide(
        &self,
        (decide, _): Decision,
        question: &Question,
        settings: &Settings,
    ) -> QuantResult {
        let Question {
            var,
            range: (lo, hi),
            num_vars,
        } = *question;
        decide(var, lo, hi, &self.problem.constraint, num_vars, settings)
    }

    pub fn compare_decide(
        &self,
        decision: Decision,
        question: &Question,
        settings: &Settings,
    ) -> QuantResult {
        let theirs = self.decide(decision, question, settings);
        let Question {
            var,
            range,
            num_vars,
        } = *question;
        let (nodes, constraints) = (&self.bodies.nodes, &self.bodies.constraints);
        let mut point = vec![UNTOUCHED; num_vars + 1];
        let ours = decision.1(
            nodes,
            constraints,
            var,
            range,
            num_vars,
            settings,
            &mut point,
        );
        let call = || format!("{question:?} {:?} {settings:?}", self.parts);
        assert_eq!(text(&ours.expect("accepted")), text(&theirs), "{}", call());
        let past = &point[taken_apart(&theirs).1.len()..];
        assert!(past.iter().all(|&x| x == UNTOUCHED), "{}", call());
        theirs
    }
}
