//! How often narrowing meets a conflict in a box that has points which pass the check: a false conflict. Prints the table of the
//! README. Run as `cargo run --release --bin false_conflicts`.
//!
//! Each constraint is on variable 0, x, and a constant c, and has one turning value: the points on one side of it pass, or it alone.
//! For each c two boxes are drawn: one in which every point passes, and one with the turning value inside.

use eml::Stop;
use reference::canonical::Canonical;
use reference::counted;
use reference::eval::EvalCtx;
use reference::settings::Settings;
use reference::smt::constraint::EmlConstraint::{self, EqZero, GtZero, LtZero};
use reference::smt::helpers::check_constraint;
use reference::smt::interval::{Interval, IntervalDomain, PropResult};
use reference::splitmix::SplitMix64;
use reference::standins::{exp, ln};
use reference::tree::EmlTree;
use std::cmp::Ordering::{self, Equal, Greater, Less};

const DRAWS: u32 = 10_000;

/// A constraint made of c and x, and which points pass: those above the turning value, those below it, or it alone.
type Form = (
    &'static str,
    Ordering,
    fn(&EmlTree, &EmlTree) -> EmlConstraint,
);

/// Forms that have the constants of one range, and where they turn.
struct Family {
    constants: (f64, f64),
    turn: fn(f64) -> f64,
    forms: &'static [Form],
}

/// The comparisons, with the constant on either side.
const COMPARISONS: Family = Family {
    constants: (0.1, 10.0),
    turn: |c| c,
    forms: &[
        ("lt(c, x)", Greater, |c, x| {
            EmlConstraint::lt(c.clone(), x.clone())
        }),
        ("le(c, x)", Greater, |c, x| {
            EmlConstraint::le(c.clone(), x.clone())
        }),
        ("gt(c, x)", Less, |c, x| {
            EmlConstraint::gt(c.clone(), x.clone())
        }),
        ("ge(c, x)", Less, |c, x| {
            EmlConstraint::ge(c.clone(), x.clone())
        }),
        ("lt(x, c)", Less, |c, x| {
            EmlConstraint::lt(x.clone(), c.clone())
        }),
        ("le(x, c)", Less, |c, x| {
            EmlConstraint::le(x.clone(), c.clone())
        }),
        ("gt(x, c)", Greater, |c, x| {
            EmlConstraint::gt(x.clone(), c.clone())
        }),
        ("ge(x, c)", Greater, |c, x| {
            EmlConstraint::ge(x.clone(), c.clone())
        }),
        ("x - c = 0", Equal, |c, x| EqZero(Canonical::sub(x, c))),
    ],
};

/// Atoms on exp(x) - ln(c).
const RIGHT: Family = Family {
    constants: (20.0, 2000.0),
    turn: |c| ln(ln(c)),
    forms: &[
        ("exp(x) - ln(c) > 0", Greater, |c, x| {
            GtZero(EmlTree::eml(x, c))
        }),
        ("exp(x) - ln(c) < 0", Less, |c, x| {
            LtZero(EmlTree::eml(x, c))
        }),
        ("exp(x) - ln(c) = 0", Equal, |c, x| {
            EqZero(EmlTree::eml(x, c))
        }),
    ],
};

/// Atoms on exp(c) - ln(x).
const LEFT: Family = Family {
    constants: (0.01, 1.0),
    turn: |c| exp(exp(c)),
    forms: &[
        ("exp(c) - ln(x) > 0", Less, |c, x| {
            GtZero(EmlTree::eml(c, x))
        }),
        ("exp(c) - ln(x) < 0", Greater, |c, x| {
            LtZero(EmlTree::eml(c, x))
        }),
        ("exp(c) - ln(x) = 0", Equal, |c, x| {
            EqZero(EmlTree::eml(c, x))
        }),
    ],
};

fn middle((lo, hi): (f64, f64)) -> f64 {
    Interval::new(lo, hi).midpoint()
}

fn conflicts(constraint: &EmlConstraint, bounds: &[(f64, f64)]) -> bool {
    let mut domain = IntervalDomain::new(bounds, bounds.len());
    domain.propagate(constraint, &Settings::default()) == PropResult::Conflict
}

/// How solving again stops: under a quantifier over a variable that the constraint does not name, nothing is narrowed.
fn stop_again(constraint: &EmlConstraint, bound: (f64, f64)) -> Stop {
    let (var, lo, hi) = (1, 0.0, 0.0);
    let body = Box::new(constraint.clone());
    let quantified = EmlConstraint::Exists { var, lo, hi, body };
    counted::solve(
        &quantified,
        &[bound, (lo, hi)],
        10_000,
        1e-8,
        &Settings::default(),
    )
    .stop
}

/// What was counted of one form.
#[derive(Default)]
struct Counts {
    conflicts: u32,
    midpoint: u32,
    again: u32,
    variable: u32,
    tolerance: u32,
}

impl Counts {
    fn add(&mut self, rng: &mut SplitMix64, family: &Family, form: &Form) {
        let (_, side, make) = form;
        let c = rng.uniform(family.constants.0, family.constants.1);
        let turn = (family.turn)(c);
        let x = EmlTree::var(0);
        let constraint = make(&EmlTree::const_val(c), &x);
        let settings = Settings::default();
        let passes = |x: f64| check_constraint(&constraint, &EvalCtx::new(&[x], &settings));

        let some = (
            turn * rng.uniform(0.01, 0.99),
            turn * rng.uniform(1.01, 1.99),
        );
        let known = match side {
            Less => some.0,
            Equal => turn,
            Greater => some.1,
        };
        assert!(passes(known));
        let conflict = conflicts(&constraint, &[some]);

        // Beyond the turning value every point passes, the middle too, and whether there is a conflict does not change.
        let near = turn + (known - turn) * rng.uniform(0.01, 0.99);
        let every = (known.min(near), known.max(near));
        if *side != Equal {
            assert!(passes(every.0) && passes(every.1) && passes(middle(every)));
            assert_eq!(conflicts(&constraint, &[every]), conflict);
        }

        // c as variable 1, to a millionth of a millionth.
        let around = (c - c * 1e-12, c + c * 1e-12);
        let free = make(&EmlTree::var(1), &x);
        self.variable += u32::from(conflicts(&free, &[some, around]));
        if conflict {
            self.conflicts += 1;
            self.midpoint += u32::from(passes(middle(some)));
            match stop_again(&constraint, some) {
                Stop::Assignment => self.again += 1,
                Stop::Tolerance => self.tolerance += 1,
                stop => panic!("the table has no column for {stop}"),
            }
        }
    }
}

fn main() {
    println!(
        "| constraint | false conflicts | the midpoint passes | solving again finds a point | with c as a variable | solving again ends in tolerance |"
    );
    println!("|---|---|---|---|---|---|");
    let mut rng = SplitMix64::new(113);
    for family in [COMPARISONS, RIGHT, LEFT] {
        for form in family.forms {
            let mut counts = Counts::default();
            for _ in 0..DRAWS {
                counts.add(&mut rng, &family, form);
            }
            let Counts {
                conflicts,
                midpoint,
                again,
                variable,
                tolerance,
            } = counts;
            println!(
                "| {} | {conflicts} | {midpoint} | {again} | {variable} | {tolerance} |",
                form.0
            );
        }
    }
}
