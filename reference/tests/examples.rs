//! The documents' examples on the Rust itself (what is strict, on the reference), so that the judge is judged too.

use eml::Stop;
use reference::canonical::Canonical;
use reference::compare::hex;
use reference::counted;
use reference::error::EmlError;
use reference::eval::EvalCtx;
use reference::house::{Node, Parts, Problem, Record, kind, read_file, read_nodes};
use reference::settings::Settings;
use reference::smt::constraint::{EmlConstraint, EmlSolution};
use reference::smt::helpers::{
    QuantResult, check_constraint, decide_forall, evaluate_constraint_residual,
};
use reference::smt::interval::{IntervalDomain, PropResult};
use reference::smt::nra::EmlNraSolver;
use reference::standins;
use reference::tree::EmlTree;

const PI: u64 = 0x4009_21FB_5444_2D18;

fn var() -> EmlTree {
    EmlTree::var(0)
}

fn eq() -> EmlConstraint {
    EmlConstraint::EqZero(var())
}

fn gt() -> EmlConstraint {
    EmlConstraint::GtZero(var())
}

/// The answer of propagation, and the bits of the box.
fn propagate(constraint: EmlConstraint, lo: f64, hi: f64) -> (PropResult, [u64; 2]) {
    let mut domain = IntervalDomain::new(&[(lo, hi)], 1);
    let answer = domain.propagate(&constraint, &Settings::default());
    let iv = domain.vars[0];
    (answer, [iv.lo.to_bits(), iv.hi.to_bits()])
}

/// Whether a point passes the check.
fn check(constraint: &EmlConstraint, point: &[f64]) -> bool {
    check_constraint(constraint, &EvalCtx::new(point, &Settings::default()))
}

fn bits(lo: f64, hi: f64) -> [u64; 2] {
    [lo.to_bits(), hi.to_bits()]
}

fn solve(
    constraint: &EmlConstraint,
    bounds: &[(f64, f64)],
    limit: usize,
) -> Result<EmlSolution, EmlError> {
    let solver = EmlNraSolver {
        max_iterations: limit,
        ..EmlNraSolver::new(bounds.to_vec())
    };
    solver.solve(constraint)
}

#[test]
fn narrowing_of_atoms() {
    use PropResult::{Changed, Conflict, Stable};
    let ge = EmlConstraint::GeZero(var());
    let ne = EmlConstraint::NeZero(var());
    assert_eq!(propagate(gt(), -3.0, -1.0).0, Conflict);
    assert_eq!(propagate(gt(), 0.0, 0.0).0, Conflict);
    assert_eq!(propagate(ge, 0.0, 0.0).0, Stable);
    assert_eq!(propagate(eq(), -1.0, 2.0), (Changed, bits(0.0, 0.0)));
    assert_eq!(
        propagate(ne.clone(), 0.0, 1.0),
        (Changed, [1, 1.0_f64.to_bits()])
    );
    assert_eq!(propagate(ne, 0.0, 1e-13).0, Conflict);
}

/// Document 02 [3]: -0 is below +0 in max and min. In [-0,1] the equation gives [+0,+0] and LeZero [-0,+0]; the hull of both, written by
/// Or, is [-0,+0].
#[test]
fn narrowing_at_zeros() {
    use PropResult::Changed;
    assert_eq!(propagate(eq(), -0.0, 1.0), (Changed, bits(0.0, 0.0)));
    let le = EmlConstraint::LeZero(var());
    assert_eq!(propagate(le.clone(), -0.0, 1.0), (Changed, bits(-0.0, 0.0)));
    let or = EmlConstraint::Or(vec![eq(), le]);
    assert_eq!(propagate(or, -0.0, 1.0), (Changed, bits(-0.0, 0.0)));
}

/// The angle of a complex ln has the sign bit of a zero, so a check can tell the zeros apart: e - ln(x) is infinite at +0 and has an
/// imaginary part at -0.
#[test]
fn zeros_in_the_check() {
    let above = EmlConstraint::GtZero(EmlTree::eml(&EmlTree::one(), &var()));
    assert!(check(&above, &[0.0]));
    assert!(!check(&above, &[-0.0]));
}

#[test]
fn narrowing_of_and_and_or() {
    use PropResult::{Changed, Conflict, Stable};
    let and = EmlConstraint::And(vec![eq(), gt()]);
    let or = EmlConstraint::Or(vec![eq(), gt()]);
    assert_eq!(propagate(and, -1.0, 2.0), (Conflict, bits(0.0, 0.0)));
    assert_eq!(propagate(or, -1.0, 2.0), (Changed, bits(0.0, 2.0)));
    assert_eq!(propagate(EmlConstraint::And(vec![]), 0.0, 1.0).0, Stable);
    assert_eq!(propagate(EmlConstraint::Or(vec![]), 0.0, 1.0).0, Conflict);
}

/// The source narrows Not by what is inside it: every point of [-3, -1] passes the check, and the answer is Conflict.
#[test]
fn narrowing_of_not() {
    let not = EmlConstraint::Not(Box::new(gt()));
    assert!(check(&not, &[-2.0]));
    assert_eq!(propagate(not.clone(), -3.0, -1.0).0, PropResult::Conflict);
    assert_eq!(propagate(not.to_nnf(), -3.0, -1.0).0, PropResult::Stable);
}

/// The source answers Conflict although a point of the box passes the check: where exp of an end overflows, and where a
/// strict atom's values end within four times the machine's epsilon of zero.
#[test]
fn narrowing_beyond_the_check() {
    let exp = EmlConstraint::GtZero(EmlTree::eml(&var(), &EmlTree::one()));
    assert!(check(&exp, &[1.0]));
    assert_eq!(propagate(exp.clone(), 0.0, 709.0).0, PropResult::Stable);
    assert_eq!(propagate(exp, 0.0, 710.0).0, PropResult::Conflict);

    assert!(check(&gt(), &[1e-16]));
    assert_eq!(propagate(gt(), 0.0, 1e-16).0, PropResult::Conflict);
    let lt = EmlConstraint::LtZero(var());
    assert!(check(&lt, &[-1e-16]));
    assert_eq!(propagate(lt, -1e-16, 0.0).0, PropResult::Conflict);
}

/// Narrowing does not round outward: the constant comes back through exp and ln as another number, and its interval is empty. Every
/// point of [0.5, 3.5] is above 0.25, and the answer is Conflict.
#[test]
fn narrowing_by_a_constant() {
    let above = EmlConstraint::gt(var(), EmlTree::const_val(0.25));
    for x in [0.5, 2.0, 3.5] {
        assert!(check(&above, &[x]));
    }
    assert_eq!(propagate(above, 0.5, 3.5).0, PropResult::Conflict);
}

/// For the same reason a decision is True although a sample fails.
#[test]
fn true_though_a_sample_fails() {
    let body = EmlConstraint::GtZero(EmlTree::eml(&var(), &EmlTree::const_val(5.0)));
    assert!(!check(&body, &[-3.0]));
    let decision = decide_forall(0, -3.0, 3.0, &body, 1, &Settings::default());
    assert!(matches!(decision, QuantResult::True));
}

/// x - y is exp(ln x) - ln(exp y), and evaluation clamps exp at 709 and -709: a second operand beyond counts as that end, and one so
/// small that exp of it is 1 as 0. As the first operand 0 counts as 1.8e-307, and one of -10,000 gives a difference that is not real.
#[test]
fn comparisons_at_their_ends() {
    let passes = |c: fn(EmlTree, EmlTree) -> EmlConstraint, x: f64, y: f64| {
        let constraint = c(EmlTree::const_val(x), EmlTree::const_val(y));
        check(&constraint, &[])
    };
    let (lt, gt) = (EmlConstraint::lt, EmlConstraint::gt);
    assert!(passes(lt, 700.0, 709.0) && !passes(gt, 700.0, 709.0));
    assert!(!passes(lt, 800.0, 900.0) && passes(gt, 800.0, 900.0));
    assert!(passes(lt, -800.0, -900.0) && !passes(gt, -800.0, -900.0));
    assert!(passes(lt, 0.0, 1e-15) && !passes(gt, 0.0, 1e-15));
    assert!(passes(gt, 0.0, 0.0) && passes(gt, 0.0, 1e-17));
    assert!(passes(lt, -8000.0, 1.0) && !passes(lt, -10_000.0, 1.0));
    assert!(passes(gt, 0.25, 0.25) && !passes(lt, 0.25, 0.25));

    let below = EmlConstraint::lt(var(), EmlTree::const_val(900.0));
    assert_eq!(propagate(below.clone(), 800.0, 850.0).0, PropResult::Stable);
    assert!(solve(&below, &[(800.0, 850.0)], 10_000).is_err());
    // Where the first operand's range reaches 0, nothing is narrowed.
    let above = EmlConstraint::gt(var(), EmlTree::const_val(5.0));
    assert_eq!(propagate(above.clone(), 0.0, 10.0).0, PropResult::Stable);
    assert_ne!(propagate(above, 1.0, 10.0).0, PropResult::Stable);
}

/// The ends under another clamp, c: the second operand counts as within -c and c; the magnitude of the first, whose sign stays, as within
/// exp(e - c) and exp(c), and where c is below e/2 as exp(c).
#[test]
fn comparisons_under_a_clamp() {
    let difference = |clamp: f64, x: f64, y: f64| {
        let settings = Settings {
            clamp,
            ..Settings::default()
        };
        let tree = Canonical::sub(&EmlTree::const_val(x), &EmlTree::const_val(y));
        tree.eval_real(&EvalCtx::new(&[], &settings))
            .expect("a number")
    };
    let e = std::f64::consts::E;
    let near = |a: f64, b: f64| (a - b).abs() < 1e-9 * b.abs().max(1.0);
    assert_eq!(difference(5.0, 2.0, 6.0), difference(5.0, 2.0, 5.0));
    assert_eq!(difference(5.0, 2.0, -6.0), difference(5.0, 2.0, -5.0));
    assert_eq!(difference(5.0, 0.05, 0.0), difference(5.0, 0.1, 0.0));
    assert!(near(difference(5.0, 0.05, 0.0), (e - 5.0).exp()));
    assert!((0.1021..0.10211).contains(&difference(5.0, 0.05, 0.0)));
    assert!(near(difference(5.0, 0.103, 0.0), 0.103));
    assert!(near(difference(5.0, 200.0, 0.0), 5.0_f64.exp()));
    assert!(near(difference(5.0, 148.0, 0.0), 148.0));
    assert!(near(difference(5.0, -0.05, 0.0), -(e - 5.0).exp()));
    assert!(near(difference(5.0, -2.0, 0.0), -2.0));
    for x in [0.001, 1.0, 2.0, 1000.0] {
        assert!(near(difference(1.0, x, 0.0), e) && near(difference(1.0, -x, 0.0), -e));
    }
}

/// Document 01's exp is not monotone: of the next number up it is one unit lower.
#[test]
fn exp_falls() {
    let x = f64::from_bits(0xBFAF_DECC_AD1C_C760);
    assert_eq!(x.next_up().to_bits(), 0xBFAF_DECC_AD1C_C75F);
    assert_eq!(standins::exp(x).to_bits(), 0x3FEE_119F_11F8_8672);
    assert_eq!(standins::exp(x.next_up()).to_bits(), 0x3FEE_119F_11F8_8671);
}

#[test]
fn evaluation() {
    let zero = EmlTree::const_val(0.0);
    let none = EvalCtx::new(&[], &Settings::default());
    let one = EmlTree::eml(&zero, &EmlTree::one());
    assert_eq!(one.eval_real(&none), Ok(1.0));
    let complex = EmlTree::eml(&zero, &EmlTree::const_val(-1.0));
    let pi = f64::from_bits(PI);
    assert_eq!(complex.eval_real(&none), Err(EmlError::ComplexResult(pi)));

    let not = EmlConstraint::Not(Box::new(EmlConstraint::EqZero(complex)));
    let answer = solve(&not, &[], 10_000).unwrap();
    assert!(answer.is_exact && answer.assignments.is_empty());
    let normal = solve(&not.to_nnf(), &[], 10_000);
    assert_eq!(
        normal.err(),
        Some(EmlError::ConvergenceFailed {
            best_mse: f64::INFINITY,
            iterations: 0
        })
    );
}

#[test]
fn halving() {
    let body = Box::new(EmlConstraint::EqZero(EmlTree::one()));
    let (var, lo, hi) = (0, 0.0, 1.0);
    let all = EmlConstraint::ForAll { var, lo, hi, body };
    assert_eq!(
        solve(&all, &[(0.0, 8.0)], 1).err(),
        Some(EmlError::ConvergenceFailed {
            best_mse: 1.0,
            iterations: 1
        })
    );
    let exact = |limit: usize| solve(&gt(), &[(2.0, 2.0)], limit).unwrap().is_exact;
    assert!(!exact(0));
    assert!(exact(1));
}

/// An empty sum is +0.
#[test]
fn residual_of_nothing() {
    let settings = Settings::default();
    let and = evaluate_constraint_residual(&EmlConstraint::And(vec![]), &[], &settings);
    assert_eq!(and.to_bits(), 0);
    let or = evaluate_constraint_residual(&EmlConstraint::Or(vec![]), &[], &settings);
    assert_eq!(or, f64::INFINITY);
}

/// The example of the printing program.
#[test]
fn file_of_88_bytes() {
    let parts = Parts {
        nodes: vec![Node::Var(0)],
        constraints: vec![Record::new(kind::GT_ZERO, 0)],
        bounds: vec![(1.0, 3.0)],
    };
    let file = parts.to_file();
    assert_eq!(file.len(), 88);
    let problem = read_file(&file).unwrap();
    let answer = solve(&problem.constraint, &problem.bounds, 10_000).unwrap();
    assert!(!answer.is_exact);
    assert_eq!(answer.assignments, [2.0]);
}

/// Document 02 [9]: a stretch found only because exp was clamped. exp(v0) - ln(exp(v1)) is above zero at v0 = 6.565 and v1 = 800, where exp(800)
/// counts as exp(709). In strict mode that point is an error, and after one halving v1 is 700, at which no exp is clamped.
#[test]
fn a_clamped_stretch() {
    let parts = Parts {
        nodes: vec![
            Node::Var(0),
            Node::Var(1),
            Node::One,
            Node::Eml(1, 2),
            Node::Eml(0, 3),
        ],
        constraints: vec![Record::new(kind::GT_ZERO, 4)],
        bounds: vec![(6.5, 6.63), (600.0, 1000.0)],
    };
    let file = include_bytes!("../../examples/clamped.emlq");
    assert_eq!(parts.to_file(), file);
    let problem = read_file(file).unwrap();
    let usual = Settings::default();
    let strict = usual.with_strict(true);
    let found = |settings: &Settings, halvings: usize, point: [f64; 2]| {
        let Problem {
            constraint, bounds, ..
        } = &problem;
        let answer = counted::solve(constraint, bounds, 10_000, 1e-8, settings);
        assert_eq!(answer.stop, Stop::Assignment);
        assert_eq!((answer.exact, answer.halvings), (false, halvings));
        assert_eq!(hex(&answer.point), hex(&point));
    };
    let middle = (6.5 + 6.63) / 2.0;
    let (clamped, good) = ([middle, 800.0], [middle, 700.0]);
    found(&usual, 0, clamped);
    found(&strict, 1, good);

    // exp(v0) - v1, were no exp clamped; the second exp's argument is beyond the clamp at the first point only.
    let value = |settings: &Settings, point: &[f64]| {
        let ctx = EvalCtx::new(point, settings);
        problem.trees[4].eval_real(&ctx)
    };
    let exp = standins::exp(middle);
    assert!(exp - 709.0 > 0.0 && exp - 800.0 < 0.0);
    assert_eq!(value(&usual, &clamped), value(&usual, &[middle, 709.0]));
    assert_eq!(value(&strict, &clamped), Err(EmlError::ExpOverflow(800.0)));
    assert!(!check_constraint(
        &problem.constraint,
        &EvalCtx::new(&clamped, &strict)
    ));
    assert_eq!(value(&strict, &good), value(&usual, &good));
    assert!(value(&strict, &good).is_ok_and(|v| (9.8..9.9).contains(&v)));
}

/// The nodes that document 01 says are appended have the meaning of the Rust's trees.
#[test]
fn canonical() {
    let nodes = [
        Node::Var(3),      // x
        Node::Const(-2.5), // y
        Node::One,
        Node::One,
        Node::Eml(3, 0), // inner
        Node::Eml(4, 3), // middle
        Node::Eml(3, 5), // outer
        Node::Eml(1, 2), // exp_y
        Node::Eml(6, 7), // result
    ];
    let parts = Parts {
        nodes: nodes.to_vec(),
        ..Parts::default()
    };
    let trees = read_nodes(&parts.to_bodies().nodes).unwrap();
    assert_eq!(trees[6], Canonical::ln(&trees[0]));
    let sub = Canonical::sub(&trees[0], &trees[1]);
    assert_eq!(trees[8], sub);
    let (x, y) = (trees[0].clone(), trees[1].clone());
    let EmlConstraint::LeZero(tree) = EmlConstraint::le(x, y) else {
        panic!("le is LeZero");
    };
    assert_eq!(tree, sub);
}
