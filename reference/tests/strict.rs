//! Request [9] of document 02: each call that receives the record, in strict mode and with the flag off on the same input, against the
//! reference with the same record, under document 01's numbers and under others; and what a strict assignment's constraint was met by.
//!
//! Where the reference's answer with the flag off is another one, the flag alone decides it: a port that took no notice of the flag would
//! differ.

use eml::Stop;
use reference::case::{Case, Decision, EXISTS, FORALL, Limited, MOST, TOLERANCES, taken_apart};
use reference::compare::{same, say, text};
use reference::counted::Answer;
use reference::eval::EvalCtx;
use reference::generate::{self, Shape, Temper};
use reference::house::{Node, kind};
use reference::port::Evaluated;
use reference::settings::Settings;
use reference::smt::constraint::EmlConstraint;
use reference::smt::helpers::check_constraint;
use reference::smt::interval::{Interval, PropResult, eval_interval};
use reference::splitmix::SplitMix64;
use reference::standins::{Complex64, next_down, next_up};
use reference::tree::{EmlNode, EmlTree};
use std::fmt::Debug;

/// Document 01's numbers or others, with the flag off.
fn numbers(rng: &mut SplitMix64) -> Settings {
    if rng.one_in(2) {
        Settings::default()
    } else {
        generate::settings(rng)
    }
}

/// Mostly with exponents about the clamp.
fn case(rng: &mut SplitMix64, settings: &Settings) -> Case {
    let clamp = settings.clamp;
    let shape = match rng.below(100) {
        0 => Shape::medium(rng),
        1..=10 => Shape::narrowing(rng),
        11..=20 => Shape::small(rng),
        21..=40 => {
            return Case::new(
                generate::clamped_problem(rng, clamp),
                2,
                Temper::Beyond(clamp),
            );
        }
        _ => Shape::beyond(rng, clamp),
    };
    Case::drawn(rng, &shape)
}

/// Mostly of exponents about the clamp.
fn point(rng: &mut SplitMix64, variables: usize, settings: &Settings) -> Vec<f64> {
    if rng.one_in(4) {
        generate::point_about(rng, variables)
    } else {
        generate::exponents_about(rng, variables, settings.clamp)
    }
}

/// How many answers the flag alone decides, under document 01's numbers and under others.
#[derive(Default)]
struct Told {
    inputs: [u64; 2],
    by_flag: [u64; 2],
}

impl Told {
    /// What `compare` answers in strict mode and with the flag off.
    fn ask<T: Debug>(&mut self, settings: &Settings, compare: impl Fn(&Settings) -> T) -> [T; 2] {
        let answers = [true, false].map(|strict| compare(&settings.with_strict(strict)));
        let other = usize::from(*settings != Settings::default());
        self.inputs[other] += 1;
        self.by_flag[other] += u64::from(text(&answers[0]) != text(&answers[1]));
        answers
    }

    fn done(self, name: &str, least: u64) {
        let Self { inputs, by_flag } = self;
        say(&format!(
            "{name}: {} inputs compared in strict mode and with the flag off, all equal; under document 01's numbers and others {inputs:?}, of which the flag alone decides {by_flag:?}",
            inputs[0] + inputs[1]
        ));
        assert!(by_flag.iter().all(|&n| n >= least), "{name}");
    }
}

/// Which child of a node.
#[derive(Clone, Copy, PartialEq)]
enum Turn {
    Left,
    Right,
}

/// A node whose left real part is beyond the clamp.
struct Beyond {
    /// From the root to the node.
    turns: Vec<Turn>,
    left: Complex64,
    right: Complex64,
    /// Whether the node's result has a NaN, exp being clamped.
    nan: bool,
}

/// What an evaluation meets that no error ends, in postorder.
enum Met {
    OutOfBounds(usize),
    /// A result with a NaN, and whether the left real part is one, at a node that is not beyond the clamp.
    Nan(bool),
    Beyond(Beyond),
    /// A left real part beyond the clamp, no error before it, and then one in the right child.
    BeyondBesideAnError,
    /// A left real part that is the clamp itself, or its negative, which is told.
    AtTheClamp(bool),
}

fn is_error(met: &Met) -> bool {
    matches!(met, Met::OutOfBounds(_) | Met::Nan(_) | Met::Beyond(_))
}

/// A recursive evaluation that goes on after an error: what depends on it has no value, and the rest of the tree is evaluated too.
struct Walk<'a> {
    point: &'a [f64],
    clamp: f64,
    turns: Vec<Turn>,
    met: Vec<Met>,
}

impl Walk<'_> {
    fn child(&mut self, turn: Turn, node: &EmlNode) -> Option<Complex64> {
        self.turns.push(turn);
        let value = self.node(node);
        self.turns.pop();
        value
    }

    fn node(&mut self, node: &EmlNode) -> Option<Complex64> {
        let (left, right) = match node {
            EmlNode::One => return Some(Complex64::new(1.0, 0.0)),
            EmlNode::Const(v) => return Some(Complex64::new(*v, 0.0)),
            EmlNode::Var(i) => {
                let value = self.point.get(*i);
                if value.is_none() {
                    self.met.push(Met::OutOfBounds(*i));
                }
                return value.map(|&x| Complex64::new(x, 0.0));
            }
            EmlNode::Eml { left, right } => (left, right),
        };
        let left = self.child(Turn::Left, left);
        let clean = !self.met.iter().any(is_error);
        let right = self.child(Turn::Right, right);
        let left = left?;
        let beyond = left.re.abs() > self.clamp;
        let Some(right) = right else {
            if beyond && clean {
                self.met.push(Met::BeyondBesideAnError);
            }
            return None;
        };
        if left.re.abs() == self.clamp {
            self.met.push(Met::AtTheClamp(left.re < 0.0));
        }
        let clamped = left.re.clamp(-self.clamp, self.clamp);
        let result = Complex64::new(clamped, left.im).exp() - right.ln();
        let nan = result.re.is_nan() || result.im.is_nan();
        if beyond {
            let turns = self.turns.clone();
            self.met.push(Met::Beyond(Beyond {
                turns,
                left,
                right,
                nan,
            }));
        } else if nan {
            self.met.push(Met::Nan(left.re.is_nan()));
        }
        (!nan).then_some(result)
    }
}

/// What a tree's value is: a number, or the error at the end.
fn at_the_end(value: Complex64) -> Evaluated {
    if value.im.abs() < 1e-12 {
        if value.re.is_nan() {
            Evaluated::NanEncountered
        } else {
            Evaluated::Value(value.re)
        }
    } else {
        Evaluated::ComplexResult(value.im.abs())
    }
}

/// How many places `places` tells.
const PLACES: usize = 25;

/// Evaluates recursively, which must give the strict answer too, and tells where a left real part is beyond the clamp, and how.
fn places(
    tree: &EmlTree,
    point: &[f64],
    settings: &Settings,
    [strict, off]: &[Evaluated; 2],
) -> [(&'static str, bool); PLACES] {
    let clamp = settings.clamp;
    let mut walk = Walk {
        point,
        clamp,
        turns: Vec::new(),
        met: Vec::new(),
    };
    let value = walk.node(&tree.root);
    let met = walk.met;
    let first = met.iter().find(|met| is_error(met));
    let answer = match first {
        None => at_the_end(value.expect("no error")),
        Some(Met::OutOfBounds(i)) => Evaluated::VarOutOfBounds(*i, point.len()),
        Some(Met::Beyond(b)) => Evaluated::ExpOverflow(b.left.re),
        Some(_) => Evaluated::NanEncountered,
    };
    assert_eq!(text(&answer), text(strict), "{tree:?} {point:?} {clamp}");

    // Of an answer ExpOverflow.
    let is = |test: &dyn Fn(&Beyond) -> bool| match first {
        Some(Met::Beyond(b)) => test(b),
        _ => false,
    };
    let any = |test: fn(&Met) -> bool| met.iter().any(test);
    let beyond = met.iter().filter(|m| matches!(m, Met::Beyond(_))).count();
    let out_of_bounds = matches!(first, Some(Met::OutOfBounds(_)));
    let nan = matches!(first, Some(Met::Nan(_)));
    use Turn::{Left, Right};
    let below = |b: &Beyond, turn| b.turns.len() > 1 && b.turns[0] == turn;
    [
        ("at the root", is(&|b| b.turns.is_empty())),
        ("at its left child", is(&|b| b.turns == [Left])),
        ("at its right child", is(&|b| b.turns == [Right])),
        ("deeper in the left", is(&|b| below(b, Left))),
        ("deeper in the right", is(&|b| below(b, Right))),
        (
            "before a VarOutOfBounds",
            is(&|_| any(|m| matches!(m, Met::OutOfBounds(_)))),
        ),
        (
            "before a NaN at a later node",
            is(&|_| any(|m| matches!(m, Met::Nan(_)))),
        ),
        ("before another node beyond the clamp", is(&|_| beyond > 1)),
        ("after a VarOutOfBounds", out_of_bounds && beyond > 0),
        ("after a NaN", nan && beyond > 0),
        (
            "beside an error in its own right child",
            any(|m| matches!(m, Met::BeyondBesideAnError)),
        ),
        (
            "at a right value that is a NaN",
            is(&|b| b.right.re.is_nan()),
        ),
        (
            "at a result that is a NaN, of another right value",
            is(&|b| b.nan && !b.right.re.is_nan()),
        ),
        ("with an imaginary part", is(&|b| b.left.im != 0.0)),
        (
            "where the flag off answers ComplexResult",
            is(&|_| matches!(off, Evaluated::ComplexResult(_))),
        ),
        ("below zero", is(&|b| b.left.re < 0.0)),
        ("+inf", is(&|b| b.left.re == f64::INFINITY)),
        ("-inf", is(&|b| b.left.re == f64::NEG_INFINITY)),
        ("next above the clamp", is(&|b| b.left.re == next_up(clamp))),
        (
            "next below its negative",
            is(&|b| b.left.re == next_down(-clamp)),
        ),
        ("twice the clamp", is(&|b| b.left.re == 2.0 * clamp)),
        ("twice its negative", is(&|b| b.left.re == -2.0 * clamp)),
        (
            "the clamp itself, and no error",
            first.is_none() && any(|m| matches!(m, Met::AtTheClamp(false))),
        ),
        (
            "its negative itself, and no error",
            first.is_none() && any(|m| matches!(m, Met::AtTheClamp(true))),
        ),
        (
            "a left NaN, which is NanEncountered",
            matches!(first, Some(Met::Nan(true))),
        ),
    ]
}

#[test]
fn evaluations() {
    let mut rng = SplitMix64::new(301);
    let (mut told, mut kinds) = (Told::default(), [0_u64; 5]);
    // Under document 01's clamp and under others.
    let mut counts = [("", [0_u64; 2]); PLACES];
    for _ in 0..100_000 {
        let settings = numbers(&mut rng);
        // Mostly a node that has children.
        let (c, k) = loop {
            let c = case(&mut rng, &settings);
            let leaf = rng.one_in(10);
            match c.any_node(&mut rng) {
                Some(k) if leaf || matches!(c.parts.nodes[k], Node::Eml(..)) => break (c, k),
                _ => {}
            }
        };
        let point = point(&mut rng, c.variables, &settings);
        let answers = told.ask(&settings, |s| c.compare_eval_real(k, &point, s));
        kinds[match answers[0] {
            Evaluated::Value(_) => 0,
            Evaluated::VarOutOfBounds(..) => 1,
            Evaluated::NanEncountered => 2,
            Evaluated::ComplexResult(_) => 3,
            Evaluated::ExpOverflow(_) => 4,
        }] += 1;
        let other = usize::from(settings.clamp != Settings::default().clamp);
        let places = places(&c.problem.trees[k], &point, &settings, &answers);
        for (count, (name, holds)) in counts.iter_mut().zip(places) {
            count.0 = name;
            count.1[other] += u64::from(holds);
        }
    }
    say(&format!(
        "strict eval_real: value, out of bounds, NaN, complex, overflow {kinds:?}; beyond the clamp, under 709 and others:"
    ));
    for (name, count) in counts {
        say(&format!("    {name} {count:?}"));
        assert!(count.iter().all(|&n| n >= 20), "{name}");
    }
    told.done("eval_real", 1_000);
    assert!(kinds.iter().all(|&n| n >= 1_000));
}

#[test]
fn points() {
    let mut rng = SplitMix64::new(302);
    let [mut checked, mut measured] = [(); 2].map(|()| Told::default());
    // In strict mode and with the flag off.
    let mut passed = [0_u64; 2];
    for _ in 0..100_000 {
        let settings = numbers(&mut rng);
        let c = case(&mut rng, &settings);
        let point = point(&mut rng, c.variables, &settings);
        let answers = checked.ask(&settings, |s| c.compare_check(&point, s));
        for (count, passes) in passed.iter_mut().zip(answers) {
            *count += u64::from(passes);
        }
        measured.ask(&settings, |s| c.compare_residual(&point, s));
    }
    let failed = passed.map(|n| checked.inputs[0] + checked.inputs[1] - n);
    say(&format!(
        "check: {passed:?} passed, {failed:?} did not, strict and not"
    ));
    assert!(passed.iter().chain(&failed).all(|&n| n >= 10_000));
    checked.done("check", 1_000);
    measured.done("residual", 1_000);
}

#[test]
fn solving() {
    let mut rng = SplitMix64::new(303);
    let (mut told, mut stops) = (Told::default(), [0_u64; 5]);
    // By the stop word, strict, then not.
    let mut turned = [[0_u64; 5]; 5];
    for _ in 0..50_000 {
        let settings = numbers(&mut rng);
        let c = case(&mut rng, &settings);
        let limit = rng.pick(&[0, 1, 2, 5, 40]);
        let tolerance = rng.pick(&TOLERANCES);
        let [strict, off] = told.ask(&settings, |s| c.compare_solve(limit, tolerance, s));
        stops[strict.stop as usize] += 1;
        turned[strict.stop as usize][off.stop as usize] += u64::from(text(&strict) != text(&off));
    }
    say(&format!(
        "strict solve: assignment, conflict, tolerance, limit, unsatisfied {stops:?}; others by the flag alone, with each stop word of it off {turned:?}"
    ));
    told.done("solve", 1_000);
    assert!(stops.iter().all(|&n| n >= 500));
    let others = turned.map(|row| row.iter().sum::<u64>());
    assert!(others.iter().all(|&n| n >= 100), "{others:?}");
}

/// Whether narrowing takes exp of an end beyond the clamp, at a node of a tree.
fn beyond_in(node: &EmlNode, vars: &[Interval], clamp: f64) -> bool {
    let EmlNode::Eml { left, right } = node else {
        return false;
    };
    let ends = eval_interval(left, vars).filter(|i| i.lo < -clamp || i.hi > clamp);
    ends.is_some() || beyond_in(left, vars, clamp) || beyond_in(right, vars, clamp)
}

/// Narrowing takes no notice of the flag, also where its exp, of intervals, is of an end beyond the clamp.
#[test]
fn narrowing() {
    let mut rng = SplitMix64::new(304);
    let (mut told, mut answers, mut beyond) = (Told::default(), [0_u64; 3], 0_u64);
    for _ in 0..20_000 {
        let settings = numbers(&mut rng);
        let c = case(&mut rng, &settings);
        let boxes = generate::boxes_about(&mut rng, &c.parts.bounds, c.temper);
        let [strict, _] = told.ask(&settings, |s| c.compare_propagate(&boxes, s));
        answers[strict.0 as usize] += 1;
        let vars: Vec<_> = boxes
            .iter()
            .map(|&(lo, hi)| Interval::new(lo, hi))
            .collect();
        let atoms = c
            .parts
            .constraints
            .iter()
            .filter(|r| r.kind <= kind::NE_ZERO);
        let mut trees = atoms.map(|r| &c.problem.trees[r.argument as usize]);
        beyond += u64::from(trees.any(|t| beyond_in(&t.root, &vars, settings.clamp)));
    }
    let named = [
        PropResult::Changed,
        PropResult::Stable,
        PropResult::Conflict,
    ];
    say(&format!(
        "strict propagate: {named:?} {answers:?}; in {beyond} inputs an atom has an exp of an end beyond the clamp"
    ));
    assert!(answers.iter().all(|&n| n >= 1_000) && beyond >= 5_000);
    // Else the reference itself would take notice of the flag.
    assert_eq!(told.by_flag, [0; 2]);
    told.done("propagate", 0);
}

#[test]
fn decisions() {
    let mut rng = SplitMix64::new(305);
    // Which verdicts the decision gives.
    let asked: [(&str, Decision, [bool; 4]); 2] = [
        ("decide_forall", FORALL, [true, false, true, true]),
        ("decide_exists", EXISTS, [false, true, false, true]),
    ];
    for (name, decision, gives) in asked {
        let (mut told, mut verdicts) = (Told::default(), [0_u64; 4]);
        for _ in 0..20_000 {
            let settings = numbers(&mut rng);
            let c = case(&mut rng, &settings);
            let question = c.question(&mut rng);
            let [strict, _] = told.ask(&settings, |s| c.compare_decide(decision, &question, s));
            verdicts[taken_apart(&strict).0] += 1;
        }
        say(&format!(
            "strict {name}: true, witness, counterexample, unknown {verdicts:?}"
        ));
        for (count, given) in verdicts.into_iter().zip(gives) {
            assert!(if given { count >= 500 } else { count == 0 });
        }
        told.done(name, 300);
    }
}

/// In strict mode too a limit alters no answer but "limit".
#[test]
fn limits() {
    let mut rng = SplitMix64::new(307);
    let (mut seen, mut by_flag) = (Limited::default(), 0_u64);
    while seen.problems < 1_000 {
        let settings = numbers(&mut rng);
        let c = case(&mut rng, &settings);
        let tolerance = rng.pick(&TOLERANCES);
        let strict = settings.with_strict(true);
        // Of those that stop at once there are enough among the others.
        if c.port(1, tolerance, &strict).stop != Stop::Limit && !rng.one_in(20) {
            continue;
        }
        let last = c.compare_limits(tolerance, &strict, &mut seen);
        let off = c.port(MOST, tolerance, &settings);
        by_flag += u64::from(text(&last) != text(&off));
    }
    seen.say("in strict mode");
    say(&format!(
        "limits in strict mode: in {by_flag} problems the flag alone decides the last answer"
    ));
    assert!(seen.cut >= 500 && seen.assigned >= 100 && by_flag >= 100);
    assert!(seen.stops[..4].iter().all(|&n| n >= 20));
}

/// A tree's value where exp is not clamped at all, and whether a node's left real part is beyond the clamp.
fn unclamped(tree: &EmlTree, point: &[f64], clamp: f64) -> (Option<f64>, bool) {
    fn value(node: &EmlNode, point: &[f64], clamp: f64, beyond: &mut bool) -> Option<Complex64> {
        match node {
            EmlNode::One => Some(Complex64::new(1.0, 0.0)),
            EmlNode::Const(v) => Some(Complex64::new(*v, 0.0)),
            EmlNode::Var(i) => point.get(*i).map(|&x| Complex64::new(x, 0.0)),
            EmlNode::Eml { left, right } => {
                let left = value(left, point, clamp, beyond)?;
                *beyond |= left.re > clamp || left.re < -clamp;
                let right = value(right, point, clamp, beyond)?;
                let result = left.exp() - right.ln();
                let nan = result.re.is_nan() || result.im.is_nan();
                (!nan).then_some(result)
            }
        }
    }
    let mut beyond = false;
    let value = value(&tree.root, point, clamp, &mut beyond);
    let real = value.filter(|v| v.im.abs() < 1e-12 && !v.re.is_nan());
    (real.map(|v| v.re), beyond)
}

/// What a constraint has that is met without clamping.
#[derive(Default)]
struct Noted {
    /// An atom with an exp.
    exp: bool,
    /// An Or with another part that passes only where exp is clamped,
    or_clamped: bool,
    /// and one with another part that does not pass.
    or_failed: bool,
}

/// Whether a positive, quantifier-free constraint is met without clamping: of an And all parts are, of an Or at least one, and an atom is where
/// it passes by a value for which no left real part is beyond the clamp. None for any other constraint.
fn met(
    constraint: &EmlConstraint,
    point: &[f64],
    settings: &Settings,
    noted: &mut Noted,
) -> Option<bool> {
    let Settings {
        equality,
        slack,
        clamp,
        ..
    } = *settings;
    let (tree, passes): (_, &dyn Fn(f64) -> bool) = match constraint {
        EmlConstraint::EqZero(tree) => (tree, &|v| v.abs() < equality),
        EmlConstraint::GtZero(tree) => (tree, &|v| v > 0.0),
        EmlConstraint::GeZero(tree) => (tree, &|v| v >= -slack),
        EmlConstraint::LtZero(tree) => (tree, &|v| v < 0.0),
        EmlConstraint::LeZero(tree) => (tree, &|v| v <= slack),
        EmlConstraint::NeZero(tree) => (tree, &|v| v.abs() > slack),
        EmlConstraint::And(list) => {
            let list: Option<Vec<bool>> = list
                .iter()
                .map(|c| met(c, point, settings, noted))
                .collect();
            return Some(list?.into_iter().all(|met| met));
        }
        EmlConstraint::Or(list) => {
            let each: Option<Vec<bool>> = list
                .iter()
                .map(|c| met(c, point, settings, noted))
                .collect();
            let each = each?;
            let any = each.contains(&true);
            let off = EvalCtx::new(point, &settings.with_strict(false));
            for (c, met) in list.iter().zip(each) {
                if any && !met {
                    let clamped = check_constraint(c, &off);
                    noted.or_clamped |= clamped;
                    noted.or_failed |= !clamped;
                }
            }
            return Some(any);
        }
        EmlConstraint::Not(_) | EmlConstraint::ForAll { .. } | EmlConstraint::Exists { .. } => {
            return None;
        }
    };
    let (value, beyond) = unclamped(tree, point, clamp);
    if beyond {
        return Some(false);
    }
    if let Some(v) = value {
        for strict in [true, false] {
            let ctx = EvalCtx::new(point, &settings.with_strict(strict));
            let theirs = tree.eval_real(&ctx).expect("a value");
            assert!(same(theirs, v), "{tree:?} {point:?}: {theirs} {v}");
        }
    }
    let met = value.is_some_and(passes);
    noted.exp |= met && matches!(*tree.root, EmlNode::Eml { .. });
    Some(met)
}

fn is_met(c: &Case, answer: &Answer, settings: &Settings, noted: &mut Noted) -> Option<bool> {
    met(&c.problem.constraint, &answer.point, settings, noted)
}

/// "In strict mode an assignment's positive, quantifier-free constraint was met without clamping in the atoms that made it true."
#[test]
fn assignments() {
    let mut rng = SplitMix64::new(306);
    let (mut strict_ones, mut halved, mut or_clamped, mut or_failed) = (0_u64, 0_u64, 0_u64, 0_u64);
    let (mut others, mut other_assignments, mut clamped) = (0_u64, 0_u64, 0_u64);
    while strict_ones < 10_000 {
        let settings = numbers(&mut rng);
        let c = case(&mut rng, &settings);
        let limit = rng.pick(&[0, 1, 2, 5, 40]);
        let [strict, off] =
            [true, false].map(|strict| c.compare_solve(limit, 1e-8, &settings.with_strict(strict)));
        if strict.stop != Stop::Assignment {
            continue;
        }
        let mut noted = Noted::default();
        let Some(met) = is_met(&c, &strict, &settings, &mut noted) else {
            continue;
        };
        assert!(met, "{:?} {settings:?} {strict:?}", c.parts);
        // Of the others no exp was asked.
        if !noted.exp {
            continue;
        }
        strict_ones += 1;
        halved += u64::from(strict.halvings > 0);
        or_clamped += u64::from(noted.or_clamped);
        or_failed += u64::from(noted.or_failed);
        if text(&strict) != text(&off) {
            others += 1;
            if off.stop == Stop::Assignment {
                other_assignments += 1;
                let met = is_met(&c, &off, &settings, &mut Noted::default());
                clamped += u64::from(met == Some(false));
            }
        }
    }
    say(&format!(
        "strict assignments: {strict_ones} of positive, quantifier-free constraints, all met without clamping in atoms with an exp; {halved} after halvings; an Or with a part that is met only where exp is clamped {or_clamped}, with one that fails {or_failed}; {others} are others with the flag off, of which {other_assignments} are assignments, and {clamped} of these are met only where exp is clamped"
    ));
    assert!(halved >= 300 && or_clamped >= 300 && or_failed >= 300 && clamped >= 200);
}
