//! Settings: their layout and ranges, where their refusal comes among the others, and that every call that receives them answers by
//! them.

use eml::calls::{self, DecidePlaces, EvalPlaces, SolvePlaces};
use eml::number::{next_down, next_up};
use eml::{
    Constraint, Decision, DecisionError, Evaluation, Interval, Node, Problem, Propagation, Records,
    Refusal, Relation, Settings, Stop, ge, gt, le, lt, maths, solve_file, solve_file_with,
};
use std::fmt::Debug;
use std::mem::offset_of;

const TWO_BARS: &[u8] = include_bytes!("../../../examples/two_bars.emlq");
const CLAMPED: &[u8] = include_bytes!("../../../examples/clamped.emlq");

/// Document 01's numbers.
const USUAL: Numbers = (20, 1e-8, 1e-12, 709.0);

type Numbers = (usize, f64, f64, f64);

/// Settings that are not tested; not strict.
fn untested((rounds, equality, slack, clamp): Numbers) -> Settings {
    let mut settings = Settings::default();
    settings.rounds = rounds;
    settings.equality = equality;
    settings.slack = slack;
    settings.clamp = clamp;
    settings
}

/// The same, in strict mode.
fn strict(numbers: Numbers) -> Settings {
    let mut settings = untested(numbers);
    settings.strict = true;
    settings
}

/// With either value of the flag.
fn either(numbers: Numbers) -> [Settings; 2] {
    [untested(numbers), strict(numbers)]
}

/// Numbers at the edges of their ranges.
fn taken() -> Vec<Numbers> {
    let (rounds, equality, slack, clamp) = USUAL;
    let least = f64::from_bits(1);
    vec![
        USUAL,
        (1, equality, slack, clamp),
        (100, equality, slack, clamp),
        (rounds, f64::MAX, slack, clamp),
        (rounds, f64::MAX, next_down(f64::MAX), clamp),
        (rounds, next_up(least), least, clamp),
        (rounds, equality, least, clamp),
        (rounds, equality, next_down(equality), clamp),
        (rounds, equality, slack, 1.0),
        (rounds, equality, slack, next_up(1.0)),
        (rounds, equality, slack, next_down(709.0)),
    ]
}

/// Numbers of which one is past an edge of its range, or a NaN.
fn refused() -> Vec<Numbers> {
    let (rounds, equality, slack, clamp) = USUAL;
    let least = f64::from_bits(1);
    let mut list = Vec::new();
    for rounds in [0, 101, usize::MAX] {
        list.push((rounds, equality, slack, clamp));
    }
    for equality in [slack, 0.0, -equality, f64::INFINITY, f64::NAN, -f64::NAN] {
        list.push((rounds, equality, slack, clamp));
    }
    for slack in [0.0, -0.0, -least, -slack, f64::NEG_INFINITY, f64::NAN] {
        list.push((rounds, equality, slack, clamp));
    }
    for slack in [equality, next_up(equality), f64::INFINITY] {
        list.push((rounds, equality, slack, clamp));
    }
    list.push((rounds, f64::INFINITY, f64::MAX, clamp));
    for clamp in [next_down(1.0), 0.0, -1.0, -clamp, next_up(clamp)] {
        list.push((rounds, equality, slack, clamp));
    }
    for clamp in [f64::INFINITY, f64::NEG_INFINITY, f64::NAN] {
        list.push((rounds, equality, slack, clamp));
    }
    list
}

/// The record as C has it where a `size_t` has 8 bytes; bindings/c/calls.c has the same numbers.
#[test]
fn layout() {
    assert_eq!((size_of::<Settings>(), align_of::<Settings>()), (40, 8));
    assert_eq!(offset_of!(Settings, rounds), 0);
    assert_eq!(offset_of!(Settings, equality), 8);
    assert_eq!(offset_of!(Settings, slack), 16);
    assert_eq!(offset_of!(Settings, clamp), 24);
    assert_eq!(offset_of!(Settings, strict), 32);
}

#[test]
fn ranges() {
    assert_eq!(Settings::default(), untested(USUAL));
    assert_eq!(Settings::default(), calls::usual_settings());
    assert!(!calls::usual_settings().strict);
    for numbers in taken() {
        let (rounds, equality, slack, clamp) = numbers;
        let made = Settings::new(rounds, equality, slack, clamp);
        assert_eq!(made, Ok(untested(numbers)));
        assert_eq!(either(numbers).map(|s| s.test()), [Ok(()); 2]);
    }
    for numbers in refused() {
        let (rounds, equality, slack, clamp) = numbers;
        let made = Settings::new(rounds, equality, slack, clamp);
        assert_eq!(made, Err(Refusal::Parameter), "{numbers:?}");
        let parameter = Err(Refusal::Parameter);
        assert_eq!(either(numbers).map(|s| s.test()), [parameter; 2]);
    }
}

/// Node 0 is variable 0, node 2 is exp of it.
fn nodes() -> Vec<u8> {
    let nodes = [Node::Var(0), Node::One, Node::Eml { left: 0, right: 1 }];
    nodes.map(Node::to_bytes).concat()
}

/// A relation of a node.
fn atom(relation: Relation, node: u32) -> [u8; 24] {
    Constraint::Atom { relation, node }.to_bytes()
}

/// A call's answer. A refusal leaves the places as they were.
fn answer<T: Debug>(
    mut places: T,
    call: impl FnOnce(&mut T) -> Result<(), Refusal>,
) -> Result<(), Refusal> {
    let before = format!("{places:?}");
    let answer = call(&mut places);
    assert!(answer.is_ok() || format!("{places:?}") == before);
    answer
}

/// What each call that receives settings answers: on a file and records that are damaged or not, and with a fault in what else
/// it is given or without.
fn answers(damaged: bool, settings: Settings, fault: bool) -> [Result<(), Refusal>; 9] {
    let (nodes, constraints) = (nodes(), atom(Relation::GeZero, 0));
    let records = Records {
        nodes: &nodes[usize::from(damaged)..],
        constraints: &constraints,
    };
    let file = &TWO_BARS[usize::from(damaged)..];
    let values = [0.5; 17];
    let point = if fault { &values[..] } else { &values[..1] };
    let (lo, hi) = if fault { (2.0, 1.0) } else { (-1.0, 1.0) };
    let (range, limit) = (Interval { lo, hi }, if fault { 1_000_001 } else { 10 });
    let evaluated = EvalPlaces {
        kind: 0xAA,
        value: 9.0,
        index: 9,
        count: 9,
    };
    let solved = |point| SolvePlaces {
        stop: 0xAA,
        exact: true,
        residual: 9.0,
        halvings: 9,
        count: 9,
        point,
    };
    let decided = |point| DecidePlaces {
        verdict: 0xAA,
        count: 9,
        point,
    };
    [
        answer(evaluated, |to| {
            calls::eval_real(records.nodes, 2, point, settings, to)
        }),
        answer(true, |to| calls::check(records, point, settings, to)),
        answer(9.0, |to| calls::residual(records, point, settings, to)),
        answer(([lo], [hi], 0xAA), |(lo, hi, to)| {
            calls::propagate(records, settings, lo, hi, to)
        }),
        answer(([range], 0xAA), |(boxes, to)| {
            calls::propagate_intervals(records, settings, boxes, to)
        }),
        answer(solved(&mut [9.0; 3]), |to| {
            calls::solve_file(file, limit, 1e-8, settings, to)
        }),
        answer(solved(&mut [9.0]), |to| {
            calls::solve(records, &[lo], &[hi], limit, 1e-8, settings, to)
        }),
        answer(decided(&mut [9.0]), |to| {
            calls::decide_forall(records, 0, range, 1, settings, to)
        }),
        answer(decided(&mut [9.0]), |to| {
            calls::decide_exists(records, 0, range, 1, settings, to)
        }),
    ]
}

/// First the file or the records, then the settings, then what else a call is given.
#[test]
fn the_order_of_refusals() {
    let mut damaged = [Err(Refusal::Layout); 9];
    damaged[5] = Err(Refusal::Header);
    let (limit, boxes) = (Err(Refusal::LimitOrTolerance), Err(Refusal::Boxes));
    let faults = [
        boxes, boxes, boxes, boxes, boxes, limit, limit, boxes, boxes,
    ];
    for settings in taken().into_iter().flat_map(either) {
        assert_eq!(answers(true, settings, true), damaged);
        assert_eq!(answers(false, settings, true), faults);
        assert_eq!(answers(false, settings, false), [Ok(()); 9]);
    }
    for settings in refused().into_iter().flat_map(either) {
        assert_eq!(answers(true, settings, true), damaged);
        for fault in [false, true] {
            let parameter = Err(Refusal::Parameter);
            assert_eq!(answers(false, settings, fault), [parameter; 9]);
        }
    }
}

/// Where the package tests more than the calls do.
#[test]
fn the_order_of_refusals_of_methods() {
    let (nodes, constraints) = (nodes(), atom(Relation::GeZero, 0));
    let sound = Records {
        nodes: &nodes,
        constraints: &constraints,
    };
    let damaged = Records {
        nodes: &nodes[1..],
        ..sound
    };
    let refused = untested((0, 1e-8, 1e-12, 709.0));
    let reversed = Interval::new(2.0, 1.0);
    let at_node = |node| sound.eval_real_with(node, &[0.5; 17], refused);
    assert_eq!(at_node(3), Err(Refusal::Node));
    assert_eq!(at_node(2), Err(Refusal::Parameter));
    for (records, refusal) in [(damaged, Refusal::Layout), (sound, Refusal::Parameter)] {
        let found = records.check_midpoint_with(&[reversed], refused);
        assert_eq!(found, Err(refusal));
        let decided = Err(DecisionError::Refused(refusal));
        assert_eq!(records.decide_forall_with(1, reversed, refused), decided);
        assert_eq!(records.decide_exists_with(1, reversed, refused), decided);
    }
    let solved = |length: usize| solve_file_with(&TWO_BARS[..length], 0, f64::NAN, refused);
    assert_eq!(solved(31), Err(Refusal::Header));
    assert_eq!(solved(TWO_BARS.len() - 1), Err(Refusal::Layout));
    assert_eq!(solved(TWO_BARS.len()), Err(Refusal::Parameter));
    let problem = Problem::from_bytes(TWO_BARS).expect("taken");
    let solved = problem.solve_with(0, f64::NAN, refused);
    assert_eq!(solved, Err(Refusal::Parameter));
}

/// Each method under document 01's numbers is its twin under the default, and under others it answers otherwise.
#[test]
fn the_twins() {
    let usual = Settings::default();
    // An end is moved by more than 0.75 only, and a value of at least -0.75 passes.
    let loose = untested((20, 1.0, 0.75, 709.0));
    let clamped = untested((20, 1e-8, 1e-12, 2.0));
    let (nodes, least) = (nodes(), atom(Relation::GeZero, 0));
    let records = Records {
        nodes: &nodes,
        constraints: &least,
    };

    let evaluated = records.eval_real(2, &[3.0]).expect("taken");
    assert_eq!(records.eval_real_with(2, &[3.0], usual), Ok(evaluated));
    assert_eq!(evaluated, Evaluation::Value(maths::exp(3.0)));
    let evaluated = Evaluation::Value(maths::exp(2.0));
    assert_eq!(records.eval_real_with(2, &[3.0], clamped), Ok(evaluated));

    let below = Records {
        constraints: &atom(Relation::LtZero, 2),
        ..records
    };
    assert_eq!(below.residual(&[3.0]), Ok(maths::exp(3.0)));
    assert_eq!(below.residual_with(&[3.0], usual), Ok(maths::exp(3.0)));
    assert_eq!(below.residual_with(&[3.0], clamped), Ok(maths::exp(2.0)));

    assert_eq!(records.check(&[-0.5]), Ok(false));
    assert_eq!(records.check_with(&[-0.5], usual), Ok(false));
    assert_eq!(records.check_with(&[-0.5], loose), Ok(true));

    let bounds = [Interval::new(-0.5, 0.25)];
    assert_eq!(records.check_midpoint(&bounds), Ok(None));
    assert_eq!(records.check_midpoint_with(&bounds, usual), Ok(None));
    let middle = records.check_midpoint_with(&bounds, loose).expect("taken");
    assert_eq!(middle.as_deref(), Some(&[-0.125][..]));

    let solved = records.solve(&bounds, 10, 1e-8).expect("taken");
    assert_eq!(records.solve_with(&bounds, 10, 1e-8, usual), Ok(solved));
    assert_eq!(solved.assignment(), Some(&[0.125][..]));
    let solved = records.solve_with(&bounds, 10, 1e-8, loose);
    assert_eq!(solved.expect("taken").assignment(), Some(&[-0.125][..]));

    let wide = Interval::new(-0.5, 2.0);
    let decided = records.decide_forall(0, wide).expect("taken");
    assert_eq!(records.decide_forall_with(0, wide, usual), Ok(decided));
    assert!(matches!(decided, Decision::FalseWithCounterexample(_)));
    let decided = records.decide_forall_with(0, wide, loose);
    assert_eq!(decided, Ok(Decision::Unknown));

    let low = Interval::new(-1.0, -0.5);
    let decided = records.decide_exists(0, low).expect("taken");
    assert_eq!(records.decide_exists_with(0, low, usual), Ok(decided));
    assert_eq!(decided, Decision::Unknown);
    let decided = records.decide_exists_with(0, low, loose);
    assert!(matches!(decided, Ok(Decision::TrueWithWitness(point)) if *point == [-0.75]));

    let problem = Problem::from_bytes(TWO_BARS).expect("taken");
    let solved = problem.solve(10_000, 1e-8).expect("taken");
    assert_eq!((solved.stop, solved.halvings), (Stop::Assignment, 49));
    assert_eq!(problem.solve_with(10_000, 1e-8, usual), Ok(solved));
    assert_eq!(solve_file(TWO_BARS, 10_000, 1e-8), Ok(solved));
    assert_eq!(solve_file_with(TWO_BARS, 10_000, 1e-8, usual), Ok(solved));
    let thousandth = untested((20, 0.001, 1e-12, 709.0));
    let solved = problem.solve_with(10_000, 1e-8, thousandth).expect("taken");
    assert_eq!((solved.stop, solved.halvings), (Stop::Assignment, 14));
    let on_file = solve_file_with(TWO_BARS, 10_000, 1e-8, thousandth);
    assert_eq!(on_file, Ok(solved));
}

/// exp(v0) = ln(v1), and v0 is at least 0: what the second tells of v1 comes with the next round.
#[test]
fn rounds() {
    let nodes = [Node::Var(0), Node::Var(1), Node::Eml { left: 0, right: 1 }];
    let nodes = nodes.map(Node::to_bytes).concat();
    let (equal, least) = (atom(Relation::EqZero, 2), atom(Relation::GeZero, 0));
    let constraints = [equal, least, Constraint::And(2).to_bytes()].concat();
    let records = Records {
        nodes: &nodes,
        constraints: &constraints,
    };
    // The boxes after a call, which moved an end, also as two lists of ends.
    let narrowed = |call: &dyn Fn(&mut [Interval]) -> _,
                    on_ends: &dyn Fn(&mut [_], &mut [_]) -> _| {
        let mut boxes = [Interval::new(-1.0, 1.0), Interval::new(1.0, 16.0)];
        let (mut lo, mut hi) = (boxes.map(|i| i.lo), boxes.map(|i| i.hi));
        assert_eq!(call(&mut boxes), Ok(Propagation::Changed));
        assert_eq!(on_ends(&mut lo, &mut hi), Ok(Propagation::Changed));
        assert_eq!((lo, hi), (boxes.map(|i| i.lo), boxes.map(|i| i.hi)));
        boxes
    };
    let under = |settings| {
        narrowed(
            &|boxes| records.propagate_with(boxes, settings),
            &|lo, hi| records.propagate_ends_with(lo, hi, settings),
        )
    };
    let usual = narrowed(&|boxes| records.propagate(boxes), &|lo, hi| {
        records.propagate_ends(lo, hi)
    });
    assert_eq!(under(Settings::default()), usual);
    assert!((usual[1].lo - std::f64::consts::E).abs() < 1e-14);
    let once = under(untested((1, 1e-8, 1e-12, 709.0)));
    assert_eq!(once[0], usual[0]);
    assert!((once[1].lo - maths::exp(maths::exp(-1.0))).abs() < 1e-14);
}

/// exp(v0) under clamps: beyond the clamp, infinities too, it is an error with v0 in strict mode, and clamped else.
#[test]
fn strict_evaluations() {
    let nodes = nodes();
    let records = Records {
        nodes: &nodes,
        constraints: &[],
    };
    let at = |x, settings| records.eval_real_with(2, &[x], settings).expect("taken");
    for clamp in [1.0, next_up(1.0), 2.5, next_down(709.0), 709.0] {
        let numbers = (20, 1e-8, 1e-12, clamp);
        let exp = |x| Evaluation::Value(maths::exp(x));
        for x in [0.0, 1.0, next_down(clamp), clamp] {
            for x in [x, -x] {
                assert_eq!(either(numbers).map(|s| at(x, s)), [exp(x); 2]);
            }
        }
        for x in [next_up(clamp), 2.0 * clamp, f64::MAX, f64::INFINITY] {
            for (x, end) in [(x, clamp), (-x, -clamp)] {
                let expected = [exp(end), Evaluation::ExpOverflow(x)];
                assert_eq!(either(numbers).map(|s| at(x, s)), expected);
            }
        }
        let nan = [Evaluation::NanEncountered; 2];
        assert_eq!(either(numbers).map(|s| at(f64::NAN, s)), nan);
    }
}

/// The error takes its place in postorder, after those of the two values that the node is made of, and at one node it goes before a NaN.
#[test]
fn strict_in_postorder() {
    let nodes = [
        Node::Var(0),
        Node::Var(1),
        Node::Var(2),
        Node::One,
        Node::Eml { left: 0, right: 1 },
        Node::Eml { left: 2, right: 3 },
        Node::Eml { left: 4, right: 5 },
    ];
    let nodes = nodes.map(Node::to_bytes).concat();
    let records = Records {
        nodes: &nodes,
        constraints: &[],
    };
    let at = |node, point: &[f64]| {
        let answer = records.eval_real_with(node, point, strict(USUAL));
        answer.expect("taken")
    };
    let (index, count) = (1, 1);
    let missing = Evaluation::VarOutOfBounds { index, count };
    let nan = f64::NAN;
    assert_eq!(at(4, &[800.0]), missing);
    assert_eq!(at(4, &[800.0, nan]), Evaluation::ExpOverflow(800.0));
    assert_eq!(at(4, &[nan, nan]), Evaluation::NanEncountered);
    assert_eq!(at(4, &[0.0, nan]), Evaluation::NanEncountered);
    assert_eq!(at(6, &[800.0, 1.0, 900.0]), Evaluation::ExpOverflow(800.0));
    assert_eq!(at(6, &[0.0, 1.0, -900.0]), Evaluation::ExpOverflow(-900.0));
    assert_eq!(at(6, &[nan, 1.0, 900.0]), Evaluation::NanEncountered);
    assert_eq!(at(6, &[0.0, nan, 900.0]), Evaluation::NanEncountered);
    // A value that is beyond the clamp, of which exp is taken.
    assert_eq!(
        at(6, &[0.0, 0.0, 0.0]),
        Evaluation::ExpOverflow(f64::INFINITY)
    );
    assert_eq!(
        at(6, &[0.0, f64::INFINITY, 0.0]),
        Evaluation::ExpOverflow(f64::NEG_INFINITY)
    );
    assert_eq!(
        at(6, &[7.0, 1.0, 0.0]),
        Evaluation::ExpOverflow(maths::exp(7.0))
    );
    // The real part of a value that is not real.
    assert_eq!(
        at(6, &[7.0, -1.0, 0.0]),
        Evaluation::ExpOverflow(maths::exp(7.0))
    );
}

/// exp(v0) > ln(exp(v1)), v0 in [6.5,6.63], v1 in [600,1000]: what each method answers without the flag, and with it.
#[test]
fn strict_calls() {
    let settings = either(USUAL);
    let problem = Problem::from_bytes(CLAMPED).expect("taken");
    let (records, bounds) = (problem.records(), problem.bounds());
    let v1 = |solution: Result<eml::Solution, Refusal>| {
        let solution = solution.expect("taken");
        assert_eq!(solution.stop, Stop::Assignment);
        (solution.halvings, solution.point[1])
    };
    let expected = [(0, 800.0), (1, 700.0)];
    let solved = settings.map(|s| v1(problem.solve_with(10_000, 1e-8, s)));
    assert_eq!(solved, expected);
    let solved = settings.map(|s| v1(solve_file_with(CLAMPED, 10_000, 1e-8, s)));
    assert_eq!(solved, expected);
    let solved = settings.map(|s| v1(records.solve_with(&bounds, 10_000, 1e-8, s)));
    assert_eq!(solved, expected);

    let point = [6.565, 800.0];
    let checked = settings.map(|s| records.check_with(&point, s));
    assert_eq!(checked, [Ok(true), Ok(false)]);
    let middle = settings.map(|s| records.check_midpoint_with(&bounds, s).expect("taken"));
    assert_eq!(middle.map(|found| found.is_some()), [true, false]);
    let residuals = settings.map(|s| records.residual_with(&point, s));
    assert_eq!(residuals, [Ok(0.0), Ok(f64::INFINITY)]);

    // Decisions about v1, with v0 at 0.
    let far = Interval::new(-900.0, -800.0);
    let decided = settings.map(|s| records.decide_forall_with(1, far, s).expect("taken"));
    assert_eq!(decided[0], Decision::Unknown);
    assert!(matches!(decided[1], Decision::FalseWithCounterexample(p) if *p == [0.0, -900.0]));
    let decided = settings.map(|s| records.decide_exists_with(1, far, s).expect("taken"));
    assert!(matches!(decided[0], Decision::TrueWithWitness(p) if *p == [0.0, -850.0]));
    assert_eq!(decided[1], Decision::Unknown);

    // Narrowing takes exp of intervals, which is not clamped, and answers the same.
    for (v1, answer) in [
        (Interval::new(600.0, 700.0), Propagation::Changed),
        (Interval::new(600.0, 1000.0), Propagation::Stable),
    ] {
        let boxes = settings.map(|s| {
            let mut boxes = [Interval::new(6.0, 6.5), v1];
            assert_eq!(records.propagate_with(&mut boxes, s), Ok(answer));
            let (mut lo, mut hi) = ([6.0, v1.lo], [6.5, v1.hi]);
            let on_ends = records.propagate_ends_with(&mut lo, &mut hi, s);
            assert_eq!(on_ends, Ok(answer));
            assert_eq!((lo, hi), (boxes.map(|i| i.lo), boxes.map(|i| i.hi)));
            boxes
        });
        assert_eq!(boxes[0], boxes[1]);
    }
}

/// The same problem with other bounds of v1, in strict mode. Where both middles overflow, the upper half is kept; where no argument of exp
/// is beyond the clamp, the middle passes at once.
#[test]
fn strict_halving() {
    let problem = Problem::from_bytes(CLAMPED).expect("taken");
    let solve = |most| {
        let bounds = [Interval::new(6.5, 6.63), Interval::new(600.0, most)];
        let solution = problem
            .records()
            .solve_with(&bounds, 10_000, 1e-8, strict(USUAL));
        solution.expect("taken")
    };
    let lost = solve(1100.0);
    assert_eq!((lost.stop, lost.residual), (Stop::Tolerance, f64::INFINITY));
    let within = solve(709.0);
    assert_eq!((within.stop, within.halvings), (Stop::Assignment, 0));
}

/// exp(v0) at 800, in strict mode: no relation of it passes, and a Not of one does. Its residual is +inf, of NeZero 0.
#[test]
fn strict_atoms() {
    let nodes = nodes();
    for number in 0..6 {
        let relation = Relation::try_from(number).expect("a relation");
        let constraints = [atom(relation, 2), Constraint::Not.to_bytes()].concat();
        let records = |length| Records {
            nodes: &nodes,
            constraints: &constraints[..length],
        };
        let (own, not) = (records(24), records(48));
        let settings = strict(USUAL);
        assert_eq!(own.check_with(&[800.0], settings), Ok(false));
        assert_eq!(not.check_with(&[800.0], settings), Ok(true));
        let none = relation == Relation::NeZero;
        let residual = if none { 0.0 } else { f64::INFINITY };
        assert_eq!(own.residual_with(&[800.0], settings), Ok(residual));
        let residual = if none { 1.0 } else { 0.0 };
        assert_eq!(not.residual_with(&[800.0], settings), Ok(residual));
    }
}

/// x - y in strict mode is an error where y is beyond the clamp c, or the magnitude of x outside exp(e - c) to exp(c). Then no comparison
/// passes.
#[test]
fn strict_comparisons() {
    let mut nodes = [Node::Var(0), Node::Var(1)].map(Node::to_bytes).concat();
    nodes.resize(16 * 9, 0);
    let atoms = [lt, le, gt, ge].map(|compare| compare(&mut nodes, 2, 0, 1).expect("room"));
    let difference = |clamp, x, y| {
        let settings = strict((20, 1e-8, 1e-12, clamp));
        let passes = atoms.each_ref().map(|constraints| {
            let (nodes, point) = (&nodes, &[x, y]);
            let records = Records { nodes, constraints };
            records.check_with(point, settings).expect("taken")
        });
        let constraints = &[];
        let records = Records {
            nodes: &nodes,
            constraints,
        };
        let value = records.eval_real_with(8, &[x, y], settings);
        let value = value.expect("taken");
        assert_eq!(value.value().is_some(), passes.contains(&true));
        value
    };
    let beyond = |clamp, x| matches!(difference(clamp, x, 0.5), Evaluation::ExpOverflow(_));

    assert_eq!(
        difference(709.0, 800.0, 900.0),
        Evaluation::ExpOverflow(900.0)
    );
    assert_eq!(
        difference(709.0, 800.0, -900.0),
        Evaluation::ExpOverflow(-900.0)
    );
    assert_eq!(
        difference(709.0, 0.0, 0.0),
        Evaluation::ExpOverflow(f64::INFINITY)
    );
    assert!(difference(709.0, 800.0, 709.0).value().is_some());
    for (clamp, least, most) in [
        (
            709.0,
            1.843_941_458_532_942_8e-307,
            8.218_407_461_555_439e307,
        ),
        (5.0, 0.102_108_615_793_329_39, 148.413_159_102_576_66),
    ] {
        assert!(!beyond(clamp, least) && beyond(clamp, next_down(least)));
        assert!(!beyond(clamp, -least) && beyond(clamp, next_up(-least)));
        assert!(!beyond(clamp, most) && beyond(clamp, next_up(most)));
        assert!(beyond(clamp, -next_up(most)));
    }
    for x in [1e-300, 0.001, 1.0, 2.7, 3.9, 1000.0, 1e300] {
        assert!(beyond(1.35, x) && beyond(1.35, -x));
    }
}
