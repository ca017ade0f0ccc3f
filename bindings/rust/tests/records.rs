//! Document 01's examples on variable 0, and the refusals of the caller, through the safe calls.

use eml::{
    Constraint, Decision, DecisionError, Evaluation, Interval, Node, Propagation, Records, Refusal,
    Relation, Stop, canonical, ge, gt, le, lt,
};

/// Variable 0.
fn variable() -> [u8; 16] {
    Node::Var(0).to_bytes()
}

/// A relation of node 0.
const fn atom(relation: Relation) -> Constraint {
    Constraint::Atom { relation, node: 0 }
}

const EQ_ZERO: Constraint = atom(Relation::EqZero);
const GT_ZERO: Constraint = atom(Relation::GtZero);

fn constraints(list: &[Constraint]) -> Vec<u8> {
    list.iter().flat_map(|c| c.to_bytes()).collect()
}

/// What propagation answers and leaves, on a list of intervals and on two lists of ends.
fn narrowed(list: &[Constraint], lo: f64, hi: f64) -> (Propagation, Interval) {
    let records = Records {
        nodes: &variable(),
        constraints: &constraints(list),
    };
    let mut boxes = [Interval::new(lo, hi)];
    let answer = records.propagate(&mut boxes).expect("taken");
    let (mut low, mut high) = ([lo], [hi]);
    let on_ends = records.propagate_ends(&mut low, &mut high);
    assert_eq!(on_ends, Ok(answer));
    assert_eq!(Interval::new(low[0], high[0]), boxes[0]);
    (answer, boxes[0])
}

#[test]
fn narrowing() {
    use Propagation::{Changed, Conflict, Stable};
    assert_eq!(narrowed(&[GT_ZERO], -3.0, -1.0).0, Conflict);
    let point = Interval::point(0.0);
    assert_eq!(narrowed(&[EQ_ZERO], -1.0, 2.0), (Changed, point));
    let both = [EQ_ZERO, GT_ZERO, Constraint::And(2)];
    assert_eq!(narrowed(&both, -1.0, 2.0), (Conflict, point));
    let either = [EQ_ZERO, GT_ZERO, Constraint::Or(2)];
    let right = Interval::new(0.0, 2.0);
    assert_eq!(narrowed(&either, -1.0, 2.0), (Changed, right));
    let above = Interval::new(f64::from_bits(1), 1.0);
    assert_eq!(
        narrowed(&[atom(Relation::NeZero)], 0.0, 1.0),
        (Changed, above)
    );
    assert_eq!(narrowed(&[Constraint::And(0)], 0.0, 1.0).0, Stable);
    assert_eq!(narrowed(&[Constraint::Or(0)], 0.0, 1.0).0, Conflict);
}

#[test]
fn evaluation() {
    let nodes = [
        Node::Const(0.0),
        Node::One,
        Node::Eml { left: 0, right: 1 },
        Node::Const(-1.0),
        Node::Eml { left: 0, right: 3 },
    ];
    let nodes = nodes.map(Node::to_bytes).concat();
    let records = Records {
        nodes: &nodes,
        constraints: &[],
    };
    let angle = f64::from_bits(0x4009_21FB_5444_2D18);
    assert_eq!(records.eval_real(2, &[]), Ok(Evaluation::Value(1.0)));
    let complex = Evaluation::ComplexResult(angle);
    assert_eq!(records.eval_real(4, &[]), Ok(complex));
    assert_eq!(records.eval_real(5, &[]), Err(Refusal::Node));
    let records = Records {
        nodes: &variable(),
        constraints: &[],
    };
    let beyond = Evaluation::VarOutOfBounds { index: 0, count: 0 };
    assert_eq!(records.eval_real(0, &[]), Ok(beyond));
    let nan = Evaluation::NanEncountered;
    assert_eq!(records.eval_real(0, &[f64::NAN]), Ok(nan));
    assert_eq!(records.eval_real(0, &[0.0; 17]), Err(Refusal::Boxes));
}

#[test]
fn exactness_and_limits_of_a_caller() {
    let constraints = constraints(&[GT_ZERO]);
    let records = Records {
        nodes: &variable(),
        constraints: &constraints,
    };
    let two = [Interval::point(2.0)];
    let exact = |limit| records.solve(&two, limit, 1e-8).expect("taken").exact;
    assert_eq!((exact(0), exact(1)), (false, true));
    let refused = Err(Refusal::LimitOrTolerance);
    assert!(records.solve(&two, 1_000_000, 1e-8).is_ok());
    assert_eq!(records.solve(&two, 1_000_001, 1e-8), refused);
    // A surplus bound is unused; a seventeenth is refused, and so are any more.
    for (count, taken) in [(16, true), (17, false), (18, false), (100, false)] {
        let mut boxes = vec![Interval::point(2.0); count];
        let stop = records.solve(&boxes, 1, 1e-8).map(|s| s.stop);
        let answer = records.propagate(&mut boxes);
        if taken {
            assert_eq!(
                (stop, answer),
                (Ok(Stop::Assignment), Ok(Propagation::Stable))
            );
        } else {
            let (a, b) = (Err(Refusal::Boxes), Err(Refusal::Boxes));
            assert_eq!((stop, answer), (a, b));
        }
    }
    let reversed = [Interval::new(3.0, 1.0)];
    assert_eq!(records.solve(&reversed, 1, 1e-8), Err(Refusal::Boxes));
    // The records are tested before what the caller gives with them.
    let damaged = Records {
        nodes: &variable()[..15],
        constraints: &constraints,
    };
    assert_eq!(damaged.test(), Err(Refusal::Layout));
    assert_eq!(damaged.solve(&reversed, 1, 1e-8), Err(Refusal::Layout));
}

#[test]
fn decisions() {
    let constraints = constraints(&[GT_ZERO]);
    let records = Records {
        nodes: &variable(),
        constraints: &constraints,
    };
    let all = Interval::new(-1.0, 1.0);
    let Ok(Decision::FalseWithCounterexample(point)) = records.decide_forall(0, all) else {
        panic!("-1 is not above 0");
    };
    assert_eq!(*point, [-1.0]);
    let Ok(Decision::TrueWithWitness(point)) = records.decide_exists(0, all) else {
        panic!("1 is above 0");
    };
    assert_eq!(*point, [1.0]);
    let absent = DecisionError::NoSuchVariable {
        var: 1,
        num_vars: 1,
    };
    assert_eq!(records.decide_exists(1, all), Err(absent));
    assert_eq!(absent.to_string(), "no variable 1: the constraint has 1");
    assert!(records.decide_forall(usize::MAX, all).is_err());
    let refused = Err(DecisionError::Refused(Refusal::Boxes));
    let reversed = Interval::new(1.0, -1.0);
    assert_eq!(records.decide_forall(0, reversed), refused);
}

#[test]
fn normal_form() {
    // Not of GtZero is LeZero.
    let constraints = constraints(&[GT_ZERO, Constraint::Not]);
    let records = Records {
        nodes: &variable(),
        constraints: &constraints,
    };
    let mut out = [0xAA; 30];
    assert_eq!(records.to_nnf(&mut out), Ok(1));
    assert_eq!(out[..24], atom(Relation::LeZero).to_bytes());
    assert_eq!(out[24..], [0xAA; 6]);
    let mut short = [0xAA; 23];
    assert_eq!(records.to_nnf(&mut short), Err(Refusal::TooShort));
    assert_eq!(short, [0xAA; 23]);
}

#[test]
fn building() {
    // Variable 0 and One, with free places for ln x and x - 1.
    let mut nodes = [0; 16 * 13];
    nodes[..16].copy_from_slice(&variable());
    assert_eq!(canonical::ln(&mut nodes, 2, 0), Ok(5));
    assert_eq!(canonical::sub(&mut nodes, 6, 5, 1), Ok(12));
    let records = Records {
        nodes: &nodes,
        constraints: &[],
    };
    let Ok(Evaluation::Value(x)) = records.eval_real(12, &[std::f64::consts::E]) else {
        panic!("ln e - 1 is real");
    };
    assert!(x.abs() < 1e-12);
    assert_eq!(canonical::ln(&mut nodes, 13, 0), Err(Refusal::TooShort));
    assert_eq!(canonical::sub(&mut nodes, 2, 0, 2), Err(Refusal::Node));
    for (call, relation) in [
        (
            gt as fn(&mut [u8], usize, usize, usize) -> _,
            Relation::GtZero,
        ),
        (ge, Relation::GeZero),
        (lt, Relation::LtZero),
        (le, Relation::LeZero),
    ] {
        let record: eml::Record = call(&mut nodes, 2, 0, 1).expect("taken");
        assert_eq!(record, Constraint::Atom { relation, node: 8 }.to_bytes());
    }
}

/// Each number, once, with its words.
#[test]
fn refusals() {
    let all = [
        Refusal::Header,
        Refusal::Layout,
        Refusal::Node,
        Refusal::Extent,
        Refusal::Constraint,
        Refusal::Range,
        Refusal::Nesting,
        Refusal::LimitOrTolerance,
        Refusal::Boxes,
        Refusal::TooShort,
        Refusal::Parameter,
    ];
    for (refusal, number) in all.into_iter().zip((1..=10).chain([14])) {
        assert_eq!(refusal.number(), number);
        let line = format!("refused {number}: {}", refusal.text());
        assert_eq!(refusal.to_string(), line);
    }
}
