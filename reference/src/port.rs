//! The calls of the proved port, with what the comparison adds to the bindings: refusals as numbers, answers as the Rust has
//! them, and that a refusal leaves every lent place as it was.

use crate::compare::hex;
use crate::counted::Answer;
use crate::error::EmlError;
use crate::house::Bodies;
use crate::settings::Settings;
use crate::smt::helpers::QuantResult;
use crate::smt::interval::PropResult;
use eml::calls::{self, DecidePlaces, EvalPlaces, SolvePlaces};
use eml::{Interval, Records, Stop};

/// A refusal: its number.
pub type Refusal = u8;

/// The number of a call's refusal, or 0.
pub fn number<T>(answer: Result<T, eml::Refusal>) -> Refusal {
    answer.err().map_or(0, eml::Refusal::number)
}

fn refused_unless_zero<T>(number: Refusal, value: T) -> Result<T, Refusal> {
    if number == 0 { Ok(value) } else { Err(number) }
}

/// What an output holds before a call; a refusal must leave it.
const UNTOUCHED: u64 = 0x5A5A_5A5A_5A5A_5A5A;

/// Whether a record of numbers is taken.
pub fn test_settings(settings: &Settings) -> Result<(), Refusal> {
    refused_unless_zero(number(calls::test_settings(settings.to_port())), ())
}

/// The number of variables of a file's constraint.
pub fn num_vars(file: &[u8]) -> Result<u64, Refusal> {
    let mut out = UNTOUCHED;
    let number = number(calls::num_vars(file, &mut out));
    assert!(number == 0 || out == UNTOUCHED);
    refused_unless_zero(number, out)
}

/// The number of variables of a constraint given by records.
pub fn num_vars_records(nodes: &[u8], constraints: &[u8]) -> Result<u64, Refusal> {
    let mut out = UNTOUCHED;
    let records = Records { nodes, constraints };
    let number = number(calls::num_vars_records(records, &mut out));
    assert!(number == 0 || out == UNTOUCHED);
    refused_unless_zero(number, out)
}

/// The boxes that a run starts from, in as many places as `room` says for their lower and upper ends. Places past them, and all
/// of a refusal, must stay.
pub fn domain_new(
    lo: &[f64],
    hi: &[f64],
    num_vars: usize,
    room: (usize, usize),
) -> Result<Vec<(f64, f64)>, Refusal> {
    let places = |room| vec![f64::from_bits(UNTOUCHED); room];
    let (mut out_lo, mut out_hi) = (places(room.0), places(room.1));
    let call = calls::domain_new(lo, hi, num_vars, &mut out_lo, &mut out_hi);
    let number = number(call);
    let written = if number == 0 { num_vars } else { 0 };
    let after = out_lo[written..].iter().chain(&out_hi[written..]);
    assert!(after.into_iter().all(|x| x.to_bits() == UNTOUCHED));
    let boxes = out_lo.into_iter().zip(out_hi).take(written);
    refused_unless_zero(number, boxes.collect())
}

/// Whether any interval is empty.
pub fn domain_is_empty(lo: &[f64], hi: &[f64]) -> Result<bool, Refusal> {
    let answers = [false, true].map(|before| {
        let mut out = before;
        let number = number(calls::domain_is_empty(lo, hi, &mut out));
        assert!(number == 0 || out == before);
        refused_unless_zero(number, out)
    });
    assert_eq!(answers[0], answers[1]);
    answers[0]
}

/// A node's value at a point, or the error.
#[derive(Clone, Copy, Debug)]
pub enum Evaluated {
    Value(f64),
    VarOutOfBounds(usize, usize),
    NanEncountered,
    ComplexResult(f64),
    ExpOverflow(f64),
}

impl From<Result<f64, EmlError>> for Evaluated {
    fn from(theirs: Result<f64, EmlError>) -> Self {
        match theirs {
            Ok(x) => Self::Value(x),
            Err(EmlError::VarOutOfBounds(index, count)) => Self::VarOutOfBounds(index, count),
            Err(EmlError::NanEncountered) => Self::NanEncountered,
            Err(EmlError::ComplexResult(im)) => Self::ComplexResult(im),
            Err(EmlError::ExpOverflow(re)) => Self::ExpOverflow(re),
            Err(other @ EmlError::ConvergenceFailed { .. }) => panic!("{other:?} of an evaluation"),
        }
    }
}

pub fn eval_real(
    nodes: &[u8],
    node: usize,
    point: &[f64],
    settings: &Settings,
) -> Result<Evaluated, Refusal> {
    let untouched = EvalPlaces {
        kind: 255,
        value: f64::from_bits(UNTOUCHED),
        index: usize::MAX,
        count: usize::MAX,
    };
    let mut to = untouched;
    let settings = settings.to_port();
    let number = number(calls::eval_real(nodes, node, point, settings, &mut to));
    if number != 0 {
        assert_eq!(to, untouched);
        return Err(number);
    }
    // A place that the answer has nothing for stays.
    assert!([0, 3, 4].contains(&to.kind) || to.value == untouched.value);
    assert!(to.kind == 1 || (to.index, to.count) == (untouched.index, untouched.count));
    Ok(match to.kind {
        0 => Evaluated::Value(to.value),
        1 => Evaluated::VarOutOfBounds(to.index, to.count),
        2 => Evaluated::NanEncountered,
        3 => Evaluated::ComplexResult(to.value),
        4 => Evaluated::ExpOverflow(to.value),
        other => panic!("kind {other}"),
    })
}

/// Whether a point passes the check.
pub fn check(
    nodes: &[u8],
    constraints: &[u8],
    point: &[f64],
    settings: &Settings,
) -> Result<bool, Refusal> {
    let answers = [false, true].map(|before| {
        let mut passes = before;
        let number = number(calls::check(
            Records { nodes, constraints },
            point,
            settings.to_port(),
            &mut passes,
        ));
        assert!(number == 0 || passes == before);
        refused_unless_zero(number, passes)
    });
    assert_eq!(answers[0], answers[1]);
    answers[0]
}

/// A point's residual.
pub fn residual(
    nodes: &[u8],
    constraints: &[u8],
    point: &[f64],
    settings: &Settings,
) -> Result<f64, Refusal> {
    let mut out = -1.0;
    let number = number(calls::residual(
        Records { nodes, constraints },
        point,
        settings.to_port(),
        &mut out,
    ));
    assert_eq!(number == 0, out != -1.0);
    refused_unless_zero(number, out)
}

/// The lower and the upper ends of boxes.
pub fn ends(boxes: &[(f64, f64)]) -> (Vec<f64>, Vec<f64>) {
    boxes.iter().copied().unzip()
}

/// The bits of a list of intervals.
pub fn bits(boxes: &[Interval]) -> Vec<String> {
    boxes.iter().map(|b| hex(&[b.lo, b.hi])).collect()
}

/// Narrows boxes, given by their lower and upper ends.
pub fn propagate(
    nodes: &[u8],
    constraints: &[u8],
    settings: &Settings,
    lo: &mut [f64],
    hi: &mut [f64],
) -> Result<PropResult, Refusal> {
    let mut answer = 255;
    let number = number(calls::propagate(
        Records { nodes, constraints },
        settings.to_port(),
        lo,
        hi,
        &mut answer,
    ));
    propagated(number, answer)
}

/// Narrows the caller's own list of intervals.
pub fn propagate_intervals(
    nodes: &[u8],
    constraints: &[u8],
    settings: &Settings,
    boxes: &mut [Interval],
) -> Result<PropResult, Refusal> {
    let mut answer = 255;
    let number = number(calls::propagate_intervals(
        Records { nodes, constraints },
        settings.to_port(),
        boxes,
        &mut answer,
    ));
    propagated(number, answer)
}

/// What a propagation returned and wrote to the place of its answer, which had 255.
fn propagated(number: Refusal, answer: u8) -> Result<PropResult, Refusal> {
    assert_eq!(number == 0, answer != 255);
    let result = match answer {
        0 => PropResult::Changed,
        1 => PropResult::Stable,
        _ => PropResult::Conflict,
    };
    refused_unless_zero(number, result)
}

/// A call of the solver with room for a point of `room` values, and in every place what no answer has.
fn solved(
    room: usize,
    call: impl FnOnce(&mut SolvePlaces) -> Result<(), eml::Refusal>,
) -> Result<Answer, Refusal> {
    let mut point = vec![f64::from_bits(UNTOUCHED); room];
    let mut to = SolvePlaces {
        stop: 255,
        exact: true,
        residual: -1.0,
        halvings: usize::MAX,
        count: usize::MAX,
        point: &mut point,
    };
    let number = number(call(&mut to));
    let values = if number == 0 { to.count } else { 0 };
    let after = &to.point[values..];
    assert!(after.iter().all(|x| x.to_bits() == UNTOUCHED));
    if number != 0 {
        assert!(to.stop == 255 && to.exact && to.residual == -1.0);
        assert!(to.halvings == usize::MAX && to.count == usize::MAX);
        return Err(number);
    }
    let stops = [
        Stop::Assignment,
        Stop::Conflict,
        Stop::Tolerance,
        Stop::Limit,
        Stop::Unsatisfied,
    ];
    let point = to.point[..values].to_vec();
    // So that equal text is equal bits.
    assert!(!to.residual.is_nan() && point.iter().all(|x| !x.is_nan()));
    Ok(Answer {
        stop: stops[to.stop as usize],
        point,
        exact: to.exact,
        residual: to.residual,
        halvings: to.halvings,
    })
}

/// Solves a file. `room` is how many values of a point there are places for.
pub fn solve_file(
    file: &[u8],
    limit: usize,
    tolerance: f64,
    settings: &Settings,
    room: usize,
) -> Result<Answer, Refusal> {
    let settings = settings.to_port();
    solved(room, |to| {
        calls::solve_file(file, limit, tolerance, settings, to)
    })
}

/// Solves records with bounds, given by their lower and upper ends.
pub fn solve(
    nodes: &[u8],
    constraints: &[u8],
    (lo, hi): (&[f64], &[f64]),
    limit: usize,
    tolerance: f64,
    settings: &Settings,
    room: usize,
) -> Result<Answer, Refusal> {
    let records = Records { nodes, constraints };
    let settings = settings.to_port();
    solved(room, |to| {
        calls::solve(records, lo, hi, limit, tolerance, settings, to)
    })
}

/// Solves a problem that is accepted, of a file and of records, with room for every point.
pub fn solve_both(
    bodies: &Bodies,
    bounds: &[(f64, f64)],
    limit: usize,
    tolerance: f64,
    settings: &Settings,
) -> [Answer; 2] {
    let of_file = solve_file(&bodies.to_file(), limit, tolerance, settings, 16);
    let (lo, hi) = ends(bounds);
    let (nodes, constraints) = (&bodies.nodes, &bodies.constraints);
    let of_records = solve(
        nodes,
        constraints,
        (&lo, &hi),
        limit,
        tolerance,
        settings,
        16,
    );
    [of_file, of_records].map(|answer| answer.expect("accepted"))
}

/// Writes the records of the normal form; their number.
pub fn to_nnf(nodes: &[u8], constraints: &[u8], out: &mut [u8]) -> Result<usize, Refusal> {
    let mut written = usize::MAX;
    let number = number(calls::to_nnf(
        Records { nodes, constraints },
        out,
        &mut written,
    ));
    assert_eq!(number == 0, written != usize::MAX);
    refused_unless_zero(number, written)
}

/// Either decision.
pub type Decide = fn(
    &[u8],
    &[u8],
    usize,
    (f64, f64),
    usize,
    &Settings,
    &mut [f64],
) -> Result<QuantResult, Refusal>;

/// A decision. Its point is what the call wrote to the first places of `point`.
macro_rules! decision {
    ($name:ident) => {
        pub fn $name(
            nodes: &[u8],
            constraints: &[u8],
            var: usize,
            (lo, hi): (f64, f64),
            num_vars: usize,
            settings: &Settings,
            point: &mut [f64],
        ) -> Result<QuantResult, Refusal> {
            let (verdict, count) = (255, usize::MAX);
            let mut to = DecidePlaces {
                verdict,
                count,
                point,
            };
            let range = Interval::new(lo, hi);
            let number = number(calls::$name(
                Records { nodes, constraints },
                var,
                range,
                num_vars,
                settings.to_port(),
                &mut to,
            ));
            if number != 0 {
                assert_eq!((to.verdict, to.count), (verdict, count));
                return Err(number);
            }
            let values = to.point[..to.count].to_vec();
            assert!(values.is_empty() || [1, 2].contains(&to.verdict));
            Ok(match to.verdict {
                0 => QuantResult::True,
                1 => QuantResult::TrueWithWitness(values),
                2 => QuantResult::FalseWithCounterexample {
                    counterexample: values,
                },
                3 => QuantResult::Unknown,
                other => panic!("verdict {other}"),
            })
        }
    };
}

decision!(decide_forall);
decision!(decide_exists);
