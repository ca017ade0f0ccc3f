//! `decide_forall` and `decide_exists` against the Rust's: the verdict and every bit of its point.

use reference::case::{Decision, EXISTS, FORALL, UNTOUCHED, taken_apart};
use reference::compare::{Tally, hex, say};
use reference::generate::{self, Shape, Temper};
use reference::house::{self, Node, Record, kind};
use reference::settings::Settings;
use reference::smt::constraint::EmlConstraint;
use reference::splitmix::SplitMix64;

fn shape(rng: &mut SplitMix64) -> Shape {
    match rng.below(400) {
        0 => Shape::large(rng),
        1..=20 => Shape::medium(rng),
        21..=200 => Shape::narrowing(rng),
        _ => Shape::small(rng),
    }
}

/// The samples in the Rust's order.
fn samples(exists: bool, (lo, hi): (f64, f64)) -> [f64; 5] {
    let (mid, width) = ((lo + hi) / 2.0, hi - lo);
    if exists {
        [mid, lo, hi, lo + 0.25 * width, lo + 0.75 * width]
    } else {
        [lo, hi, mid, lo + 0.1 * width, hi - 0.1 * width]
    }
}

/// Compares one call; the places past the point stay. The verdict's number and the point.
fn compared(
    (rust, port): Decision,
    (nodes, constraints): (&[u8], &[u8]),
    constraint: &EmlConstraint,
    var: usize,
    (lo, hi): (f64, f64),
    num_vars: usize,
    room: usize,
) -> (usize, Vec<f64>) {
    let settings = &Settings::default();
    let theirs = rust(var, lo, hi, constraint, num_vars, settings);
    let mut point = vec![UNTOUCHED; room];
    let ours = port(
        nodes,
        constraints,
        var,
        (lo, hi),
        num_vars,
        settings,
        &mut point,
    )
    .expect("accepted");
    let (a, b) = (taken_apart(&theirs), taken_apart(&ours));
    let call = format!("{var} [{lo}, {hi}] of {num_vars}: {constraint:?}");
    assert_eq!((a.0, hex(a.1)), (b.0, hex(b.1)), "{call}");
    let past = &point[b.1.len()..];
    assert!(past.iter().all(|&x| x == UNTOUCHED), "{call}");
    (a.0, a.1.to_vec())
}

#[test]
fn decisions() {
    let mut rng = SplitMix64::new(71);
    let (mut verdicts, mut sampled, mut kinds) = ([[0_u64; 4]; 2], [[0_u64; 5]; 2], [0_u64; 11]);
    let (mut beyond, mut sizes) = (0_u64, [0_u64; 17]);
    for _ in 0..150_000 {
        let shape = shape(&mut rng);
        let parts = generate::problem(&mut rng, &shape);
        let bodies = parts.to_bodies();
        let records = (&bodies.nodes[..], &bodies.constraints[..]);
        let problem = house::read_records(records.0, records.1).expect("sound");
        for record in &parts.constraints {
            kinds[record.kind as usize] += 1;
        }
        let n = generate::num_vars_about(&mut rng, shape.variables);
        let var = generate::variable_about(&mut rng, n);
        let range = generate::range_about(&mut rng, &parts.bounds, shape.temper);
        let room = n + rng.below(3);
        let c = &problem.constraint;
        for (some, calls) in [(false, FORALL), (true, EXISTS)] {
            let (verdict, point) = compared(calls, records, c, var, range, n, room);
            verdicts[usize::from(some)][verdict] += 1;
            let x = point.get(var);
            if let Some(k) = samples(some, range).iter().position(|s| Some(s) == x) {
                sampled[usize::from(some)][k] += 1;
            }
        }
        beyond += u64::from(var >= n);
        sizes[n] += 1;
    }
    let [forall, exists] = verdicts;
    say(&format!(
        "decide_forall: 150000 compared, all equal; True {}, FalseWithCounterexample {}, Unknown {}, by sample {:?}",
        forall[0], forall[2], forall[3], sampled[0]
    ));
    say(&format!(
        "decide_exists: 150000 compared, all equal; TrueWithWitness {}, Unknown {}, by sample {:?}",
        exists[1], exists[3], sampled[1]
    ));
    say(&format!(
        "decisions: variable beyond the point {beyond}; by number of variables {sizes:?}; records of each kind {kinds:?}"
    ));
    assert!([forall[0], forall[2], forall[3]].iter().all(|&n| n >= 500));
    assert!([exists[1], exists[3]].iter().all(|&n| n >= 500));
    assert!(beyond >= 10_000);
    assert!(sizes.iter().chain(&kinds).all(|&n| n >= 500));
}

/// exp(x) - ln(k), which is 0 at x = at.
fn rising(nodes: &mut Vec<Node>, var: usize, at: f64) -> usize {
    let k = nodes.len() as u32;
    nodes.push(Node::Var(var as u32));
    nodes.push(Node::Const(at.exp().exp()));
    nodes.push(Node::Eml(k, k + 1));
    nodes.len() - 1
}

/// Constraints that hold, or fail, near one sample only, so that each of the five decides.
#[test]
fn each_sample() {
    let mut rng = SplitMix64::new(73);
    let mut counts = [[0_u64; 5]; 2];
    for _ in 0..20_000 {
        let n = 1 + rng.below(15);
        let var = rng.below(n);
        let lo = rng.uniform(-3.0, 0.0);
        let range = (lo, lo + 0.1 + rng.unit());
        let d = 0.04 * (range.1 - range.0);
        let k = rng.below(5);
        for (some, calls) in [(false, FORALL), (true, EXISTS)] {
            let x = samples(some, range)[k];
            let mut nodes = Vec::new();
            let below = rising(&mut nodes, var, x - d);
            let above = rising(&mut nodes, var, x + d);
            let list = if some {
                [
                    (kind::GT_ZERO, below),
                    (kind::LT_ZERO, above),
                    (kind::AND, 2),
                ]
            } else {
                [
                    (kind::LT_ZERO, below),
                    (kind::GT_ZERO, above),
                    (kind::OR, 2),
                ]
            };
            let nodes = house::node_bytes(&nodes);
            let mut list = list.map(|(k, argument)| Record::new(k, argument)).to_vec();
            // Propagation passes a quantifier by: no conflict of its own rounding comes before the samples.
            list.push(Record::quantifier(kind::FOR_ALL, 15, 0.0, 0.0));
            let constraints = house::constraint_bytes(&list);
            let records = (&nodes[..], &constraints[..]);
            let problem = house::read_records(records.0, records.1).expect("sound");
            let (_, point) = compared(calls, records, &problem.constraint, var, range, n, n);
            assert_eq!(hex(&point[var..=var]), hex(&[x]));
            counts[usize::from(some)][k] += 1;
        }
    }
    say(&format!(
        "each sample: decide_forall {:?}, decide_exists {:?}, all equal",
        counts[0], counts[1]
    ));
    assert!(counts.iter().flatten().all(|&n| n >= 500));
}

/// Damaged records, unsound ranges, over 16 variables and short outputs, which leave every lent place.
#[test]
fn refusals() {
    let mut rng = SplitMix64::new(72);
    let settings = Settings::default();
    let mut tally = Tally::new("refusals of a decision");
    let mut refused = 0;
    while refused < 40_000 {
        let (nodes, constraints) = generate::any_records(&mut rng);
        let n = match rng.below(8) {
            0 => 17 + rng.below(3),
            1 => usize::MAX - rng.below(2),
            _ => rng.below(17),
        };
        let var = generate::variable_about(&mut rng, n.min(16));
        let (lo, hi) = if rng.one_in(4) {
            generate::unsound_range(&mut rng)
        } else {
            generate::range(&mut rng, Temper::Wild)
        };
        let room = match rng.below(3) {
            0 => rng.below(n.min(20) + 1),
            _ => n.min(20) + rng.below(2),
        };
        let records = house::read_records(&nodes, &constraints).err().unwrap_or(0);
        let expected = match records {
            0 if n > 16 || !house::is_sound(lo, hi) => 9,
            0 if room < n => 10,
            other => other,
        };
        for port in [FORALL.1, EXISTS.1] {
            let mut point = vec![UNTOUCHED; room];
            let answer = port(
                &nodes,
                &constraints,
                var,
                (lo, hi),
                n,
                &settings,
                &mut point,
            );
            let number = answer.err().unwrap_or(0);
            assert_eq!(number, expected);
            if number != 0 {
                assert!(point.iter().all(|&x| x == UNTOUCHED));
                refused += 1;
            }
            tally.add(number);
        }
    }
    tally.done(&[0, 2, 3, 4, 5, 6, 7, 9, 10], 200);
}
