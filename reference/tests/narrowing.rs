//! `propagate` against the Rust's: the answer and every bit of every box, also after a Conflict, on two lists of ends and on one list of
//! intervals. And `to_nnf`, record by record.

use reference::compare::{Tally, hex, say};
use reference::generate::{self, Shape};
use reference::house::{self, Node, Parts, Record, kind};
use reference::port::{self, bits};
use reference::settings::Settings;
use reference::smt::interval::{Interval, IntervalDomain, PropResult};
use reference::splitmix::SplitMix64;

fn shape(rng: &mut SplitMix64) -> Shape {
    match rng.below(400) {
        0 => Shape::large(rng),
        1..=20 => Shape::medium(rng),
        21..=250 => Shape::narrowing(rng),
        _ => Shape::small(rng),
    }
}

fn listed(boxes: &[(f64, f64)]) -> Vec<eml::Interval> {
    boxes
        .iter()
        .map(|&(lo, hi)| eml::Interval { lo, hi })
        .collect()
}

#[test]
fn propagation() {
    let mut rng = SplitMix64::new(61);
    let (mut answers, mut written) = ([0_u64; 3], 0_u64);
    for _ in 0..300_000 {
        let shape = shape(&mut rng);
        let parts = generate::problem(&mut rng, &shape);
        let bodies = parts.to_bodies();
        let problem = house::read_records(&bodies.nodes, &bodies.constraints).expect("sound");
        let boxes = generate::boxes_about(&mut rng, &parts.bounds, shape.temper);
        let mut domain = IntervalDomain {
            vars: boxes
                .iter()
                .map(|&(lo, hi)| Interval::new(lo, hi))
                .collect(),
        };
        let theirs = domain.propagate(&problem.constraint, &Settings::default());
        let (mut lo, mut hi) = port::ends(&boxes);
        let before = (lo.clone(), hi.clone());
        let ours = port::propagate(
            &bodies.nodes,
            &bodies.constraints,
            &Settings::default(),
            &mut lo,
            &mut hi,
        );
        assert_eq!(ours, Ok(theirs), "{parts:?} {boxes:?}");
        let mut list = listed(&boxes);
        let lent = port::propagate_intervals(
            &bodies.nodes,
            &bodies.constraints,
            &Settings::default(),
            &mut list,
        );
        assert_eq!(lent, Ok(theirs), "{parts:?} {boxes:?}");
        let vars: Vec<String> = domain.vars.iter().map(|v| hex(&[v.lo, v.hi])).collect();
        assert_eq!(vars, bits(&list), "{parts:?} {boxes:?}");
        for (i, v) in domain.vars.iter().enumerate() {
            let (a, b) = (hex(&[v.lo, v.hi]), hex(&[lo[i], hi[i]]));
            assert_eq!(a, b, "box {i} of {parts:?} {boxes:?}");
            // No lo lowered, no hi raised, no interval emptied.
            assert!(before.0[i] <= lo[i] && lo[i] <= hi[i] && hi[i] <= before.1[i]);
        }
        answers[theirs as usize] += 1;
        let moved = (&before.0, &before.1) != (&lo, &hi);
        written += u64::from(theirs == PropResult::Conflict && moved);
    }
    let [changed, stable, conflict] = answers;
    say(&format!(
        "propagate: 300000 compared on ends and on intervals, all equal; Changed {changed}, Stable {stable}, Conflict {conflict}, of which {written} had written"
    ));
    assert!(answers.iter().all(|&n| n >= 20_000) && written >= 1_000);
}

/// The smallest problem in which it matters to an interval that -0 is below +0: Var 0 = 0 in [-0,1].
#[test]
fn zero_of_two_signs() {
    let parts = Parts {
        nodes: vec![Node::Var(0)],
        constraints: vec![Record::new(kind::EQ_ZERO, 0)],
        bounds: vec![(-0.0, 1.0)],
    };
    let bodies = parts.to_bodies();
    let (mut lo, mut hi) = port::ends(&parts.bounds);
    let answer = port::propagate(
        &bodies.nodes,
        &bodies.constraints,
        &Settings::default(),
        &mut lo,
        &mut hi,
    );
    assert_eq!(answer, Ok(PropResult::Changed));
    assert_eq!((hex(&lo), hex(&hi)), (hex(&[0.0]), hex(&[0.0])));
}

/// Of two lists of ends, which may differ in length, and of one list of intervals.
#[test]
fn refusals() {
    let mut rng = SplitMix64::new(62);
    let mut tally = Tally::new("refusals of propagate");
    let mut intervals = Tally::new("refusals of propagate on intervals");
    for _ in 0..60_000 {
        let (nodes, constraints) = generate::any_records(&mut rng);
        let boxes = generate::any_boxes(&mut rng);
        let (mut lo, mut hi) = port::ends(&boxes);
        if rng.one_in(20) {
            hi.push(1.0);
        }
        let records = house::read_records(&nodes, &constraints).err().unwrap_or(0);
        let sound = boxes.iter().all(|&(a, b)| house::is_sound(a, b));
        let expected = match records {
            0 if lo.len() > 16 || lo.len() != hi.len() || !sound => 9,
            other => other,
        };
        let before = (hex(&lo), hex(&hi));
        let number = port::propagate(&nodes, &constraints, &Settings::default(), &mut lo, &mut hi)
            .err()
            .unwrap_or(0);
        assert_eq!(number, expected);
        if number != 0 {
            assert_eq!(before, (hex(&lo), hex(&hi)));
        }
        tally.add(number);
        let expected = match records {
            0 if boxes.len() > 16 || !sound => 9,
            other => other,
        };
        let mut list = listed(&boxes);
        let before = bits(&list);
        let number =
            port::propagate_intervals(&nodes, &constraints, &Settings::default(), &mut list)
                .err()
                .unwrap_or(0);
        assert_eq!(number, expected);
        if number != 0 {
            assert_eq!(before, bits(&list));
        }
        intervals.add(number);
    }
    tally.done(&[0, 2, 3, 4, 5, 6, 7, 9], 200);
    intervals.done(&[0, 2, 3, 4, 5, 6, 7, 9], 200);
}

/// Record by record; places past the last one written, and refused outputs, keep their bytes.
#[test]
fn normal_forms() {
    let mut rng = SplitMix64::new(63);
    let mut tally = Tally::new("to_nnf");
    for _ in 0..100_000 {
        let (nodes, constraints) = if rng.one_in(3) {
            generate::any_records(&mut rng)
        } else {
            let shape = Shape::any(&mut rng);
            let bodies = generate::problem(&mut rng, &shape).to_bodies();
            (bodies.nodes, bodies.constraints)
        };
        let (expected, normal) = match house::read_records(&nodes, &constraints) {
            Err(number) => (number, Vec::new()),
            Ok(problem) => {
                let normal = problem.constraint.clone().to_nnf();
                let records = house::records_of(&normal, &problem.trees);
                (0, house::constraint_bytes(&records))
            }
        };
        let room = match rng.below(4) {
            0 => normal.len(),
            1 => normal.len().saturating_sub(1 + rng.below(24)),
            _ => normal.len() + rng.below(60),
        };
        let expected = if expected == 0 && room < normal.len() {
            10
        } else {
            expected
        };
        let before: Vec<u8> = (0..room).map(|_| rng.draw() as u8).collect();
        let mut out = before.clone();
        match port::to_nnf(&nodes, &constraints, &mut out) {
            Err(number) => {
                assert_eq!(number, expected);
                assert_eq!(out, before);
            }
            Ok(written) => {
                assert_eq!((expected, 24 * written), (0, normal.len()));
                assert_eq!(out[..normal.len()], normal);
                assert_eq!(out[normal.len()..], before[normal.len()..]);
            }
        }
        tally.add(expected);
    }
    tally.done(&[0, 2, 3, 4, 5, 6, 7, 10], 200);
}
