//! Evaluation, the check and the residual against the Rust's: equal in every bit and every error.

use reference::compare::{Tally, same, say, text};
use reference::eval::EvalCtx;
use reference::generate::{self, Shape};
use reference::house;
use reference::port::{self, Evaluated};
use reference::settings::Settings;
use reference::smt::helpers::{check_constraint, evaluate_constraint_residual};
use reference::splitmix::SplitMix64;

/// Mostly small problems, so that many are compared, and some at every limit.
fn shape(rng: &mut SplitMix64) -> Shape {
    match rng.below(200) {
        0 => Shape::large(rng),
        1..=20 => Shape::medium(rng),
        21..=90 => Shape::narrowing(rng),
        _ => Shape::small(rng),
    }
}

#[test]
fn evaluation() {
    let mut rng = SplitMix64::new(41);
    let (mut count, mut kinds) = (0, [0_u64; 4]);
    while count < 200_000 {
        let shape = shape(&mut rng);
        let parts = generate::problem(&mut rng, &shape);
        if parts.nodes.is_empty() {
            continue;
        }
        let nodes = house::node_bytes(&parts.nodes);
        let trees = house::read_nodes(&nodes).expect("a sound list");
        for _ in 0..4 {
            // The later nodes are the larger trees.
            let k = trees.len() - 1 - rng.below(trees.len().min(8));
            let point = generate::point_about(&mut rng, trees[k].num_vars());
            let theirs =
                Evaluated::from(trees[k].eval_real(&EvalCtx::new(&point, &Settings::default())));
            let ours = port::eval_real(&nodes, k, &point, &Settings::default()).expect("accepted");
            assert_eq!(text(&ours), text(&theirs), "{parts:?} {k} {point:?}");
            kinds[match ours {
                Evaluated::Value(_) => 0,
                Evaluated::VarOutOfBounds(..) => 1,
                Evaluated::NanEncountered => 2,
                _ => 3,
            }] += 1;
            count += 1;
        }
    }
    say(&format!(
        "eval_real: {count} compared, all equal; value, out of bounds, NaN, complex {kinds:?}"
    ));
    assert!(kinds.iter().all(|&k| k >= 1000));
}

#[test]
fn check_and_residual() {
    let mut rng = SplitMix64::new(42);
    let (mut count, mut passed, mut kinds) = (0_u64, 0_u64, [0_u64; 11]);
    while count < 200_000 {
        let shape = shape(&mut rng);
        let parts = generate::problem(&mut rng, &shape);
        let bodies = parts.to_bodies();
        let problem = house::read_records(&bodies.nodes, &bodies.constraints).expect("sound");
        for record in &parts.constraints {
            kinds[record.kind as usize] += 1;
        }
        for _ in 0..4 {
            let point = generate::point_about(&mut rng, shape.variables);
            let theirs = check_constraint(
                &problem.constraint,
                &EvalCtx::new(&point, &Settings::default()),
            );
            let ours = port::check(
                &bodies.nodes,
                &bodies.constraints,
                &point,
                &Settings::default(),
            );
            assert_eq!(ours, Ok(theirs), "{parts:?} {point:?}");
            passed += u64::from(theirs);
            let theirs =
                evaluate_constraint_residual(&problem.constraint, &point, &Settings::default());
            let ours = port::residual(
                &bodies.nodes,
                &bodies.constraints,
                &point,
                &Settings::default(),
            );
            let ours = ours.expect("accepted");
            assert!(same(ours, theirs), "{parts:?} {point:?}: {ours} {theirs}");
            assert!(ours >= 0.0);
            count += 1;
        }
    }
    say(&format!(
        "check and residual: {count} compared, all equal; {passed} passed; records of each kind {kinds:?}"
    ));
    assert!(kinds.iter().all(|&k| k >= 1000));
    assert!(passed >= 10_000 && count - passed >= 10_000);
}

/// Damaged records, points of over 16 values and nodes beyond the list.
#[test]
fn refusals() {
    let mut rng = SplitMix64::new(43);
    let mut tally = Tally::new("refusals of a point's calls");
    for _ in 0..50_000 {
        let (nodes, constraints) = generate::any_records(&mut rng);
        let length = if rng.one_in(5) {
            15 + rng.below(4)
        } else {
            rng.below(4)
        };
        let point = generate::point(&mut rng, length);
        let records = house::read_records(&nodes, &constraints).err().unwrap_or(0);
        let number = match records {
            0 if point.len() > 16 => 9,
            other => other,
        };
        let checked = port::check(&nodes, &constraints, &point, &Settings::default());
        let residual = port::residual(&nodes, &constraints, &point, &Settings::default());
        assert_eq!(checked.err().unwrap_or(0), number);
        assert_eq!(residual.err().unwrap_or(0), number);
        tally.add(number);

        let k = rng.below(nodes.len() / 16 + 2);
        let number = match house::read_nodes(&nodes) {
            Err(number) => number,
            Ok(trees) if k >= trees.len() => 3,
            Ok(_) if point.len() > 16 => 9,
            Ok(_) => 0,
        };
        assert_eq!(
            port::eval_real(&nodes, k, &point, &Settings::default())
                .err()
                .unwrap_or(0),
            number
        );
    }
    tally.done(&[0, 2, 3, 4, 5, 6, 7, 9], 200);
}
