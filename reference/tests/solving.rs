//! `solve` against the Rust's: stop word, assignment, exactness, residual and count, bit by bit, on a file and on records.

use reference::compare::{Tally, say, text};
use reference::counted;
use reference::generate::{self, Shape};
use reference::house;
use reference::port;
use reference::settings::Settings;
use reference::smt::helpers::count_constraint_vars;
use reference::splitmix::SplitMix64;

const LIMITS: [usize; 5] = [0, 1, 2, 5, 40];
const TOLERANCES: [f64; 7] = [1e-8, 1e-8, 1e-8, 0.0, -1.0, 0.1, f64::INFINITY];

fn shape(rng: &mut SplitMix64) -> Shape {
    if rng.one_in(2) {
        Shape::narrowing(rng)
    } else {
        Shape::small(rng)
    }
}

#[test]
fn problems() {
    let mut rng = SplitMix64::new(71);
    let mut stops = [0_u64; 5];
    let (mut halved, mut most) = (0_u64, 0);
    for _ in 0..100_000 {
        let shape = shape(&mut rng);
        let parts = generate::problem(&mut rng, &shape);
        let bodies = parts.to_bodies();
        let file = bodies.to_file();
        let problem = house::read_file(&file).expect("sound");
        // The highest limit is for few: a run to it is long.
        let limit = if rng.one_in(200) {
            10_000
        } else {
            rng.pick(&LIMITS)
        };
        let tolerance = rng.pick(&TOLERANCES);
        let settings = Settings::default();
        let theirs = counted::solve(
            &problem.constraint,
            &problem.bounds,
            limit,
            tolerance,
            &settings,
        );
        for ours in port::solve_both(&bodies, &problem.bounds, limit, tolerance, &settings) {
            assert_eq!(text(&ours), text(&theirs), "{parts:?} {limit} {tolerance}");
        }
        stops[theirs.stop as usize] += 1;
        halved += u64::from(theirs.halvings > 0);
        most = most.max(theirs.halvings);
    }
    say(&format!(
        "solve: 100000 problems compared, of a file and of records, all equal; assignment, conflict, tolerance, limit, unsatisfied {stops:?}; {halved} halved, at most {most} times"
    ));
    assert!(stops.iter().all(|&n| n >= 1_000) && halved >= 5_000 && most == 10_000);
}

#[test]
fn refusals_of_files() {
    let mut rng = SplitMix64::new(72);
    let mut tally = Tally::new("refusals of solve on a file");
    for _ in 0..160_000 {
        let file = generate::any_file(&mut rng);
        let limit = rng.pick(&[0, 0, 1, 1_000_000, 1_000_001, usize::MAX]);
        let tolerance = rng.pick(&[f64::INFINITY, f64::INFINITY, f64::NAN]);
        let room = rng.pick(&[0, 1, 16]);
        let number = match house::read_file(&file) {
            Err(number) => number,
            Ok(_) if limit > 1_000_000 || tolerance.is_nan() => 8,
            Ok(problem) if count_constraint_vars(&problem.constraint) > room => 10,
            Ok(_) => 0,
        };
        let ours = port::solve_file(&file, limit, tolerance, &Settings::default(), room);
        assert_eq!(ours.err().unwrap_or(0), number);
        tally.add(number);
    }
    tally.done(&[0, 1, 2, 3, 4, 5, 6, 7, 8, 10], 500);
}

#[test]
fn refusals_of_records() {
    let mut rng = SplitMix64::new(73);
    let mut tally = Tally::new("refusals of solve on records");
    for _ in 0..50_000 {
        let (nodes, constraints) = generate::any_records(&mut rng);
        let boxes = generate::any_boxes(&mut rng);
        let count = boxes.len();
        let (lo, mut hi) = port::ends(&boxes);
        if rng.one_in(20) {
            hi.push(1.0);
        }
        let limit = rng.pick(&[0, 1, 1, 1_000_001]);
        let room = rng.pick(&[0, 1, 16]);
        let sound = boxes.iter().all(|&(a, b)| house::is_sound(a, b));
        let number = match house::read_records(&nodes, &constraints) {
            Err(number) => number,
            Ok(_) if limit > 1_000_000 => 8,
            Ok(_) if count > 16 || !sound || hi.len() != count => 9,
            Ok(problem) if count_constraint_vars(&problem.constraint) > room => 10,
            Ok(_) => 0,
        };
        let ours = port::solve(
            &nodes,
            &constraints,
            (&lo, &hi),
            limit,
            1e-8,
            &Settings::default(),
            room,
        );
        assert_eq!(ours.err().unwrap_or(0), number);
        tally.add(number);
    }
    tally.done(&[0, 2, 3, 4, 5, 6, 7, 8, 9, 10], 200);
}
