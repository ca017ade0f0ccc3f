//! The proved reader against one written independently from document 01.

use eml::{Problem, Records};
use reference::compare::{Tally, text};
use reference::counted;
use reference::eval::EvalCtx;
use reference::generate::{self, Shape};
use reference::house;
use reference::port::{self, Evaluated};
use reference::settings::Settings;
use reference::smt::helpers::{
    check_constraint, count_constraint_vars, evaluate_constraint_residual,
};
use reference::splitmix::SplitMix64;

/// What both read, by answers that show it, bit by bit: the records of the constraint's normal form, the nodes' values at a point where
/// every variable has a value of its own, the check and the residual there, and what a run of one halving on the file comes to. Of a list of
/// over 63 nodes the values are of at most 64, evenly spread, and there is no run.
fn compare_read(file: &[u8], read: &house::Problem) {
    let from = house::HEADER + house::NODE * read.trees.len();
    let to = file.len() - house::BOUND * read.bounds.len();
    let (nodes, constraints) = (&file[house::HEADER..from], &file[from..to]);

    let normal = house::records_of(&read.constraint.clone().to_nnf(), &read.trees);
    let mut out = vec![0; constraints.len()];
    assert_eq!(port::to_nnf(nodes, constraints, &mut out), Ok(normal.len()));
    out.truncate(house::CONSTRAINT * normal.len());
    assert_eq!(out, house::constraint_bytes(&normal));

    let settings = Settings::default();
    let point: [f64; house::MAX_VARIABLES] = std::array::from_fn(|i| 0.3 + 0.17 * i as f64);
    let step = 1 + read.trees.len() / 64;
    for (k, tree) in read.trees.iter().enumerate().step_by(step) {
        let theirs = Evaluated::from(tree.eval_real(&EvalCtx::new(&point, &settings)));
        let ours = port::eval_real(nodes, k, &point, &settings).expect("accepted");
        assert_eq!(text(&ours), text(&theirs));
    }

    let theirs = check_constraint(&read.constraint, &EvalCtx::new(&point, &settings));
    assert_eq!(
        port::check(nodes, constraints, &point, &settings),
        Ok(theirs)
    );
    let theirs = evaluate_constraint_residual(&read.constraint, &point, &settings);
    let ours = port::residual(nodes, constraints, &point, &settings).expect("accepted");
    assert_eq!(ours.to_bits(), theirs.to_bits());

    if step == 1 {
        let theirs = counted::solve(&read.constraint, &read.bounds, 1, 0.0, &settings);
        let ours = port::solve_file(file, 1, 0.0, &settings, 16).expect("accepted");
        assert_eq!(text(&ours), text(&theirs));
    }
}

/// Both readers' number, and what both read where they accept.
fn compare_file(file: &[u8], tally: &mut Tally) {
    let lent = file.to_vec();
    let ours = port::number(Problem::from_bytes(file));
    assert_eq!(file, lent);
    match house::read_file(file) {
        Err(number) => {
            assert_eq!(ours, number, "{file:02X?}");
            assert_eq!(port::num_vars(file), Err(number));
        }
        Ok(problem) => {
            assert_eq!(ours, 0, "{file:02X?}");
            compare_read(file, &problem);
            let variables = count_constraint_vars(&problem.constraint);
            assert_eq!(port::num_vars(file), Ok(variables as u64));
        }
    }
    tally.add(ours);
}

#[test]
fn files() {
    let mut rng = SplitMix64::new(31);
    let mut tally = Tally::new("files");
    for _ in 0..300_000 {
        compare_file(&generate::any_file(&mut rng), &mut tally);
    }
    tally.done(&[0, 1, 2, 3, 4, 5, 6, 7], 1000);
}

/// Every length of a file, and every single byte of it changed.
#[test]
fn every_cut_and_every_byte() {
    let mut rng = SplitMix64::new(32);
    let mut tally = Tally::new("files cut or with one byte changed");
    compare_file(&generate::largest().to_file(), &mut tally);
    for _ in 0..20 {
        let shape = Shape::small(&mut rng);
        let file = generate::problem(&mut rng, &shape).to_file();
        for length in 0..file.len() {
            compare_file(&file[..length], &mut tally);
        }
        for at in 0..file.len() {
            for value in [
                0,
                1,
                2,
                16,
                128,
                255,
                file[at] ^ 1,
                file[at].wrapping_add(1),
            ] {
                let mut changed = file.clone();
                changed[at] = value;
                compare_file(&changed, &mut tally);
            }
        }
    }
    tally.done(&[0, 1, 2, 3, 5], 100);
}

#[test]
fn records() {
    let mut rng = SplitMix64::new(33);
    let mut tally = Tally::new("records without a file");
    for _ in 0..100_000 {
        let (nodes, constraints) = generate::any_records(&mut rng);
        let records = Records {
            nodes: &nodes,
            constraints: &constraints,
        };
        let ours = port::number(records.test());
        let theirs = house::read_records(&nodes, &constraints);
        let variables = theirs.map(|problem| count_constraint_vars(&problem.constraint) as u64);
        assert_eq!(port::num_vars_records(&nodes, &constraints), variables);
        assert_eq!(ours, variables.err().unwrap_or(0));
        tally.add(ours);
    }
    tally.done(&[0, 2, 3, 4, 5, 6, 7], 1000);
}
