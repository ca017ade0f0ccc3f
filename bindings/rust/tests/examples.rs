//! The house files in examples/, whose lines were printed by the proved program, through the safe calls.

use eml::{Problem, Refusal, Stop, solve_file};
use std::path::PathBuf;

/// Document 01's lines for a file.
fn lines(file: &[u8]) -> String {
    match Problem::from_bytes(file).and_then(|problem| problem.solve(10_000, 1e-8)) {
        Ok(solution) => solution.to_string(),
        Err(refusal) => format!("refused {}\n", refusal.number()),
    }
}

fn examples() -> Vec<PathBuf> {
    let folder = concat!(env!("CARGO_MANIFEST_DIR"), "/../../examples");
    let entries = std::fs::read_dir(folder).expect("a folder");
    entries
        .map(|entry| entry.expect("an entry").path())
        .filter(|path| path.extension().is_some_and(|e| e == "emlq"))
        .collect()
}

#[test]
fn the_lines_of_every_example() {
    let paths = examples();
    assert!(paths.len() >= 5);
    for path in paths {
        let file = std::fs::read(&path).expect("a file");
        let expected = std::fs::read_to_string(path.with_extension("txt")).expect("its lines");
        assert_eq!(lines(&file), expected, "{path:?}");
        let tested = Problem::from_bytes(&file).and_then(|problem| problem.solve(10_000, 1e-8));
        assert_eq!(solve_file(&file, 10_000, 1e-8), tested);
    }
}

#[test]
fn refusals_of_a_file() {
    let file = include_bytes!("../../../examples/positive.emlq");
    assert_eq!(solve_file(&file[..31], 0, 0.0), Err(Refusal::Header));
    assert_eq!(solve_file(&file[..87], 0, 0.0), Err(Refusal::Layout));
    let refused = Err(Refusal::LimitOrTolerance);
    assert_eq!(solve_file(file, 1_000_001, 0.0), refused);
    assert_eq!(solve_file(file, 0, f64::NAN), refused);
    let solution = solve_file(file, 1_000_000, 1e-8).expect("taken");
    assert_eq!(
        (solution.stop, &*solution.point),
        (Stop::Assignment, &[2.0][..])
    );
}
