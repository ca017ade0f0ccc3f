//! The cases that the program `table` replays: document 01's examples that are not starred, and answers of the Rust.
//!
//! `cargo run --release --bin replay > ../crates/table/stdin` writes them anew; a test holds the file against them. The examples are
//! document 01's. The 320 answers are of problems drawn from seed 91 by `generate`, one in ten of them damaged, each under a limit and a
//! tolerance drawn with it; the refusal is `house`'s and the answer `counted`'s, which holds it against the Rust's own `solve`.
//!
//! A case is 176 bytes and then the file. Little-endian: u32 length of the file; a byte each: 0 for an example and 1 for an answer, the
//! refusal's number, the stop word's, exactness; then 8 bytes each: limit, tolerance, residual, halvings, count of values, 16 values.

use crate::counted::{self, Answer};
use crate::generate::{self, Shape};
use crate::house::{self, Node, Parts, Record, kind};
use crate::settings::Settings;
use crate::splitmix::SplitMix64;
use eml::Stop;

pub const ANSWERS: usize = 320;
pub const EXAMPLES: usize = 7;

/// What was asked, and what came of it.
pub struct Case {
    example: bool,
    file: Vec<u8>,
    limit: usize,
    tolerance: f64,
    pub answer: Result<Answer, u8>,
}

impl Case {
    fn bytes(&self) -> Vec<u8> {
        // A refusal is its number only; the other fields are the same in each.
        let refused = Answer {
            stop: Stop::Unsatisfied,
            point: Vec::new(),
            exact: false,
            residual: 0.0,
            halvings: 0,
        };
        let (refusal, answer) = match &self.answer {
            Ok(answer) => (0, answer),
            Err(number) => (*number, &refused),
        };
        let mut bytes = (self.file.len() as u32).to_le_bytes().to_vec();
        bytes.extend([
            u8::from(!self.example),
            refusal,
            answer.stop as u8,
            u8::from(answer.exact),
        ]);
        let mut words = vec![
            self.limit as u64,
            self.tolerance.to_bits(),
            answer.residual.to_bits(),
            answer.halvings as u64,
            answer.point.len() as u64,
        ];
        words.extend(answer.point.iter().map(|x| x.to_bits()));
        words.resize(21, 0);
        bytes.extend(words.iter().flat_map(|w| w.to_le_bytes()));
        bytes.extend(&self.file);
        bytes
    }
}

/// What the Rust answers with document 01's numbers, after the file's own tests and those of limit and tolerance.
fn answer_of(file: &[u8], limit: usize, tolerance: f64) -> Result<Answer, u8> {
    let problem = house::read_file(file)?;
    if limit > 1_000_000 || tolerance.is_nan() {
        return Err(8);
    }
    Ok(counted::solve(
        &problem.constraint,
        &problem.bounds,
        limit,
        tolerance,
        &Settings::default(),
    ))
}

/// GtZero of Var 0 in one box.
fn positive(lo: f64, hi: f64) -> Vec<u8> {
    let parts = Parts {
        nodes: vec![Node::Var(0)],
        constraints: vec![Record::new(kind::GT_ZERO, 0)],
        bounds: vec![(lo, hi)],
    };
    parts.to_file()
}

/// GtZero of a chain of this depth.
fn chain(depth: usize) -> Vec<u8> {
    let mut nodes = vec![Node::One];
    nodes.extend((1..depth).map(|k| Node::Eml(0, k as u32 - 1)));
    let parts = Parts {
        nodes,
        constraints: vec![Record::new(kind::GT_ZERO, depth - 1)],
        bounds: Vec::new(),
    };
    parts.to_file()
}

/// Document 01's examples that are not starred and are about files. (16 and 17 boxes are in the program itself.)
fn examples() -> Vec<Case> {
    let assigned = |exact| {
        Ok(Answer {
            stop: Stop::Assignment,
            point: vec![2.0],
            exact,
            residual: 0.0,
            halvings: 0,
        })
    };
    let example = |file: Vec<u8>, limit, answer| Case {
        example: true,
        file,
        limit,
        tolerance: 1e-8,
        answer,
    };
    let taken = answer_of(&chain(128), 1, 1e-8);
    assert!(taken.is_ok());
    let examples = vec![
        example(positive(1.0, 3.0), 10_000, assigned(false)),
        example(positive(2.0, 2.0), 0, assigned(false)),
        example(positive(2.0, 2.0), 1, assigned(true)),
        example(positive(2.0, 2.0), 1_000_000, assigned(true)),
        example(positive(2.0, 2.0), 1_000_001, Err(8)),
        example(chain(128), 1, taken),
        example(chain(129), 1, Err(4)),
    ];
    assert_eq!(examples.len(), EXAMPLES);
    examples
}

fn answers() -> Vec<Case> {
    let mut rng = SplitMix64::new(91);
    let mut answer = |k: usize| {
        let shape = if rng.one_in(2) {
            Shape::narrowing(&mut rng)
        } else {
            Shape::small(&mut rng)
        };
        let parts = generate::problem(&mut rng, &shape);
        let mut file = parts.to_file();
        if k.is_multiple_of(10) {
            generate::damage_file(&mut rng, &mut file, &parts.to_bodies());
        }
        let limit = rng.pick(&[0, 1, 2, 5, 40, 200]);
        let tolerance = rng.pick(&[1e-8, 1e-8, 1e-8, 0.0, -1.0, 0.1, f64::INFINITY]);
        let answer = answer_of(&file, limit, tolerance);
        Case {
            example: false,
            file,
            limit,
            tolerance,
            answer,
        }
    };
    (0..ANSWERS).map(&mut answer).collect()
}

pub fn cases() -> Vec<Case> {
    let mut cases = examples();
    cases.extend(answers());
    cases
}

pub fn bytes(cases: &[Case]) -> Vec<u8> {
    cases.iter().flat_map(Case::bytes).collect()
}

#[cfg(test)]
mod tests {
    use super::*;

    /// The file that `table` reads is these cases, and every stop word is among them.
    #[test]
    fn the_table_is_these_cases() {
        let cases = cases();
        let written = include_bytes!("../../crates/table/stdin");
        assert!(bytes(&cases) == written, "write crates/table/stdin anew");
        let mut stops = [0; 5];
        let mut refused = 0;
        for case in &cases {
            match &case.answer {
                Ok(answer) => stops[answer.stop as usize] += 1,
                Err(_) => refused += 1,
            }
        }
        crate::compare::say(&format!(
            "table: {} cases; assignment, conflict, tolerance, limit, unsatisfied {stops:?}, refused {refused}",
            cases.len()
        ));
        assert!(stops.iter().all(|&n| n >= 5) && refused >= 10);
    }
}
