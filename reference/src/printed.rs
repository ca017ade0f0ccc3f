//! The lines of document 01's printing program, made from the Rust's answers.

use crate::compare::hex;
use crate::counted::{self, Answer};
use crate::house;
use crate::settings::Settings;
use eml::Stop;

fn lines_of(answer: &Answer) -> String {
    let quality = if answer.stop == Stop::Assignment {
        format!("exact {}", u8::from(answer.exact))
    } else {
        format!("best {}", hex(&[answer.residual]))
    };
    let mut lines = format!("{}\n{quality}\nhalvings {}\n", answer.stop, answer.halvings);
    for (i, &x) in answer.point.iter().enumerate() {
        lines += &format!("v{i} {}\n", hex(&[x]));
    }
    lines
}

/// What the program is to print of a file.
pub fn lines(file: &[u8]) -> String {
    match house::read_file(file) {
        Err(number) => format!("refused {number}\n"),
        Ok(problem) => {
            let settings = Settings::default();
            let answer = counted::solve(
                &problem.constraint,
                &problem.bounds,
                10_000,
                1e-8,
                &settings,
            );
            lines_of(&answer)
        }
    }
}
