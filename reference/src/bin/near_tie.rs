//! Searches a problem that is a near-tie: with this platform's exp and ln the first halving keeps one half, and with a
//! correctly rounded exp the other. Writes its house file to standard output, and what was found to standard error.
//!
//! The problem: variable 0 in [a,b], and exp(v0) - ln(y) = 0. A quantifier over variable 1, which the equation does not name,
//! keeps narrowing from solving it outright. The middles of the two halves are m and n. Where exp(m) and exp(n) are about as far
//! below as above ln(y), the last bit of one of them decides. The root is just above the middle, so that who keeps the lower
//! half finds nothing. Run as `cargo run --release --bin near_tie > near_tie.emlq`.

use reference::house::{Node, Parts, Record, kind};
use reference::rounded;
use reference::splitmix::SplitMix64;
use reference::standins;
use std::io::Write;

type Function = fn(f64) -> f64;

fn problem(a: f64, b: f64, y: f64) -> Parts {
    Parts {
        nodes: vec![Node::Var(0), Node::Const(y), Node::Eml(0, 1)],
        constraints: vec![
            Record::new(kind::EQ_ZERO, 2),
            Record::quantifier(kind::EXISTS, 1, 0.0, 0.0),
        ],
        bounds: vec![(a, b), (0.0, 0.0)],
    }
}

/// Whether the first halving keeps the lower half.
fn keeps_lower(exp: Function, ln: Function, m: f64, n: f64, y: f64) -> bool {
    (exp(m) - ln(y)).abs() < (exp(n) - ln(y)).abs()
}

/// The f64 that many steps above a positive x.
fn step(x: f64, steps: i64) -> f64 {
    f64::from_bits((x.to_bits() as i64 + steps) as u64)
}

/// A y at which the two platforms keep different halves of [a,b], and document 01's functions the upper one, with the root.
fn tie(a: f64, b: f64) -> Option<f64> {
    let middle = (a + b) / 2.0;
    let (m, n) = ((a + middle) / 2.0, (middle + b) / 2.0);
    let platform: Function = f64::exp;
    if platform(m) == rounded::exp(m) && platform(n) == rounded::exp(n) {
        return None;
    }
    let about = platform((platform(m) + platform(n)) / 2.0);
    (-2000..2000).map(|steps| step(about, steps)).find(|&y| {
        let lower = keeps_lower(platform, f64::ln, m, n, y);
        lower != keeps_lower(rounded::exp, f64::ln, m, n, y)
            && !keeps_lower(standins::exp, standins::ln, m, n, y)
    })
}

fn main() {
    let mut rng = SplitMix64::new(101);
    for tries in 1..=100_000 {
        // Short ends: multiples of 1/1024.
        let a = rng.below(2048) as f64 / 1024.0;
        let b = a + (1 + rng.below(4096)) as f64 / 1024.0;
        if let Some(y) = tie(a, b) {
            eprintln!(
                "box [{a},{b}], y {y} ({:016X}), at try {tries}",
                y.to_bits()
            );
            let file = problem(a, b, y).to_file();
            std::io::stdout().write_all(&file).expect("written");
            return;
        }
    }
    eprintln!("none found: on this platform exp may be correctly rounded");
}
