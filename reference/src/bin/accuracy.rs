//! How far document 01's exp and ln lie from the true functions, in units in the last place of the true value, which pairs of f64
//! give to some 100 bits. Prints the table of the README. Run as `cargo run --release --bin accuracy`.

use reference::rounded::{self, Pair};
use reference::splitmix::SplitMix64;
use reference::standins;

const DRAWS: u32 = 1_000_000;

/// The unit in the last place of a normal f64.
fn unit(x: f64) -> f64 {
    x.abs().next_up() - x.abs()
}

/// The distance of a value from the true one.
fn distance(value: f64, near: Pair) -> f64 {
    (((value - near.hi) - near.lo) / unit(near.hi)).abs()
}

/// Prints a line: the largest distance among the arguments drawn, and the share that is the nearest f64.
fn measure(
    name: &str,
    mut draw: impl FnMut() -> f64,
    function: fn(f64) -> f64,
    near: fn(f64) -> Pair,
) {
    let (mut largest, mut nearest) = (0.0_f64, 0_u32);
    for _ in 0..DRAWS {
        let x = draw();
        let (value, near) = (function(x), near(x));
        largest = largest.max(distance(value, near));
        nearest += u32::from(value == near.hi);
    }
    let share = 100.0 * f64::from(nearest) / f64::from(DRAWS);
    println!("| {name} | {largest:.2} | {share:.1} % |");
}

fn main() {
    let mut rng = SplitMix64::new(111);
    println!("| function, arguments | largest distance | nearest f64 |");
    println!("|---|---|---|");
    for end in [1.0, 10.0, 600.0] {
        let name = format!("exp, [-{end},{end}]");
        let draw = || rng.uniform(-end, end);
        measure(&name, draw, standins::exp, rounded::exp_pair);
    }
    for (lo, hi) in [(0.5, 2.0), (0.0, 100.0)] {
        let name = format!("ln, [{lo},{hi}]");
        let draw = || rng.uniform(lo, hi);
        measure(&name, draw, standins::ln, rounded::ln_pair);
    }
    // Every bit pattern of a normal f64 above zero is as likely.
    let draw = || f64::from_bits((1 << 52) + rng.draw() % (2046 << 52));
    let name = "ln, all exponents";
    measure(name, draw, standins::ln, rounded::ln_pair);
}
