//! Three bars fill a line of 40 mm: poses the problem from nothing and prints the stretch that is chosen for each bar.

use eml::format::{CONSTRAINT_BYTES, MOST_NODES, NODE_BYTES};
use eml::{Builder, Refusal};
use std::process::ExitCode;

fn main() -> Result<ExitCode, Refusal> {
    let (mut nodes, mut constraints) = ([0; NODE_BYTES * MOST_NODES], [0; CONSTRAINT_BYTES * 3]);
    let mut page = Builder::new(&mut nodes, &mut constraints);

    // A bar's width is exp(x) - ln(y): x is its own stretch, y that of the next bar.
    let (x, y, z) = (page.var(0)?, page.var(1)?, page.var(2)?);
    let (first, second, third) = (page.eml(x, y)?, page.eml(y, z)?, page.eml(z, x)?);

    // The third fits in what the others leave of the line,
    let line = page.var(3)?;
    let room = page.sub(line, first)?;
    let room = page.sub(room, second)?;
    page.le(third, room)?;
    // and they fill at least 39 mm of it.
    let least = page.var(4)?;
    let need = page.sub(least, first)?;
    let need = page.sub(need, second)?;
    page.ge(third, need)?;
    page.and(2)?;

    // The line and the least of it are ranges too: a constant there often ends in a false conflict.
    for (lo, hi) in [(1.5, 2.5), (2.0, 3.0), (1.5, 3.0)] {
        page.bound(lo, hi)?;
    }
    page.bound(39.75, 40.0)?;
    page.bound(39.0, 39.25)?;

    let solution = page.records()?.solve(page.bounds(), 10_000, 1e-8)?;
    let Some(point) = solution.assignment() else {
        println!("{}", solution.stop);
        return Ok(ExitCode::FAILURE);
    };
    for (bar, stretch) in (1..=3).zip(point) {
        println!("bar {bar}: stretch {stretch:.6}");
    }
    Ok(ExitCode::SUCCESS)
}
