//! Solves a house file twice, with at most 20 halvings: by document 01's numbers, and with a wider equality tolerance.

use eml::{Problem, Settings};
use std::error::Error;

fn main() -> Result<(), Box<dyn Error>> {
    let path = std::env::args_os().nth(1).ok_or("usage: tuned FILE")?;
    let file = std::fs::read(path)?;
    let problem = Problem::from_bytes(&file)?;
    print!("{}", problem.solve(20, 1e-8)?);

    // For a draft, an equation may be a thousandth off.
    let mut settings = Settings::default();
    settings.equality = 0.001;
    print!("{}", problem.solve_with(20, 1e-8, settings)?);
    Ok(())
}
