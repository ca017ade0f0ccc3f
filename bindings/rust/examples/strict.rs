//! Solves a house file twice: as document 01 does, and in strict mode, where no exp is clamped.

use eml::{Problem, Settings};
use std::error::Error;

fn main() -> Result<(), Box<dyn Error>> {
    let path = std::env::args_os().nth(1).ok_or("usage: strict FILE")?;
    let file = std::fs::read(path)?;
    let problem = Problem::from_bytes(&file)?;
    print!("{}", problem.solve(10_000, 1e-8)?);

    // For print, no stretch may be found only because exp was clamped.
    let mut settings = Settings::default();
    settings.strict = true;
    print!("{}", problem.solve_with(10_000, 1e-8, settings)?);
    Ok(())
}
