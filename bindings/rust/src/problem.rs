//! House files.

use crate::format::{BOUND_BYTES, CONSTRAINT_BYTES, MOST_VALUES, NODE_BYTES, f64_at, u32_at};
use crate::{Bounds, Interval, List, Records, Refusal, Settings, Solution, calls};

/// A house file that the reader took.
///
/// ```
/// use eml::{Interval, Problem, Stop};
///
/// let file = std::fs::read("../../examples/two_bars.emlq")?;
/// let problem = Problem::from_bytes(&file)?;
/// assert_eq!(problem.num_vars(), 3);
/// assert_eq!(problem.bounds()[1], Interval::new(1.0, 16.0));
/// let solution = problem.solve(10_000, 1e-8)?;
/// assert_eq!((solution.stop, solution.halvings), (Stop::Assignment, 49));
/// let point = solution.assignment().expect("it is one");
/// assert!(problem.records().check(point)?);
/// # Ok::<(), Box<dyn std::error::Error>>(())
/// ```
#[derive(Clone, Copy, Debug)]
pub struct Problem<'a> {
    file: &'a [u8],
}

/// Why no file that was taken is refused later: its bytes are lent, so they stay.
const TAKEN: &str = "the reader took the file";

impl<'a> Problem<'a> {
    /// Tests a file.
    ///
    /// # Errors
    ///
    /// 1 to 7.
    pub fn from_bytes(file: &'a [u8]) -> Result<Self, Refusal> {
        calls::read(file)?;
        Ok(Self { file })
    }

    /// How many variables the constraint has, at most 16: one more than the highest, a quantified one too.
    #[must_use]
    pub fn num_vars(&self) -> usize {
        let mut out = 0;
        calls::num_vars(self.file, &mut out).expect(TAKEN);
        out as usize
    }

    /// The nodes and constraints.
    #[must_use]
    pub fn records(&self) -> Records<'a> {
        Records {
            nodes: self.body(8, NODE_BYTES),
            constraints: self.body(16, CONSTRAINT_BYTES),
        }
    }

    /// The bounds that the file has. A variable beyond them has [-10,10]; one beyond the variables is unused.
    #[must_use]
    pub fn bounds(&self) -> Bounds {
        let mut places = [Interval { lo: 0.0, hi: 0.0 }; MOST_VALUES];
        let bounds = self.body(24, BOUND_BYTES).chunks_exact(BOUND_BYTES);
        let count = bounds.len();
        for (place, bound) in places.iter_mut().zip(bounds) {
            *place = Interval {
                lo: f64_at(bound, 0),
                hi: f64_at(bound, 8),
            };
        }
        List::new(places, count)
    }

    /// The records of `size` bytes whose offset and count are at `entry`.
    fn body(&self, entry: usize, size: usize) -> &'a [u8] {
        let offset = u32_at(self.file, entry) as usize;
        let count = u32_at(self.file, entry + 4) as usize;
        &self.file[offset..offset + size * count]
    }

    /// Solves it. `limit` is the most halvings, and a box is narrow below `tolerance`.
    ///
    /// # Errors
    ///
    /// 8 for a limit above 1,000,000 or a NaN tolerance.
    pub fn solve(&self, limit: usize, tolerance: f64) -> Result<Solution, Refusal> {
        self.solve_with(limit, tolerance, Settings::default())
    }

    /// [`solve`](Self::solve) under settings. [`Settings`] has an example.
    ///
    /// # Errors
    ///
    /// As there, with 14 before 8.
    pub fn solve_with(
        &self,
        limit: usize,
        tolerance: f64,
        settings: Settings,
    ) -> Result<Solution, Refusal> {
        solve_file_with(self.file, limit, tolerance, settings)
    }
}

/// Solves a file that was not tested.
///
/// # Errors
///
/// 1 to 8.
pub fn solve_file(file: &[u8], limit: usize, tolerance: f64) -> Result<Solution, Refusal> {
    solve_file_with(file, limit, tolerance, Settings::default())
}

/// [`solve_file`] under settings.
///
/// # Errors
///
/// 1 to 7, 14 and 8, in this order.
pub fn solve_file_with(
    file: &[u8],
    limit: usize,
    tolerance: f64,
    settings: Settings,
) -> Result<Solution, Refusal> {
    Solution::written(|to| calls::solve_file(file, limit, tolerance, settings, to))
}
