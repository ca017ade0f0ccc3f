//! The numbers that a caller may change, and the strict flag.

use crate::{Refusal, calls};

/// The four numbers of document 01 that a caller may change, and whether evaluation is strict. [`Settings::default`] has document
/// 01's, by which [`Records::solve`](crate::Records::solve) and the other calls go; the twin of each, `solve_with` and so on,
/// receives settings and takes document 01's steps with their numbers. An imaginary part below 1e-12 still counts as none, and
/// the 1e-12 in the residual of a Not stays too.
///
/// An assignment passes the check under the settings that it was found under, not always under others:
///
/// ```
/// use eml::{Problem, Settings, Stop};
///
/// // exp(v0) = ln(v1), to 1e-8, and to a thousandth.
/// let file = std::fs::read("../../examples/two_bars.emlq")?;
/// let problem = Problem::from_bytes(&file)?;
/// assert_eq!(problem.solve(20, 1e-8)?.stop, Stop::Limit);
/// let mut settings = Settings::default();
/// settings.equality = 0.001;
/// let solution = problem.solve_with(20, 1e-8, settings)?;
/// assert_eq!((solution.stop, solution.halvings), (Stop::Assignment, 14));
/// let point = solution.assignment().expect("it is one");
/// assert!(problem.records().check_with(point, settings)?);
/// assert!(!problem.records().check(point)?);
/// # Ok::<(), Box<dyn std::error::Error>>(())
/// ```
///
/// After the file or the records ([`Records::eval_real`](crate::Records::eval_real): and after the node's number), and before
/// all else that it was given, a call tests the numbers, and refuses with 14 where one is outside its range or a NaN, also one
/// that it would not use:
///
/// ```
/// use eml::{Constraint, Node, Records, Refusal, Relation, Settings};
///
/// // Variable 0 is above 0: GtZero has no slack.
/// let above = Constraint::Atom { relation: Relation::GtZero, node: 0 };
/// let records = Records { nodes: &Node::Var(0).to_bytes(), constraints: &above.to_bytes() };
/// let mut settings = Settings::default();
/// settings.slack = settings.equality;
/// assert_eq!(records.check_with(&[0.5], settings), Err(Refusal::Parameter));
/// ```
#[derive(Clone, Copy, Debug, PartialEq)]
#[non_exhaustive]
#[repr(C)]
pub struct Settings {
    /// Narrowing goes over the constraint until nothing changes, but at most so many times: 1 to 100. Document 01's is 20.
    pub rounds: usize,
    /// The equality tolerance, above the slack and finite: [`EqZero`](crate::Relation::EqZero) passes the check where
    /// |v| < `equality`. Document 01's is 1e-8.
    pub equality: f64,
    /// The slack, above 0. Document 01's is 1e-12.
    ///
    /// In the check, [`GeZero`](crate::Relation::GeZero) passes where v >= -`slack`, [`LeZero`](crate::Relation::LeZero) where
    /// v <= `slack`, and [`NeZero`](crate::Relation::NeZero) where |v| > `slack`. In narrowing, `NeZero` is a conflict where v's
    /// range is narrower than the slack and its lower end is nearer to 0 than that; and a variable's range stays as it was where
    /// neither end would move inward by more than the slack, but for the step off 0 of `NeZero`.
    pub slack: f64,
    /// The clamp, 1 to 709. Document 01's is 709.
    ///
    /// At a point, exp of an argument above the clamp is exp(`clamp`), and of one below its negative exp(-`clamp`), unless
    /// evaluation is [`strict`](Self::strict). Narrowing does not clamp. Since [`canonical::ln`](crate::canonical::ln) makes
    /// ln(x) as e - ln(exp(e - ln(x))), and [`canonical::sub`](crate::canonical::sub) x - y as exp(ln(x)) - ln(exp(y)), in a
    /// comparison y counts as no less than -`clamp` and no more than `clamp`, and the magnitude of x, whose sign stays, as no
    /// less than exp(e - `clamp`) and no more than exp(`clamp`): under a clamp of 5 each x from 0 to 0.1021 counts as 0.1021,
    /// and -0.05 as -0.1021. Under a clamp below e/2 every magnitude of x counts as exp(`clamp`). Where evaluation is strict, an
    /// x or a y beyond these ends is an error, and under a clamp below e/2 every x is.
    pub clamp: f64,
    /// Whether evaluation is strict. Document 01's is not, and either value is taken.
    ///
    /// A strict evaluation clamps no exp: an Eml node whose left value has a real part above the clamp or below its negative, an
    /// infinite one too, makes it answer [`Evaluation::ExpOverflow`](crate::Evaluation::ExpOverflow) with that real part. This
    /// is an error as any other: an atom does not pass the check where the evaluation of its node ends so, and its residual is
    /// +inf there, of [`NeZero`](crate::Relation::NeZero) 0.
    ///
    /// So in strict mode an assignment's constraint, if it has no Not, ForAll or Exists, was met without clamping in the atoms
    /// that made it true. More is not promised:
    ///
    /// - A Not passes where what it takes fails by an error. The normal form ([`to_nnf`](crate::Records::to_nnf)) has none.
    /// - Halving goes by the residuals of the middles: with a `NeZero` it may keep a half for an error, and where errors make both
    ///   +inf it keeps the upper half, even where only the lower one has points that can be evaluated. So the bounds should keep
    ///   the arguments of exp within the clamp.
    /// - Narrowing is as without the flag. It takes exp of intervals, which it neither clamps nor tests.
    ///
    /// ```
    /// use eml::{Evaluation, Node, Records, Settings, maths};
    ///
    /// // exp(v0) - ln(1).
    /// let nodes = [Node::Var(0), Node::One, Node::Eml { left: 0, right: 1 }];
    /// let nodes = nodes.map(Node::to_bytes).concat();
    /// let records = Records { nodes: &nodes, constraints: &[] };
    /// let clamped = Evaluation::Value(maths::exp(709.0));
    /// assert_eq!(records.eval_real(2, &[800.0])?, clamped);
    /// let mut settings = Settings::default();
    /// settings.strict = true;
    /// let overflow = Evaluation::ExpOverflow(800.0);
    /// assert_eq!(records.eval_real_with(2, &[800.0], settings)?, overflow);
    /// # Ok::<(), eml::Refusal>(())
    /// ```
    pub strict: bool,
}

impl Settings {
    /// Settings with these numbers, which are tested; not strict. Where only some fields are to be other than the default's, change
    /// those there; the calls test them.
    ///
    /// ```
    /// use eml::{Refusal, Settings};
    ///
    /// assert!(Settings::new(100, 0.001, 1e-12, 709.0).is_ok());
    /// assert_eq!(Settings::new(0, 0.001, 1e-12, 709.0), Err(Refusal::Parameter));
    /// assert_eq!(Settings::new(20, 0.001, 0.001, 709.0), Err(Refusal::Parameter));
    /// assert_eq!(Settings::new(20, 0.001, 1e-12, 710.0), Err(Refusal::Parameter));
    /// let mut settings = Settings::new(20, 0.001, 1e-12, 700.0)?;
    /// assert!(!settings.strict);
    /// settings.strict = true;
    /// assert!(settings.test().is_ok());
    /// # Ok::<(), Refusal>(())
    /// ```
    ///
    /// # Errors
    ///
    /// 14.
    pub fn new(rounds: usize, equality: f64, slack: f64, clamp: f64) -> Result<Self, Refusal> {
        let settings = Self {
            rounds,
            equality,
            slack,
            clamp,
            strict: false,
        };
        settings.test()?;
        Ok(settings)
    }

    /// Tests the numbers, as every call does that receives them. Strict or not, the answer is the same.
    ///
    /// # Errors
    ///
    /// 14.
    pub fn test(&self) -> Result<(), Refusal> {
        calls::test_settings(*self)
    }
}

/// Document 01's numbers, not strict.
impl Default for Settings {
    // As `calls::usual_settings` has them, without a call of the library.
    fn default() -> Self {
        Self {
            rounds: 20,
            equality: 1e-8,
            slack: 1e-12,
            clamp: 709.0,
            strict: false,
        }
    }
}
