//! Records without a file.

use crate::calls::{self, DecidePlaces, EvalPlaces};
use crate::format::{CONSTRAINT_BYTES, NODE_BYTES};
use crate::interval::Ends;
use crate::{
    Constraint, Decision, DecisionError, Evaluation, Interval, IntervalDomain, Node, Point,
    Propagation, Refusal, Settings, Solution,
};

/// The records of nodes and constraints, as a house file has them, without the file. [`Builder`](crate::Builder) makes them.
///
/// Each call tests them in the file's order and refuses with 2 to 7 what the reader would refuse; its own refusals come after
/// these.
///
/// ```
/// use eml::{Constraint, Evaluation, Node, Records, Relation};
///
/// // Variable 0, and the constraint that it is above 0.
/// let above = Constraint::Atom { relation: Relation::GtZero, node: 0 };
/// let records = Records { nodes: &Node::Var(0).to_bytes(), constraints: &above.to_bytes() };
/// records.test()?;
/// assert_eq!(records.eval_real(0, &[0.5])?, Evaluation::Value(0.5));
/// assert!(records.check(&[0.5])?);
/// assert_eq!(records.residual(&[0.5])?, 0.0);
/// # Ok::<(), eml::Refusal>(())
/// ```
#[derive(Clone, Copy, Debug)]
pub struct Records<'a> {
    /// 16 bytes for each node.
    pub nodes: &'a [u8],
    /// 24 bytes for each constraint, in postorder.
    pub constraints: &'a [u8],
}

impl<'a> Records<'a> {
    /// Tests the records.
    ///
    /// # Errors
    ///
    /// 2 to 7.
    pub fn test(&self) -> Result<(), Refusal> {
        calls::read_records(*self)
    }

    /// How many variables the constraint has, at most 16: one more than the highest, a quantified one too.
    ///
    /// # Errors
    ///
    /// 2 to 7.
    pub fn num_vars(&self) -> Result<usize, Refusal> {
        let mut out = 0;
        calls::num_vars_records(*self, &mut out)?;
        Ok(out as usize)
    }

    /// The nodes, in order.
    ///
    /// ```
    /// use eml::{Node, Problem};
    ///
    /// let file = std::fs::read("../../examples/positive.emlq")?;
    /// let records = Problem::from_bytes(&file)?.records();
    /// assert!(records.read_nodes()?.eq([Node::Var(0)]));
    /// # Ok::<(), Box<dyn std::error::Error>>(())
    /// ```
    ///
    /// # Errors
    ///
    /// 2 to 7, of nodes and constraints.
    pub fn read_nodes(&self) -> Result<impl ExactSizeIterator<Item = Node> + 'a, Refusal> {
        self.test()?;
        let records = self.nodes.chunks_exact(NODE_BYTES);
        Ok(records.map(Node::of_tested))
    }

    /// The constraints, in order.
    ///
    /// ```
    /// use eml::{Constraint, Problem, Relation};
    ///
    /// let file = std::fs::read("../../examples/positive.emlq")?;
    /// let records = Problem::from_bytes(&file)?.records();
    /// let above = Constraint::Atom { relation: Relation::GtZero, node: 0 };
    /// assert!(records.read_constraints()?.eq([above]));
    /// # Ok::<(), Box<dyn std::error::Error>>(())
    /// ```
    ///
    /// # Errors
    ///
    /// 2 to 7, of nodes and constraints.
    pub fn read_constraints(
        &self,
    ) -> Result<impl ExactSizeIterator<Item = Constraint> + 'a, Refusal> {
        self.test()?;
        let records = self.constraints.chunks_exact(CONSTRAINT_BYTES);
        Ok(records.map(Constraint::of_kind))
    }

    /// A node's value at a point. Only the nodes are tested.
    ///
    /// # Errors
    ///
    /// 2 to 4; then 3 where there is no such node, and 9 for a point of over 16 values.
    pub fn eval_real(&self, node: usize, point: &[f64]) -> Result<Evaluation, Refusal> {
        self.eval_real_with(node, point, Settings::default())
    }

    /// [`eval_real`](Self::eval_real) under settings, of which it uses the clamp and [`strict`](Settings::strict).
    ///
    /// ```
    /// use eml::{Evaluation, Node, Records, Settings, maths};
    ///
    /// // exp(v0) - ln(1).
    /// let nodes = [Node::Var(0), Node::One, Node::Eml { left: 0, right: 1 }];
    /// let nodes = nodes.map(Node::to_bytes).concat();
    /// let records = Records { nodes: &nodes, constraints: &[] };
    /// let mut settings = Settings::default();
    /// settings.clamp = 2.0;
    /// let clamped = Evaluation::Value(maths::exp(2.0));
    /// assert_eq!(records.eval_real_with(2, &[3.0], settings)?, clamped);
    /// # Ok::<(), eml::Refusal>(())
    /// ```
    ///
    /// # Errors
    ///
    /// As there, with 14 before 9.
    pub fn eval_real_with(
        &self,
        node: usize,
        point: &[f64],
        settings: Settings,
    ) -> Result<Evaluation, Refusal> {
        let mut to = EvalPlaces::default();
        calls::eval_real(self.nodes, node, point, settings, &mut to)?;
        Ok(Evaluation::of(to))
    }

    /// Whether a point passes the check: one that is known from elsewhere, or one that was found for a constraint posed anew.
    ///
    /// ```
    /// use eml::Problem;
    ///
    /// // Variable 0 is above 0.
    /// let file = std::fs::read("../../examples/positive.emlq")?;
    /// let records = Problem::from_bytes(&file)?.records();
    /// assert!(records.check(&[0.5])?);
    /// assert!(!records.check(&[-0.5])?);
    /// # Ok::<(), Box<dyn std::error::Error>>(())
    /// ```
    ///
    /// # Errors
    ///
    /// 2 to 7; then 9 for a point of over 16 values.
    pub fn check(&self, point: &[f64]) -> Result<bool, Refusal> {
        self.check_with(point, Settings::default())
    }

    /// [`check`](Self::check) under settings, of which it uses all but the rounds. [`Settings`] has an example.
    ///
    /// # Errors
    ///
    /// As there, with 14 before 9.
    pub fn check_with(&self, point: &[f64], settings: Settings) -> Result<bool, Refusal> {
        let mut passes = false;
        calls::check(*self, point, settings, &mut passes)?;
        Ok(passes)
    }

    /// A second look at a conflict: the midpoint of the starting box, where it passes the check.
    ///
    /// Narrowing does not round outward, so a conflict is no proof that there is no point. A midpoint that passes shows that
    /// a conflict was a false one; `None` shows nothing. Where a point is known to be good, [`check`](Self::check) it instead.
    /// [`Stop::Conflict`](crate::Stop::Conflict) shows how to solve again without a conflict.
    ///
    /// ```
    /// use eml::{Builder, Stop};
    ///
    /// // Variable 0 is above 0.25, in [0.5,3.5].
    /// let (mut nodes, mut constraints) = ([0; 16 * 9], [0; 24]);
    /// let mut builder = Builder::new(&mut nodes, &mut constraints);
    /// let (x, quarter) = (builder.var(0)?, builder.constant(0.25)?);
    /// builder.gt(x, quarter)?;
    /// builder.bound(0.5, 3.5)?;
    /// let (records, bounds) = (builder.records()?, builder.bounds());
    /// assert_eq!(records.solve(bounds, 10_000, 1e-8)?.stop, Stop::Conflict);
    /// let found = records.check_midpoint(bounds)?.expect("2 is above 0.25");
    /// assert_eq!(*found, [2.0]);
    /// # Ok::<(), eml::Refusal>(())
    /// ```
    ///
    /// # Errors
    ///
    /// 2 to 7; then 9 for over 16 bounds, or an unsound one.
    pub fn check_midpoint(&self, bounds: &[Interval]) -> Result<Option<Point>, Refusal> {
        self.check_midpoint_with(bounds, Settings::default())
    }

    /// [`check_midpoint`](Self::check_midpoint) by [`check_with`](Self::check_with).
    ///
    /// # Errors
    ///
    /// As there, with 14 before 9.
    pub fn check_midpoint_with(
        &self,
        bounds: &[Interval],
        settings: Settings,
    ) -> Result<Option<Point>, Refusal> {
        let num_vars = self.num_vars()?;
        settings.test()?;
        let domain = IntervalDomain::new(bounds, num_vars)?;
        let midpoint = domain.vars.map(Interval::midpoint);
        Ok(self.check_with(&midpoint, settings)?.then_some(midpoint))
    }

    /// A point's residual: how far it is from meeting the constraint. The solver keeps the lower half of a box only where the
    /// residual of its middle is the smaller one.
    ///
    /// ```
    /// use eml::Problem;
    ///
    /// // Variable 0 is above 0.
    /// let file = std::fs::read("../../examples/positive.emlq")?;
    /// let records = Problem::from_bytes(&file)?.records();
    /// assert_eq!(records.residual(&[0.5])?, 0.0);
    /// assert_eq!(records.residual(&[-0.5])?, 0.5);
    /// # Ok::<(), Box<dyn std::error::Error>>(())
    /// ```
    ///
    /// # Errors
    ///
    /// 2 to 7; then 9 for a point of over 16 values.
    pub fn residual(&self, point: &[f64]) -> Result<f64, Refusal> {
        self.residual_with(point, Settings::default())
    }

    /// [`residual`](Self::residual) under settings, of which it uses the clamp and [`strict`](Settings::strict).
    ///
    /// # Errors
    ///
    /// As there, with 14 before 9.
    pub fn residual_with(&self, point: &[f64], settings: Settings) -> Result<f64, Refusal> {
        let mut out = 0.0;
        calls::residual(*self, point, settings, &mut out)?;
        Ok(out)
    }

    /// Writes the records of the normal form, 24 bytes each, to the front of `out`: their number. The normal form has the same nodes,
    /// and its constraint has no Not; 24 bytes for each record of this constraint are room enough.
    ///
    /// Narrowing goes by what is inside a Not, so a constraint that has one is best solved in its normal form. The check differs
    /// in its slack, and where a value is an error: [`check`](Self::check) what is found on the constraint itself.
    ///
    /// ```
    /// use eml::{Constraint, Node, Records, Relation};
    ///
    /// // Variable 0 is not above 0: it is at most 0.
    /// let above = Constraint::Atom { relation: Relation::GtZero, node: 0 };
    /// let constraints = [above, Constraint::Not].map(Constraint::to_bytes).concat();
    /// let records = Records { nodes: &Node::Var(0).to_bytes(), constraints: &constraints };
    /// let mut out = [0; 24 * 2];
    /// let written = records.to_nnf(&mut out)?;
    /// let normal = Records { constraints: &out[..24 * written], ..records };
    /// let at_most = Constraint::Atom { relation: Relation::LeZero, node: 0 };
    /// assert!(normal.read_constraints()?.eq([at_most]));
    /// # Ok::<(), eml::Refusal>(())
    /// ```
    ///
    /// # Errors
    ///
    /// 2 to 7; then 10 where they do not fit.
    pub fn to_nnf(&self, out: &mut [u8]) -> Result<usize, Refusal> {
        let mut written = 0;
        calls::to_nnf(*self, out, &mut written)?;
        Ok(written)
    }

    /// Narrows the caller's own list of intervals, one for each variable; one beyond the list is [-10,10].
    ///
    /// ```
    /// use eml::{Constraint, Interval, Node, Propagation, Records, Relation};
    ///
    /// // Variable 0 equals 0.
    /// let equal = Constraint::Atom { relation: Relation::EqZero, node: 0 };
    /// let records = Records { nodes: &Node::Var(0).to_bytes(), constraints: &equal.to_bytes() };
    /// let mut boxes = [Interval::new(-1.0, 2.0)];
    /// assert_eq!(records.propagate(&mut boxes)?, Propagation::Changed);
    /// assert_eq!(boxes, [Interval::point(0.0)]);
    /// # Ok::<(), eml::Refusal>(())
    /// ```
    ///
    /// # Errors
    ///
    /// 2 to 7; then 9 for over 16 intervals, or an unsound one.
    pub fn propagate(&self, boxes: &mut [Interval]) -> Result<Propagation, Refusal> {
        self.propagate_with(boxes, Settings::default())
    }

    /// [`propagate`](Self::propagate) under settings, of which it uses the rounds and the slack.
    ///
    /// ```
    /// use eml::{Constraint, Interval, Node, Propagation, Records, Relation, Settings};
    ///
    /// // Variable 0 is at least 0; no end is moved by a thousandth or less.
    /// let least = Constraint::Atom { relation: Relation::GeZero, node: 0 };
    /// let records = Records { nodes: &Node::Var(0).to_bytes(), constraints: &least.to_bytes() };
    /// let settings = Settings::new(20, 0.01, 0.001, 709.0)?;
    /// let mut boxes = [Interval::new(-0.0005, 1.0)];
    /// assert_eq!(records.propagate_with(&mut boxes, settings)?, Propagation::Stable);
    /// assert_eq!(records.propagate(&mut boxes)?, Propagation::Changed);
    /// # Ok::<(), eml::Refusal>(())
    /// ```
    ///
    /// # Errors
    ///
    /// As there, with 14 before 9.
    pub fn propagate_with(
        &self,
        boxes: &mut [Interval],
        settings: Settings,
    ) -> Result<Propagation, Refusal> {
        Propagation::written(|answer| calls::propagate_intervals(*self, settings, boxes, answer))
    }

    /// [`propagate`](Self::propagate) on two lists of ends.
    ///
    /// ```
    /// use eml::{Problem, Propagation};
    ///
    /// // Variable 0 is above 0.
    /// let file = std::fs::read("../../examples/positive.emlq")?;
    /// let records = Problem::from_bytes(&file)?.records();
    /// let (mut lo, mut hi) = ([1.0], [3.0]);
    /// assert_eq!(records.propagate_ends(&mut lo, &mut hi)?, Propagation::Stable);
    /// (lo, hi) = ([-3.0], [-1.0]);
    /// assert_eq!(records.propagate_ends(&mut lo, &mut hi)?, Propagation::Conflict);
    /// # Ok::<(), Box<dyn std::error::Error>>(())
    /// ```
    ///
    /// # Errors
    ///
    /// As there; and 9 for lists of different lengths.
    pub fn propagate_ends(&self, lo: &mut [f64], hi: &mut [f64]) -> Result<Propagation, Refusal> {
        self.propagate_ends_with(lo, hi, Settings::default())
    }

    /// [`propagate_with`](Self::propagate_with) on two lists of ends.
    ///
    /// # Errors
    ///
    /// As [`propagate_ends`](Self::propagate_ends), with 14 before 9.
    pub fn propagate_ends_with(
        &self,
        lo: &mut [f64],
        hi: &mut [f64],
        settings: Settings,
    ) -> Result<Propagation, Refusal> {
        Propagation::written(|answer| calls::propagate(*self, settings, lo, hi, answer))
    }

    /// Solves in the box of the bounds; a missing one is [-10,10], a surplus one unused. `limit` is the most halvings, and a box
    /// is narrow below `tolerance`.
    ///
    /// ```
    /// use eml::{Interval, Problem, Stop};
    ///
    /// // Variable 0 is above 0, in boxes of the caller's own.
    /// let file = std::fs::read("../../examples/positive.emlq")?;
    /// let records = Problem::from_bytes(&file)?.records();
    /// let solution = records.solve(&[Interval::new(-1.0, 4.0)], 10_000, 1e-8)?;
    /// assert!(solution.assignment().is_some_and(|point| point[0] > 0.0));
    /// let solution = records.solve(&[Interval::new(-3.0, -1.0)], 10_000, 1e-8)?;
    /// assert_eq!(solution.stop, Stop::Conflict);
    /// # Ok::<(), Box<dyn std::error::Error>>(())
    /// ```
    ///
    /// # Errors
    ///
    /// 2 to 7; then 8, and 9 for over 16 bounds, or an unsound one.
    pub fn solve(
        &self,
        bounds: &[Interval],
        limit: usize,
        tolerance: f64,
    ) -> Result<Solution, Refusal> {
        self.solve_with(bounds, limit, tolerance, Settings::default())
    }

    /// [`solve`](Self::solve) under settings. [`Settings`] has an example.
    ///
    /// # Errors
    ///
    /// As there, with 14 before 8.
    pub fn solve_with(
        &self,
        bounds: &[Interval],
        limit: usize,
        tolerance: f64,
        settings: Settings,
    ) -> Result<Solution, Refusal> {
        let bounds = Ends::of(bounds);
        let (lo, hi) = (bounds.lo(), bounds.hi());
        Solution::written(|to| calls::solve(*self, lo, hi, limit, tolerance, settings, to))
    }

    /// Whether the constraint holds for every value of variable `var` in `range`: True where propagation of its negation meets a
    /// conflict, else by five samples in order (the lower end, the upper end, the middle, and a tenth from either end), which have
    /// the constraint's other variables at 0.
    ///
    /// ```
    /// use eml::{Constraint, Decision, DecisionError, Interval, Node, Records, Relation};
    ///
    /// // Variable 0 is above 0: not in all of [-1,1], for -1 is the first sample.
    /// let above = Constraint::Atom { relation: Relation::GtZero, node: 0 };
    /// let records = Records { nodes: &Node::Var(0).to_bytes(), constraints: &above.to_bytes() };
    /// let around = Interval::new(-1.0, 1.0);
    /// let Decision::FalseWithCounterexample(point) = records.decide_forall(0, around)? else {
    ///     panic!("-1 is not above 0");
    /// };
    /// assert_eq!(*point, [-1.0]);
    /// assert_eq!(records.decide_forall(0, Interval::new(1.0, 2.0))?, Decision::True);
    /// let beyond = DecisionError::NoSuchVariable { var: 1, num_vars: 1 };
    /// assert_eq!(records.decide_forall(1, around), Err(beyond));
    /// # Ok::<(), DecisionError>(())
    /// ```
    ///
    /// # Errors
    ///
    /// 2 to 7; then [`NoSuchVariable`](DecisionError::NoSuchVariable) where the constraint has no variable `var`, and 9 for an
    /// unsound range.
    pub fn decide_forall(&self, var: usize, range: Interval) -> Result<Decision, DecisionError> {
        self.decide_forall_with(var, range, Settings::default())
    }

    /// [`decide_forall`](Self::decide_forall) under settings.
    ///
    /// # Errors
    ///
    /// As there, with 14 before [`NoSuchVariable`](DecisionError::NoSuchVariable).
    pub fn decide_forall_with(
        &self,
        var: usize,
        range: Interval,
        settings: Settings,
    ) -> Result<Decision, DecisionError> {
        self.decided(var, settings, |num_vars, to| {
            calls::decide_forall(*self, var, range, num_vars, settings, to)
        })
    }

    /// Whether it holds for some value: by five samples in order (the middle, the lower end, the upper end, and a quarter from
    /// either end), which have the constraint's other variables at 0.
    ///
    /// ```
    /// use eml::{Decision, Interval, Problem};
    ///
    /// // Variable 0 is above 0: somewhere in [-1,1], since 1 is.
    /// let file = std::fs::read("../../examples/positive.emlq")?;
    /// let records = Problem::from_bytes(&file)?.records();
    /// let Decision::TrueWithWitness(point) = records.decide_exists(0, Interval::new(-1.0, 1.0))? else {
    ///     panic!("1 is above 0");
    /// };
    /// assert_eq!(*point, [1.0]);
    /// # Ok::<(), Box<dyn std::error::Error>>(())
    /// ```
    ///
    /// # Errors
    ///
    /// As [`decide_forall`](Self::decide_forall).
    pub fn decide_exists(&self, var: usize, range: Interval) -> Result<Decision, DecisionError> {
        self.decide_exists_with(var, range, Settings::default())
    }

    /// [`decide_exists`](Self::decide_exists) under settings, of which it uses all but the rounds.
    ///
    /// # Errors
    ///
    /// As [`decide_forall_with`](Self::decide_forall_with).
    pub fn decide_exists_with(
        &self,
        var: usize,
        range: Interval,
        settings: Settings,
    ) -> Result<Decision, DecisionError> {
        self.decided(var, settings, |num_vars, to| {
            calls::decide_exists(*self, var, range, num_vars, settings, to)
        })
    }

    /// A decision by a call that is given the number of variables, `var` being one of them. The settings are tested before that,
    /// as before all else that a caller gives beside the records.
    fn decided(
        &self,
        var: usize,
        settings: Settings,
        call: impl FnOnce(usize, &mut DecidePlaces<'_>) -> Result<(), Refusal>,
    ) -> Result<Decision, DecisionError> {
        let num_vars = self.num_vars()?;
        settings.test()?;
        if num_vars <= var {
            return Err(DecisionError::NoSuchVariable { var, num_vars });
        }
        Ok(Decision::written(|to| call(num_vars, to))?)
    }
}
