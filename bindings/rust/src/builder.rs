//! Posing a problem without counting bytes.

use crate::format::{CONSTRAINT_BYTES, MOST_CONSTRAINTS, MOST_NODES, MOST_VALUES, NODE_BYTES};
use crate::{
    Bounds, Constraint, Interval, IntervalDomain, List, Node, Record, Records, Refusal, Relation,
    calls, canonical,
};
use core::mem;

/// A node of a [`Builder`], to be named as an operand there. In another builder it names another node, or none.
#[derive(Clone, Copy, Debug, PartialEq, Eq, Hash)]
pub struct NodeId(u32);

impl NodeId {
    /// The node's number in the list.
    #[must_use]
    pub fn number(self) -> usize {
        self.0 as usize
    }
}

/// A list of records in lent bytes; the places after the first `count` are free.
#[derive(Debug)]
struct Lent<'a, const SIZE: usize, const MOST: usize> {
    bytes: &'a mut [u8],
    count: usize,
}

impl<const SIZE: usize, const MOST: usize> Lent<'_, SIZE, MOST> {
    fn used(&self) -> &[u8] {
        &self.bytes[..SIZE * self.count]
    }

    /// The free places; none in a list that holds the most.
    fn free(&mut self) -> &mut [u8] {
        let used = SIZE * self.count;
        let most = self.bytes.len().min(SIZE * MOST);
        &mut self.bytes[used..most]
    }

    /// The first free place; 10 where there is none.
    fn place(&mut self) -> Result<&mut [u8; SIZE], Refusal> {
        self.free().first_chunk_mut().ok_or(Refusal::TooShort)
    }

    /// Appends a record, and takes it back where `test` refuses the list with it.
    fn append(
        &mut self,
        record: [u8; SIZE],
        test: impl FnOnce(&[u8]) -> Result<(), Refusal>,
    ) -> Result<(), Refusal> {
        let before = mem::replace(self.place()?, record);
        self.count += 1;
        let tested = test(self.used());
        if tested.is_err() {
            self.count -= 1;
            *self.place()? = before;
        }
        tested
    }
}

/// Builds nodes, constraints and bounds in lent bytes, and counts them.
///
/// A node is built from [`one`](Self::one), [`var`](Self::var), [`constant`](Self::constant), [`eml`](Self::eml),
/// [`ln`](Self::ln) and [`sub`](Self::sub). Constraints are built in postorder: first what is taken, then what takes it. Every
/// part is tested by the proved library as it is added. A refusal has document 01's number and adds nothing.
///
/// What adds one record is tested in its place, so that 10, where there is none, comes before the other refusals. `ln`, `sub`
/// and the comparisons [`lt`](Self::lt), [`le`](Self::le), [`gt`](Self::gt) and [`ge`](Self::ge) are one call of the library
/// each and have its order: 3 and 4, then 10.
///
/// ```
/// use eml::Builder;
/// use eml::format::{CONSTRAINT_BYTES, MOST_CONSTRAINTS, MOST_NODES, NODE_BYTES};
///
/// // Variable 0 is below 1, in [0.5,4.5]. There is room for the most that a problem may have.
/// let mut nodes = [0; NODE_BYTES * MOST_NODES];
/// let mut constraints = [0; CONSTRAINT_BYTES * MOST_CONSTRAINTS];
/// let mut builder = Builder::new(&mut nodes, &mut constraints);
/// let (x, one) = (builder.var(0)?, builder.one()?);
/// builder.lt(x, one)?;
/// builder.bound(0.5, 4.5)?;
/// let solution = builder.records()?.solve(builder.bounds(), 10_000, 1e-8)?;
/// assert!(solution.assignment().is_some_and(|point| point[0] < 1.0));
/// # Ok::<(), eml::Refusal>(())
/// ```
#[derive(Debug)]
pub struct Builder<'a> {
    nodes: Lent<'a, NODE_BYTES, MOST_NODES>,
    constraints: Lent<'a, CONSTRAINT_BYTES, MOST_CONSTRAINTS>,
    bounds: Bounds,
}

/// How [`calls::lt`] and the others are called.
type Compare = fn(&mut [u8], usize, usize, usize, &mut [u8]) -> Result<(), Refusal>;

impl<'a> Builder<'a> {
    /// Nothing yet, in places of 16 bytes for each node and 24 for each record of a constraint. What they hold does not matter.
    #[must_use]
    pub fn new(nodes: &'a mut [u8], constraints: &'a mut [u8]) -> Self {
        let none = [Interval { lo: 0.0, hi: 0.0 }; MOST_VALUES];
        Self {
            nodes: Lent {
                bytes: nodes,
                count: 0,
            },
            constraints: Lent {
                bytes: constraints,
                count: 0,
            },
            bounds: List::new(none, 0),
        }
    }

    /// Appends a node, unless the library refuses the list with it.
    fn node(&mut self, node: Node) -> Result<NodeId, Refusal> {
        // The library tests nodes together with constraints; a conjunction of nothing is one that it takes.
        let constraints = &Constraint::And(0).to_bytes();
        self.nodes.append(node.to_bytes(), |nodes| {
            Records { nodes, constraints }.test()
        })?;
        Ok(self.last_node())
    }

    fn last_node(&self) -> NodeId {
        NodeId(self.nodes.count as u32 - 1)
    }

    /// Appends a constraint's record, unless the library refuses the constraint that it ends.
    fn record(&mut self, record: Record) -> Result<(), Refusal> {
        let nodes = self.nodes.used();
        self.constraints.append(record, |list| {
            let constraints = last_finished(list);
            Records { nodes, constraints }.test()
        })
    }

    /// The number 1.
    ///
    /// ```
    /// # let (mut nodes, mut constraints) = ([0; 16 * 32], [0; 24 * 8]);
    /// # let mut builder = eml::Builder::new(&mut nodes, &mut constraints);
    /// let one = builder.one()?;
    /// assert_eq!(one.number(), 0);
    /// # Ok::<(), eml::Refusal>(())
    /// ```
    ///
    /// # Errors
    ///
    /// 10 where there is no place for a node, as each of these that append nodes.
    pub fn one(&mut self) -> Result<NodeId, Refusal> {
        self.node(Node::One)
    }

    /// The variable `var`.
    ///
    /// ```
    /// # let (mut nodes, mut constraints) = ([0; 16 * 32], [0; 24 * 8]);
    /// # let mut builder = eml::Builder::new(&mut nodes, &mut constraints);
    /// builder.var(15)?;
    /// assert_eq!(builder.var(16), Err(eml::Refusal::Node));
    /// # Ok::<(), eml::Refusal>(())
    /// ```
    ///
    /// # Errors
    ///
    /// 3 for a variable over 15; 10.
    pub fn var(&mut self, var: u32) -> Result<NodeId, Refusal> {
        self.node(Node::Var(var))
    }

    /// The number `value`.
    ///
    /// ```
    /// # let (mut nodes, mut constraints) = ([0; 16 * 32], [0; 24 * 8]);
    /// # let mut builder = eml::Builder::new(&mut nodes, &mut constraints);
    /// builder.constant(0.25)?;
    /// assert_eq!(builder.constant(f64::NAN), Err(eml::Refusal::Node));
    /// # Ok::<(), eml::Refusal>(())
    /// ```
    ///
    /// # Errors
    ///
    /// 3 for a number that is not finite; 10.
    pub fn constant(&mut self, value: f64) -> Result<NodeId, Refusal> {
        self.node(Node::Const(value))
    }

    /// exp(`left`) - ln(`right`).
    ///
    /// ```
    /// # let (mut nodes, mut constraints) = ([0; 16 * 32], [0; 24 * 8]);
    /// # let mut builder = eml::Builder::new(&mut nodes, &mut constraints);
    /// let (x, one) = (builder.var(0)?, builder.one()?);
    /// let exp = builder.eml(x, one)?;
    /// builder.atom(eml::Relation::GtZero, exp)?;
    /// let value = builder.records()?.eval_real(exp.number(), &[0.0])?;
    /// assert_eq!(value.value(), Some(1.0));
    /// # Ok::<(), eml::Refusal>(())
    /// ```
    ///
    /// # Errors
    ///
    /// 3 for an operand that names no node; 4 for the result's size or depth; 10.
    pub fn eml(&mut self, left: NodeId, right: NodeId) -> Result<NodeId, Refusal> {
        let (left, right) = (left.0, right.0);
        self.node(Node::Eml { left, right })
    }

    /// ln(`x`), in four nodes, by [`canonical::ln`].
    ///
    /// ```
    /// # let (mut nodes, mut constraints) = ([0; 16 * 32], [0; 24 * 8]);
    /// # let mut builder = eml::Builder::new(&mut nodes, &mut constraints);
    /// let x = builder.var(0)?;
    /// let ln = builder.ln(x)?;
    /// assert_eq!(ln.number(), 4);
    /// # Ok::<(), eml::Refusal>(())
    /// ```
    ///
    /// # Errors
    ///
    /// As [`eml`](Self::eml).
    pub fn ln(&mut self, x: NodeId) -> Result<NodeId, Refusal> {
        let last = canonical::ln(self.nodes.bytes, self.nodes.count, x.number())?;
        self.nodes.count = last + 1;
        Ok(self.last_node())
    }

    /// `x` - `y`, in seven nodes, by [`canonical::sub`].
    ///
    /// ```
    /// # let (mut nodes, mut constraints) = ([0; 16 * 32], [0; 24 * 8]);
    /// # let mut builder = eml::Builder::new(&mut nodes, &mut constraints);
    /// let (x, y) = (builder.var(0)?, builder.var(1)?);
    /// let difference = builder.sub(x, y)?;
    /// assert_eq!(difference.number(), 8);
    /// # Ok::<(), eml::Refusal>(())
    /// ```
    ///
    /// # Errors
    ///
    /// As [`eml`](Self::eml).
    pub fn sub(&mut self, x: NodeId, y: NodeId) -> Result<NodeId, Refusal> {
        let last = canonical::sub(self.nodes.bytes, self.nodes.count, x.number(), y.number())?;
        self.nodes.count = last + 1;
        Ok(self.last_node())
    }

    /// Appends the nodes and the atom of a comparison.
    fn compare(&mut self, call: Compare, x: NodeId, y: NodeId) -> Result<(), Refusal> {
        let (nodes, count) = (&mut *self.nodes.bytes, self.nodes.count);
        call(
            nodes,
            count,
            x.number(),
            y.number(),
            self.constraints.free(),
        )?;
        self.nodes.count += canonical::SUB_NODES;
        self.constraints.count += 1;
        Ok(())
    }

    /// `x` < `y`, by [`lt`](crate::lt): the nodes of the difference, and the atom on it.
    ///
    /// ```
    /// # let (mut nodes, mut constraints) = ([0; 16 * 32], [0; 24 * 8]);
    /// # let mut builder = eml::Builder::new(&mut nodes, &mut constraints);
    /// let (x, y) = (builder.var(0)?, builder.var(1)?);
    /// builder.lt(x, y)?;
    /// assert!(builder.records()?.check(&[1.0, 2.0])?);
    /// # Ok::<(), eml::Refusal>(())
    /// ```
    ///
    /// # Errors
    ///
    /// As [`eml`](Self::eml); 10 also where there is no place for a constraint.
    pub fn lt(&mut self, x: NodeId, y: NodeId) -> Result<(), Refusal> {
        self.compare(calls::lt, x, y)
    }

    /// `x` <= `y`, by [`le`](crate::le): the nodes of the difference, and the atom on it.
    ///
    /// ```
    /// # let (mut nodes, mut constraints) = ([0; 16 * 32], [0; 24 * 8]);
    /// # let mut builder = eml::Builder::new(&mut nodes, &mut constraints);
    /// let (x, y) = (builder.var(0)?, builder.var(1)?);
    /// builder.le(x, y)?;
    /// assert!(builder.records()?.check(&[1.0, 2.0])?);
    /// # Ok::<(), eml::Refusal>(())
    /// ```
    ///
    /// # Errors
    ///
    /// As [`eml`](Self::eml); 10 also where there is no place for a constraint.
    pub fn le(&mut self, x: NodeId, y: NodeId) -> Result<(), Refusal> {
        self.compare(calls::le, x, y)
    }

    /// `x` > `y`, by [`gt`](crate::gt): the nodes of the difference, and the atom on it.
    ///
    /// ```
    /// # let (mut nodes, mut constraints) = ([0; 16 * 32], [0; 24 * 8]);
    /// # let mut builder = eml::Builder::new(&mut nodes, &mut constraints);
    /// let (x, y) = (builder.var(0)?, builder.var(1)?);
    /// builder.gt(x, y)?;
    /// assert!(builder.records()?.check(&[2.0, 1.0])?);
    /// # Ok::<(), eml::Refusal>(())
    /// ```
    ///
    /// # Errors
    ///
    /// As [`eml`](Self::eml); 10 also where there is no place for a constraint.
    pub fn gt(&mut self, x: NodeId, y: NodeId) -> Result<(), Refusal> {
        self.compare(calls::gt, x, y)
    }

    /// `x` >= `y`, by [`ge`](crate::ge): the nodes of the difference, and the atom on it.
    ///
    /// ```
    /// # let (mut nodes, mut constraints) = ([0; 16 * 32], [0; 24 * 8]);
    /// # let mut builder = eml::Builder::new(&mut nodes, &mut constraints);
    /// let (x, y) = (builder.var(0)?, builder.var(1)?);
    /// builder.ge(x, y)?;
    /// assert!(builder.records()?.check(&[2.0, 1.0])?);
    /// # Ok::<(), eml::Refusal>(())
    /// ```
    ///
    /// # Errors
    ///
    /// As [`eml`](Self::eml); 10 also where there is no place for a constraint.
    pub fn ge(&mut self, x: NodeId, y: NodeId) -> Result<(), Refusal> {
        self.compare(calls::ge, x, y)
    }

    /// A relation of a node's value.
    ///
    /// ```
    /// # let (mut nodes, mut constraints) = ([0; 16 * 32], [0; 24 * 8]);
    /// # let mut builder = eml::Builder::new(&mut nodes, &mut constraints);
    /// let x = builder.var(0)?;
    /// builder.atom(eml::Relation::NeZero, x)?;
    /// assert!(builder.records()?.check(&[2.0])?);
    /// # Ok::<(), eml::Refusal>(())
    /// ```
    ///
    /// # Errors
    ///
    /// 5 for a node that is not there; 10 where there is no place for a constraint, as each of these that append one.
    pub fn atom(&mut self, relation: Relation, node: NodeId) -> Result<(), Refusal> {
        let node = node.0;
        self.record(Constraint::Atom { relation, node }.to_bytes())
    }

    /// The last finished constraint does not hold.
    ///
    /// ```
    /// # let (mut nodes, mut constraints) = ([0; 16 * 32], [0; 24 * 8]);
    /// # let mut builder = eml::Builder::new(&mut nodes, &mut constraints);
    /// let x = builder.var(0)?;
    /// builder.atom(eml::Relation::GtZero, x)?;
    /// builder.not()?;
    /// assert!(builder.records()?.check(&[-2.0])?);
    /// # Ok::<(), eml::Refusal>(())
    /// ```
    ///
    /// # Errors
    ///
    /// 5 where none is finished; 7 for a depth over 16; 10.
    pub fn not(&mut self) -> Result<(), Refusal> {
        self.record(Constraint::Not.to_bytes())
    }

    /// Each of the last `n` finished constraints holds; of none, always.
    ///
    /// ```
    /// # let (mut nodes, mut constraints) = ([0; 16 * 32], [0; 24 * 8]);
    /// # let mut builder = eml::Builder::new(&mut nodes, &mut constraints);
    /// let (x, two) = (builder.var(0)?, builder.constant(2.0)?);
    /// builder.gt(x, two)?;
    /// builder.atom(eml::Relation::GtZero, x)?;
    /// builder.and(2)?;
    /// assert!(builder.records()?.check(&[3.0])?);
    /// assert_eq!(builder.and(2), Err(eml::Refusal::Constraint)); // one is left
    /// # Ok::<(), eml::Refusal>(())
    /// ```
    ///
    /// # Errors
    ///
    /// 5 where fewer are finished; 7 for a depth over 16; 10.
    pub fn and(&mut self, n: u32) -> Result<(), Refusal> {
        self.record(Constraint::And(n).to_bytes())
    }

    /// One of the last `n` finished constraints holds; of none, never.
    ///
    /// ```
    /// # let (mut nodes, mut constraints) = ([0; 16 * 32], [0; 24 * 8]);
    /// # let mut builder = eml::Builder::new(&mut nodes, &mut constraints);
    /// let x = builder.var(0)?;
    /// builder.atom(eml::Relation::LtZero, x)?;
    /// builder.atom(eml::Relation::GtZero, x)?;
    /// builder.or(2)?;
    /// assert!(!builder.records()?.check(&[0.0])?);
    /// # Ok::<(), eml::Refusal>(())
    /// ```
    ///
    /// # Errors
    ///
    /// As [`and`](Self::and).
    pub fn or(&mut self, n: u32) -> Result<(), Refusal> {
        self.record(Constraint::Or(n).to_bytes())
    }

    /// The last finished constraint holds with the variable `var` at the lower end, the middle and the upper end of `range`.
    ///
    /// ```
    /// # let (mut nodes, mut constraints) = ([0; 16 * 32], [0; 24 * 8]);
    /// # let mut builder = eml::Builder::new(&mut nodes, &mut constraints);
    /// let x = builder.var(0)?;
    /// builder.atom(eml::Relation::GtZero, x)?;
    /// builder.forall(0, (1.0, 3.0))?;
    /// assert!(builder.records()?.check(&[0.0])?);
    /// assert_eq!(builder.forall(0, (3.0, 1.0)), Err(eml::Refusal::Range));
    /// # Ok::<(), eml::Refusal>(())
    /// ```
    ///
    /// # Errors
    ///
    /// 5 where none is finished, or for a variable over 15; 6 for an unsound range; 7 for a depth over 16, or over 4 quantifiers on
    /// a path; 10.
    pub fn forall(&mut self, var: u32, range: impl Into<Interval>) -> Result<(), Refusal> {
        let range = range.into();
        self.record(Constraint::ForAll { var, range }.to_bytes())
    }

    /// The last finished constraint holds with the variable `var` at the lower end, the middle or the upper end of `range`.
    ///
    /// ```
    /// # let (mut nodes, mut constraints) = ([0; 16 * 32], [0; 24 * 8]);
    /// # let mut builder = eml::Builder::new(&mut nodes, &mut constraints);
    /// let x = builder.var(0)?;
    /// builder.atom(eml::Relation::GtZero, x)?;
    /// builder.exists(0, (-1.0, 1.0))?;
    /// assert!(builder.records()?.check(&[0.0])?);
    /// # Ok::<(), eml::Refusal>(())
    /// ```
    ///
    /// # Errors
    ///
    /// As [`forall`](Self::forall).
    pub fn exists(&mut self, var: u32, range: impl Into<Interval>) -> Result<(), Refusal> {
        let range = range.into();
        self.record(Constraint::Exists { var, range }.to_bytes())
    }

    /// The bound of the next variable: the first is variable 0's. A variable without one has [-10,10].
    ///
    /// ```
    /// # let (mut nodes, mut constraints) = ([0; 16 * 32], [0; 24 * 8]);
    /// # let mut builder = eml::Builder::new(&mut nodes, &mut constraints);
    /// builder.bound(1.0, 3.0)?;
    /// builder.bound(0.0, 0.5)?;
    /// assert_eq!(builder.bounds()[1], eml::Interval::new(0.0, 0.5));
    /// assert_eq!(builder.bound(3.0, 1.0), Err(eml::Refusal::Boxes));
    /// # Ok::<(), eml::Refusal>(())
    /// ```
    ///
    /// # Errors
    ///
    /// 9 for unsound ends, or where there are 16 bounds.
    pub fn bound(&mut self, lo: f64, hi: f64) -> Result<(), Refusal> {
        let bound = Interval { lo, hi };
        IntervalDomain::new(&[bound], 1)?;
        self.bounds.push(bound).ok_or(Refusal::Boxes)
    }

    /// The nodes and constraints, tested.
    ///
    /// ```
    /// # let (mut nodes, mut constraints) = ([0; 16 * 32], [0; 24 * 8]);
    /// # let mut builder = eml::Builder::new(&mut nodes, &mut constraints);
    /// let x = builder.var(0)?;
    /// builder.atom(eml::Relation::GtZero, x)?;
    /// builder.atom(eml::Relation::NeZero, x)?;
    /// assert_eq!(builder.records().unwrap_err(), eml::Refusal::Nesting); // two are left
    /// builder.and(2)?;
    /// assert_eq!(builder.records()?.num_vars()?, 1);
    /// # Ok::<(), eml::Refusal>(())
    /// ```
    ///
    /// # Errors
    ///
    /// 7 unless just one constraint is left: the others were taken.
    pub fn records(&self) -> Result<Records<'_>, Refusal> {
        let records = Records {
            nodes: self.nodes.used(),
            constraints: self.constraints.used(),
        };
        records.test()?;
        Ok(records)
    }

    /// The bounds, in the order of the variables.
    #[must_use]
    pub fn bounds(&self) -> &[Interval] {
        &self.bounds
    }
}

/// The records of the last finished constraint of a list: its own, and before it those that it takes. Where it takes more than
/// there are, all of them.
fn last_finished(constraints: &[u8]) -> &[u8] {
    let mut wanted = 1;
    let mut from = constraints.len();
    for record in constraints.rchunks_exact(CONSTRAINT_BYTES) {
        from -= CONSTRAINT_BYTES;
        wanted += u64::from(Constraint::of_kind(record).taken());
        wanted -= 1;
        if wanted == 0 {
            break;
        }
    }
    &constraints[from..]
}
