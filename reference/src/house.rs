//! The house file: a reader of its own, written from document 01 ("The file" and "Refused"), and a writer.

use crate::smt::constraint::EmlConstraint;
use crate::tree::EmlTree;
use std::sync::Arc;

pub const MAX_NODES: usize = 1024;
pub const MAX_CONSTRAINTS: usize = 256;
pub const MAX_BOUNDS: usize = 16;
/// Variables have the numbers 0 to 15.
pub const MAX_VARIABLES: usize = 16;
pub const MAX_SIZE: usize = 4096;
pub const MAX_DEPTH: usize = 128;
pub const MAX_LEVELS: usize = 16;
pub const MAX_QUANTIFIERS: usize = 4;
/// 2^1022, the largest magnitude of an end of a sound range.
pub const LARGEST_END: f64 = f64::from_bits(0x7FD0_0000_0000_0000);

pub const HEADER: usize = 32;
pub const NODE: usize = 16;
pub const CONSTRAINT: usize = 24;
pub const BOUND: usize = 16;

/// The kinds of a constraint record.
pub mod kind {
    pub const EQ_ZERO: u8 = 0;
    pub const GT_ZERO: u8 = 1;
    pub const GE_ZERO: u8 = 2;
    pub const LT_ZERO: u8 = 3;
    pub const LE_ZERO: u8 = 4;
    pub const NE_ZERO: u8 = 5;
    pub const NOT: u8 = 6;
    pub const AND: u8 = 7;
    pub const OR: u8 = 8;
    pub const FOR_ALL: u8 = 9;
    pub const EXISTS: u8 = 10;
}

/// A node record.
#[derive(Clone, Copy, Debug, PartialEq)]
pub enum Node {
    One,
    Const(f64),
    Var(u32),
    Eml(u32, u32),
}

/// A constraint record. Outside the quantifiers both ends are +0, whose bytes are zero.
#[derive(Clone, Copy, Debug, PartialEq)]
pub struct Record {
    pub kind: u8,
    pub argument: u32,
    pub lo: f64,
    pub hi: f64,
}

impl Record {
    /// A record without a range.
    pub fn new(kind: u8, argument: usize) -> Self {
        let argument = argument as u32;
        Self {
            kind,
            argument,
            lo: 0.0,
            hi: 0.0,
        }
    }

    /// A quantifier's record.
    pub fn quantifier(kind: u8, variable: usize, lo: f64, hi: f64) -> Self {
        let argument = variable as u32;
        Self {
            kind,
            argument,
            lo,
            hi,
        }
    }
}

/// What a file is written from.
#[derive(Clone, Debug, Default, PartialEq)]
pub struct Parts {
    pub nodes: Vec<Node>,
    pub constraints: Vec<Record>,
    pub bounds: Vec<(f64, f64)>,
}

impl Parts {
    pub fn to_bodies(&self) -> Bodies {
        Bodies {
            nodes: node_bytes(&self.nodes),
            constraints: constraint_bytes(&self.constraints),
            bounds: bound_bytes(&self.bounds),
        }
    }

    pub fn to_file(&self) -> Vec<u8> {
        self.to_bodies().to_file()
    }
}

/// The three bodies of a file as bytes.
#[derive(Clone, Debug, Default, PartialEq)]
pub struct Bodies {
    pub nodes: Vec<u8>,
    pub constraints: Vec<u8>,
    pub bounds: Vec<u8>,
}

impl Bodies {
    pub fn to_file(&self) -> Vec<u8> {
        let at_nodes = HEADER;
        let at_constraints = at_nodes + self.nodes.len();
        let at_bounds = at_constraints + self.constraints.len();
        let contents = [
            (at_nodes, self.nodes.len() / NODE),
            (at_constraints, self.constraints.len() / CONSTRAINT),
            (at_bounds, self.bounds.len() / BOUND),
        ];
        let mut file = b"EMLQ\x01\0\0\0".to_vec();
        for (offset, count) in contents {
            file.extend((offset as u32).to_le_bytes());
            file.extend((count as u32).to_le_bytes());
        }
        file.extend(&self.nodes);
        file.extend(&self.constraints);
        file.extend(&self.bounds);
        file
    }
}

pub fn node_bytes(nodes: &[Node]) -> Vec<u8> {
    let mut out = Vec::with_capacity(nodes.len() * NODE);
    for node in nodes {
        let (kind, first, rest) = match *node {
            Node::One => (0, 0, [0; 8]),
            Node::Const(v) => (1, 0, v.to_le_bytes()),
            Node::Var(i) => (2, i, [0; 8]),
            Node::Eml(left, right) => (3, left, u64::from(right).to_le_bytes()),
        };
        out.extend([kind, 0, 0, 0]);
        out.extend(first.to_le_bytes());
        out.extend(rest);
    }
    out
}

pub fn constraint_bytes(records: &[Record]) -> Vec<u8> {
    let mut out = Vec::with_capacity(records.len() * CONSTRAINT);
    for record in records {
        out.extend([record.kind, 0, 0, 0]);
        out.extend(record.argument.to_le_bytes());
        out.extend(record.lo.to_le_bytes());
        out.extend(record.hi.to_le_bytes());
    }
    out
}

pub fn bound_bytes(bounds: &[(f64, f64)]) -> Vec<u8> {
    let ends = bounds.iter().flat_map(|&(lo, hi)| [lo, hi]);
    ends.flat_map(f64::to_le_bytes).collect()
}

/// What was read. The trees are those of the nodes, in their order; they share their parts as the nodes do.
#[derive(Clone, Debug)]
pub struct Problem {
    pub trees: Vec<EmlTree>,
    pub constraint: EmlConstraint,
    pub bounds: Vec<(f64, f64)>,
}

/// A refusal: its number.
pub type Refusal = u8;

fn u32_at(bytes: &[u8], at: usize) -> u32 {
    u32::from_le_bytes(bytes[at..at + 4].try_into().expect("four bytes"))
}

fn f64_at(bytes: &[u8], at: usize) -> f64 {
    f64::from_le_bytes(bytes[at..at + 8].try_into().expect("eight bytes"))
}

fn all_zero(bytes: &[u8]) -> bool {
    bytes.iter().all(|&b| b == 0)
}

fn refuse_unless(sound: bool, number: Refusal) -> Result<(), Refusal> {
    if sound { Ok(()) } else { Err(number) }
}

/// Finite ends of magnitude at most 2^1022, and lo <= hi.
pub fn is_sound(lo: f64, hi: f64) -> bool {
    lo.is_finite()
        && hi.is_finite()
        && lo.abs() <= LARGEST_END
        && hi.abs() <= LARGEST_END
        && lo <= hi
}

/// Reads a file.
pub fn read_file(file: &[u8]) -> Result<Problem, Refusal> {
    refuse_unless(file.len() >= HEADER, 1)?;
    refuse_unless(&file[0..8] == b"EMLQ\x01\0\0\0", 1)?;

    // Each count is at most 1024, so that no product or sum below comes near an overflow.
    let offset = |body: usize| u32_at(file, 8 + 8 * body) as usize;
    let count = |body: usize| u32_at(file, 12 + 8 * body) as usize;
    refuse_unless(count(0) <= MAX_NODES, 2)?;
    refuse_unless(count(1) <= MAX_CONSTRAINTS, 2)?;
    refuse_unless(count(2) <= MAX_BOUNDS, 2)?;
    let at_nodes = HEADER;
    let at_constraints = at_nodes + NODE * count(0);
    let at_bounds = at_constraints + CONSTRAINT * count(1);
    let end = at_bounds + BOUND * count(2);
    refuse_unless(offset(0) == at_nodes, 2)?;
    refuse_unless(offset(1) == at_constraints, 2)?;
    refuse_unless(offset(2) == at_bounds, 2)?;
    refuse_unless(file.len() == end, 2)?;

    let trees = trees_of(&file[at_nodes..at_constraints])?;
    let constraint = constraint_of(&file[at_constraints..at_bounds], &trees)?;
    let bounds = bounds_of(&file[at_bounds..end])?;
    Ok(Problem {
        trees,
        constraint,
        bounds,
    })
}

/// Reads records that are given without a file.
pub fn read_records(nodes: &[u8], constraints: &[u8]) -> Result<Problem, Refusal> {
    refuse_unless(nodes.len().is_multiple_of(NODE), 2)?;
    refuse_unless(nodes.len() / NODE <= MAX_NODES, 2)?;
    refuse_unless(constraints.len().is_multiple_of(CONSTRAINT), 2)?;
    refuse_unless(constraints.len() / CONSTRAINT <= MAX_CONSTRAINTS, 2)?;
    let trees = trees_of(nodes)?;
    let constraint = constraint_of(constraints, &trees)?;
    Ok(Problem {
        trees,
        constraint,
        bounds: Vec::new(),
    })
}

/// Reads a list of nodes alone, as `Canonical` and the comparisons are given it.
pub fn read_nodes(nodes: &[u8]) -> Result<Vec<EmlTree>, Refusal> {
    refuse_unless(nodes.len().is_multiple_of(NODE), 2)?;
    refuse_unless(nodes.len() / NODE <= MAX_NODES, 2)?;
    trees_of(nodes)
}

/// Each node: 3, then 4.
fn trees_of(bytes: &[u8]) -> Result<Vec<EmlTree>, Refusal> {
    let mut trees: Vec<EmlTree> = Vec::new();
    // Expanded size and depth of each node.
    let mut extents: Vec<(usize, usize)> = Vec::new();
    for (number, record) in bytes.chunks_exact(NODE).enumerate() {
        refuse_unless(all_zero(&record[1..4]), 3)?;
        let (tree, extent) = match record[0] {
            0 => {
                refuse_unless(all_zero(&record[4..]), 3)?;
                (EmlTree::one(), (1, 1))
            }
            1 => {
                let value = f64_at(record, 8);
                refuse_unless(all_zero(&record[4..8]) && value.is_finite(), 3)?;
                (EmlTree::const_val(value), (1, 1))
            }
            2 => {
                let index = u32_at(record, 4) as usize;
                refuse_unless(all_zero(&record[8..]) && index < MAX_VARIABLES, 3)?;
                (EmlTree::var(index), (1, 1))
            }
            3 => {
                let left = u32_at(record, 4) as usize;
                let right = u32_at(record, 8) as usize;
                refuse_unless(
                    all_zero(&record[12..]) && left < number && right < number,
                    3,
                )?;
                let size = 1 + extents[left].0 + extents[right].0;
                let depth = 1 + extents[left].1.max(extents[right].1);
                (EmlTree::eml(&trees[left], &trees[right]), (size, depth))
            }
            _ => return Err(3),
        };
        refuse_unless(extent.0 <= MAX_SIZE && extent.1 <= MAX_DEPTH, 4)?;
        trees.push(tree);
        extents.push(extent);
    }
    Ok(trees)
}

/// A constraint that no later record has taken yet.
struct Finished {
    constraint: EmlConstraint,
    depth: usize,
    quantifiers: usize,
}

/// Each constraint: 5, 6, 7. Then the remainder: 7.
fn constraint_of(bytes: &[u8], trees: &[EmlTree]) -> Result<EmlConstraint, Refusal> {
    let mut finished: Vec<Finished> = Vec::new();
    for record in bytes.chunks_exact(CONSTRAINT) {
        let argument = u32_at(record, 4) as usize;
        let (lo, hi) = (f64_at(record, 8), f64_at(record, 16));

        refuse_unless(all_zero(&record[1..4]), 5)?;
        refuse_unless(record[0] <= kind::EXISTS, 5)?;
        let is_quantifier = record[0] >= kind::FOR_ALL;
        refuse_unless(is_quantifier || all_zero(&record[8..]), 5)?;
        let taken = match record[0] {
            kind::EQ_ZERO..=kind::NE_ZERO => {
                refuse_unless(argument < trees.len(), 5)?;
                0
            }
            kind::NOT => {
                refuse_unless(argument == 0, 5)?;
                1
            }
            kind::AND | kind::OR => argument,
            _ => {
                refuse_unless(argument < MAX_VARIABLES, 5)?;
                1
            }
        };
        refuse_unless(taken <= finished.len(), 5)?;

        refuse_unless(!is_quantifier || is_sound(lo, hi), 6)?;

        // The last ones, oldest first.
        let taken = finished.split_off(finished.len() - taken);
        let depth = 1 + taken.iter().map(|f| f.depth).max().unwrap_or(0);
        let below = taken.iter().map(|f| f.quantifiers).max().unwrap_or(0);
        let quantifiers = below + usize::from(is_quantifier);
        refuse_unless(depth <= MAX_LEVELS && quantifiers <= MAX_QUANTIFIERS, 7)?;

        let mut taken = taken.into_iter().map(|f| f.constraint);
        let constraint = match record[0] {
            kind::EQ_ZERO => EmlConstraint::EqZero(trees[argument].clone()),
            kind::GT_ZERO => EmlConstraint::GtZero(trees[argument].clone()),
            kind::GE_ZERO => EmlConstraint::GeZero(trees[argument].clone()),
            kind::LT_ZERO => EmlConstraint::LtZero(trees[argument].clone()),
            kind::LE_ZERO => EmlConstraint::LeZero(trees[argument].clone()),
            kind::NE_ZERO => EmlConstraint::NeZero(trees[argument].clone()),
            kind::NOT => EmlConstraint::Not(Box::new(taken.next().expect("one was taken"))),
            kind::AND => EmlConstraint::And(taken.collect()),
            kind::OR => EmlConstraint::Or(taken.collect()),
            quantifier => {
                let body = Box::new(taken.next().expect("one was taken"));
                let var = argument;
                if quantifier == kind::FOR_ALL {
                    EmlConstraint::ForAll { var, lo, hi, body }
                } else {
                    EmlConstraint::Exists { var, lo, hi, body }
                }
            }
        };
        finished.push(Finished {
            constraint,
            depth,
            quantifiers,
        });
    }
    match finished.pop() {
        Some(last) if finished.is_empty() => Ok(last.constraint),
        _ => Err(7),
    }
}

/// Bounds: 6.
fn bounds_of(bytes: &[u8]) -> Result<Vec<(f64, f64)>, Refusal> {
    let mut bounds = Vec::new();
    for record in bytes.chunks_exact(BOUND) {
        let (lo, hi) = (f64_at(record, 0), f64_at(record, 8));
        refuse_unless(is_sound(lo, hi), 6)?;
        bounds.push((lo, hi));
    }
    Ok(bounds)
}

/// The records of a constraint in postorder, the inverse of reading them. The constraint's trees are some of `trees`, known
/// by their place in memory, so that a node is told from another one of the same meaning.
pub fn records_of(constraint: &EmlConstraint, trees: &[EmlTree]) -> Vec<Record> {
    let mut out = Vec::new();
    write_records(constraint, trees, &mut out);
    out
}

fn write_records(constraint: &EmlConstraint, trees: &[EmlTree], out: &mut Vec<Record>) {
    let number = |tree: &EmlTree| {
        let place = trees.iter().position(|t| Arc::ptr_eq(&t.root, &tree.root));
        place.expect("the constraint's trees are among the nodes'")
    };
    let record = match constraint {
        EmlConstraint::EqZero(tree) => Record::new(kind::EQ_ZERO, number(tree)),
        EmlConstraint::GtZero(tree) => Record::new(kind::GT_ZERO, number(tree)),
        EmlConstraint::GeZero(tree) => Record::new(kind::GE_ZERO, number(tree)),
        EmlConstraint::LtZero(tree) => Record::new(kind::LT_ZERO, number(tree)),
        EmlConstraint::LeZero(tree) => Record::new(kind::LE_ZERO, number(tree)),
        EmlConstraint::NeZero(tree) => Record::new(kind::NE_ZERO, number(tree)),
        EmlConstraint::Not(inner) => {
            write_records(inner, trees, out);
            Record::new(kind::NOT, 0)
        }
        EmlConstraint::And(children) | EmlConstraint::Or(children) => {
            for child in children {
                write_records(child, trees, out);
            }
            let is_and = matches!(constraint, EmlConstraint::And(_));
            Record::new(if is_and { kind::AND } else { kind::OR }, children.len())
        }
        EmlConstraint::ForAll { var, lo, hi, body } => {
            write_records(body, trees, out);
            Record::quantifier(kind::FOR_ALL, *var, *lo, *hi)
        }
        EmlConstraint::Exists { var, lo, hi, body } => {
            write_records(body, trees, out);
            Record::quantifier(kind::EXISTS, *var, *lo, *hi)
        }
    };
    out.push(record);
}

#[cfg(test)]
mod tests {
    use super::*;
    use crate::tree::EmlNode;

    /// Document 01's example: GtZero of Var 0, bounds [1, 3].
    fn example() -> Parts {
        Parts {
            nodes: vec![Node::Var(0)],
            constraints: vec![Record::new(kind::GT_ZERO, 0)],
            bounds: vec![(1.0, 3.0)],
        }
    }

    /// A file with one true atom and these nodes.
    fn with_nodes(nodes: Vec<Node>) -> Parts {
        Parts { nodes, ..example() }
    }

    /// A file with these constraints over Var 0.
    fn with_constraints(constraints: Vec<Record>) -> Parts {
        Parts {
            constraints,
            ..example()
        }
    }

    fn number_of(file: &[u8]) -> u8 {
        read_file(file).err().unwrap_or(0)
    }

    fn number(parts: &Parts) -> u8 {
        number_of(&parts.to_file())
    }

    /// The refusal of the example with one byte set.
    fn with_byte(at: usize, value: u8) -> u8 {
        let mut file = example().to_file();
        file[at] = value;
        number_of(&file)
    }

    #[test]
    fn the_example() {
        let file = example().to_file();
        assert_eq!(file.len(), 88);
        let problem = read_file(&file).unwrap();
        assert!(
            matches!(&problem.constraint, EmlConstraint::GtZero(t) if *t.root == EmlNode::Var(0))
        );
        assert_eq!(problem.bounds, [(1.0, 3.0)]);
    }

    #[test]
    fn first_eight_bytes() {
        let file = example().to_file();
        for length in 0..32 {
            assert_eq!(number_of(&file[..length]), 1);
        }
        for at in 0..8 {
            assert_eq!(with_byte(at, 9), 1, "byte {at}");
        }
        assert_eq!(with_byte(4, 2), 1);
    }

    #[test]
    fn contents_and_length() {
        let file = example().to_file();
        for length in 32..88 {
            assert_eq!(number_of(&file[..length]), 2);
        }
        let mut longer = file.clone();
        longer.push(0);
        assert_eq!(number_of(&longer), 2);
        for at in 8..32 {
            for value in [7, 255] {
                assert_eq!(with_byte(at, value), 2, "byte {at}");
            }
        }
        let mut parts = example();
        parts.nodes = vec![Node::One; 1024];
        assert_eq!(number(&parts), 0);
        parts.nodes.push(Node::One);
        assert_eq!(number(&parts), 2);
        let mut parts = example();
        parts.bounds = vec![(0.0, 0.0); 16];
        assert_eq!(number(&parts), 0);
        parts.bounds.push((0.0, 0.0));
        assert_eq!(number(&parts), 2);
        let mut records = vec![Record::new(kind::GT_ZERO, 0); 255];
        records.push(Record::new(kind::AND, 255));
        assert_eq!(number(&with_constraints(records.clone())), 0);
        records.push(Record::new(kind::NOT, 0));
        assert_eq!(number(&with_constraints(records)), 2);
    }

    #[test]
    fn node_records() {
        // Kind, three zeros, and the unused bytes of Var.
        assert_eq!(with_byte(32, 4), 3);
        for at in (33..36).chain(40..48) {
            assert_eq!(with_byte(at, 1), 3, "byte {at}");
        }
        assert_eq!(number(&with_nodes(vec![Node::Var(15)])), 0);
        assert_eq!(number(&with_nodes(vec![Node::Var(16)])), 3);
        assert_eq!(number(&with_nodes(vec![Node::Eml(0, 0)])), 3);
        for (left, right, n) in [(0, 0, 0), (1, 0, 3), (0, 1, 3), (u32::MAX, 0, 3), (0, 2, 3)] {
            let parts = with_nodes(vec![Node::One, Node::Eml(left, right)]);
            assert_eq!(number(&parts), n, "{left} {right}");
        }
        for v in [0.0, -0.0, f64::MAX, f64::MIN, f64::from_bits(1)] {
            assert_eq!(number(&with_nodes(vec![Node::Const(v)])), 0);
        }
        for v in [f64::NAN, f64::INFINITY, f64::NEG_INFINITY] {
            assert_eq!(number(&with_nodes(vec![Node::Const(v)])), 3);
        }
        // Unused bytes of the other kinds.
        let nodes = [Node::One, Node::Const(1.5), Node::Eml(0, 0)];
        for (number_of_node, unused) in [(0, 4..16), (1, 4..8), (2, 12..16)] {
            for byte in unused {
                let mut file = with_nodes(nodes.to_vec()).to_file();
                assert_eq!(number_of(&file), 0);
                file[HEADER + NODE * number_of_node + byte] = 128;
                assert_eq!(number_of(&file), 3);
            }
        }
    }

    #[test]
    fn size_and_depth() {
        // Depth n + 1 after n Eml nodes in a chain.
        let chain = |n: u32| {
            let mut nodes = vec![Node::One];
            nodes.extend((0..n).map(|k| Node::Eml(k, 0)));
            with_nodes(nodes)
        };
        assert_eq!(number(&chain(127)), 0);
        assert_eq!(number(&chain(128)), 4);
        // A size is odd, so 4095 is the largest and 4097 the next.
        let doubled = |n: u32| {
            let mut nodes = vec![Node::One];
            nodes.extend((0..n).map(|k| Node::Eml(k, k)));
            nodes
        };
        assert_eq!(number(&with_nodes(doubled(11))), 0);
        let mut nodes = doubled(11);
        nodes.push(Node::Eml(11, 0));
        assert_eq!(number(&with_nodes(nodes)), 4);
        // A node's 4 comes before a later node's 3, and its own 3 before its 4.
        let mut nodes = doubled(12);
        nodes.push(Node::Var(16));
        assert_eq!(number(&with_nodes(nodes)), 4);
        let mut nodes = doubled(11);
        nodes.extend([Node::Var(16), Node::Eml(11, 11)]);
        assert_eq!(number(&with_nodes(nodes)), 3);
    }

    #[test]
    fn constraint_records() {
        assert_eq!(with_byte(48, 11), 5);
        for at in (49..52).chain(56..72) {
            assert_eq!(with_byte(at, 128), 5, "byte {at}");
        }
        let gt = Record::new(kind::GT_ZERO, 0);
        assert_eq!(
            number(&with_constraints(vec![Record::new(kind::GT_ZERO, 1)])),
            5
        );
        assert_eq!(
            number(&with_constraints(vec![gt, Record::new(kind::NOT, 0)])),
            0
        );
        assert_eq!(
            number(&with_constraints(vec![gt, Record::new(kind::NOT, 1)])),
            5
        );
        assert_eq!(
            number(&with_constraints(vec![Record::new(kind::NOT, 0)])),
            5
        );
        for k in [kind::AND, kind::OR] {
            assert_eq!(number(&with_constraints(vec![Record::new(k, 0)])), 0);
            assert_eq!(number(&with_constraints(vec![Record::new(k, 1)])), 5);
            assert_eq!(
                number(&with_constraints(vec![gt, gt, Record::new(k, 2)])),
                0
            );
            assert_eq!(
                number(&with_constraints(vec![gt, gt, Record::new(k, 3)])),
                5
            );
            assert_eq!(
                number(&with_constraints(vec![gt, gt, Record::new(k, 1)])),
                7
            );
        }
        for k in [kind::FOR_ALL, kind::EXISTS] {
            let over = |v: usize| vec![gt, Record::quantifier(k, v, 0.0, 1.0)];
            assert_eq!(number(&with_constraints(over(15))), 0);
            assert_eq!(number(&with_constraints(over(16))), 5);
            assert_eq!(number(&with_constraints(over(15)[1..].to_vec())), 5);
        }
        assert_eq!(number(&with_constraints(vec![])), 7);
        assert_eq!(number(&with_constraints(vec![gt, gt])), 7);
    }

    #[test]
    fn ranges() {
        let up = f64::from_bits(LARGEST_END.to_bits() + 1);
        for (lo, hi, sound) in [
            (0.0, -0.0, true),
            (-0.0, 0.0, true),
            (-LARGEST_END, LARGEST_END, true),
            (LARGEST_END, LARGEST_END, true),
            (1.0, 1.0, true),
            (1.0, f64::from_bits(0x3FEF_FFFF_FFFF_FFFF), false),
            (0.0, up, false),
            (-up, 0.0, false),
            (0.0, f64::INFINITY, false),
            (f64::NEG_INFINITY, 0.0, false),
            (f64::NAN, 0.0, false),
            (0.0, f64::NAN, false),
        ] {
            let n = if sound { 0 } else { 6 };
            let mut parts = example();
            parts.bounds.push((lo, hi));
            assert_eq!(number(&parts), n, "{lo} {hi}");
            let mut parts = example();
            let quantifier = Record::quantifier(kind::FOR_ALL, 0, lo, hi);
            parts.constraints.push(quantifier);
            assert_eq!(number(&parts), n, "{lo} {hi}");
        }
    }

    #[test]
    fn levels_and_quantifiers() {
        let gt = Record::new(kind::GT_ZERO, 0);
        let nots = |n: usize| {
            let mut records = vec![gt];
            records.extend(vec![Record::new(kind::NOT, 0); n]);
            with_constraints(records)
        };
        assert_eq!(number(&nots(15)), 0);
        assert_eq!(number(&nots(16)), 7);
        let quantified = |n: usize| {
            let mut records = vec![gt];
            records.extend(vec![Record::quantifier(kind::EXISTS, 1, 0.0, 1.0); n]);
            with_constraints(records)
        };
        assert_eq!(number(&quantified(4)), 0);
        assert_eq!(number(&quantified(5)), 7);
        // Four on each of two paths are four on a path.
        let mut records = quantified(4).constraints;
        records.extend(quantified(4).constraints);
        records.push(Record::new(kind::OR, 2));
        assert_eq!(number(&with_constraints(records.clone())), 0);
        records.push(Record::quantifier(kind::FOR_ALL, 0, 0.0, 1.0));
        assert_eq!(number(&with_constraints(records)), 7);
    }

    #[test]
    fn order() {
        // A record's 5 before its 6, its 6 before its 7, the remainder's 7 before a bound's 6.
        let gt = Record::new(kind::GT_ZERO, 0);
        let unsound = |v: usize| Record::quantifier(kind::FOR_ALL, v, 1.0, 0.0);
        assert_eq!(number(&with_constraints(vec![gt, unsound(16)])), 5);
        assert_eq!(number(&with_constraints(vec![unsound(0)])), 5);
        let mut records = vec![gt];
        records.extend(vec![Record::quantifier(kind::EXISTS, 1, 0.0, 1.0); 4]);
        records.push(unsound(0));
        assert_eq!(number(&with_constraints(records)), 6);
        let mut parts = with_constraints(vec![gt, gt]);
        parts.bounds[0] = (1.0, 0.0);
        assert_eq!(number(&parts), 7);
        parts.constraints.pop();
        assert_eq!(number(&parts), 6);
    }

    #[test]
    fn records_without_a_file() {
        let bodies = example().to_bodies();
        let (nodes, constraints) = (&bodies.nodes[..], &bodies.constraints[..]);
        let number = |nodes: &[u8], constraints: &[u8]| {
            let answer = read_records(nodes, constraints);
            answer.err().unwrap_or(0)
        };
        assert_eq!(number(nodes, constraints), 0);
        assert_eq!(number(&nodes[1..], constraints), 2);
        assert_eq!(number(nodes, &constraints[1..]), 2);
        assert_eq!(number(&[0; 16 * 1025], constraints), 2);
        assert_eq!(number(nodes, &[0; 24 * 257]), 2);
        // Both lengths are tested before the first record.
        assert_eq!(number(&[9; 16], &constraints[1..]), 2);
        assert_eq!(number(&[9; 16], constraints), 3);
        assert_eq!(number(&[], constraints), 5);
        assert_eq!(number(nodes, &[]), 7);
        assert_eq!(read_nodes(&[0; 8]).err(), Some(2));
        assert_eq!(read_nodes(&[]).map(|trees| trees.len()).ok(), Some(0));
    }
}
