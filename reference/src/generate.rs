//! Random problems, points, settings and damaged files.

use crate::house::{
    BOUND, Bodies, CONSTRAINT, HEADER, LARGEST_END, MAX_BOUNDS, MAX_CONSTRAINTS, MAX_DEPTH,
    MAX_LEVELS, MAX_NODES, MAX_QUANTIFIERS, MAX_SIZE, MAX_VARIABLES, NODE, Node, Parts, Record,
    is_sound, kind,
};
use crate::settings::Settings;
use crate::smt::interval::Interval;
use crate::splitmix::SplitMix64;
use crate::standins::{self, next_down, next_up};

/// What constants and ranges are like.
#[derive(Clone, Copy, Debug, PartialEq)]
pub enum Temper {
    /// Such that exp and ln meet, so that boxes are narrowed.
    Narrowing,
    /// Ordinary numbers, so that most trees have a value.
    Ordinary,
    /// Any number that a file may hold.
    Wild,
    /// Exponents about this clamp, so that a strict evaluation often fails.
    Beyond(f64),
}

/// What a problem may be made of.
#[derive(Clone, Copy, Debug)]
pub struct Shape {
    /// At most so many nodes. Without any, every constraint is made of empty And and Or.
    pub nodes: usize,
    /// Expanded size and depth of a node.
    pub size: usize,
    pub depth: usize,
    /// Variables that nodes name.
    pub variables: usize,
    /// At most so many constraint records; at least one.
    pub constraints: usize,
    pub levels: usize,
    pub quantifiers: usize,
    pub bounds: usize,
    pub temper: Temper,
}

impl Shape {
    /// Small enough to solve many thousands of them.
    pub fn small(rng: &mut SplitMix64) -> Self {
        Self {
            nodes: 1 + rng.below(12),
            size: 1 + rng.below(40),
            depth: 1 + rng.below(6),
            variables: 1 + rng.below(3),
            constraints: 1 + rng.below(6),
            levels: 1 + rng.below(4),
            quantifiers: rng.below(2),
            bounds: rng.below(5),
            temper: rng.pick(&[Temper::Ordinary, Temper::Ordinary, Temper::Wild]),
        }
    }

    /// Small, with boxes that are mostly narrowed.
    pub fn narrowing(rng: &mut SplitMix64) -> Self {
        Self {
            nodes: 4 + rng.below(12),
            depth: 2 + rng.below(6),
            variables: 1 + rng.below(4),
            temper: Temper::Narrowing,
            ..Self::small(rng)
        }
    }

    /// Small, with exponents about a clamp.
    pub fn beyond(rng: &mut SplitMix64, clamp: f64) -> Self {
        Self {
            nodes: 4 + rng.below(12),
            size: 3 + rng.below(40),
            depth: 2 + rng.below(6),
            variables: 1 + rng.below(4),
            temper: Temper::Beyond(clamp),
            ..Self::small(rng)
        }
    }

    /// Anything within document 01's limits.
    pub fn large(rng: &mut SplitMix64) -> Self {
        Self {
            nodes: 1 + rng.below(MAX_NODES),
            size: MAX_SIZE,
            depth: MAX_DEPTH,
            variables: 1 + rng.below(MAX_VARIABLES),
            constraints: 1 + rng.below(MAX_CONSTRAINTS),
            levels: MAX_LEVELS,
            quantifiers: MAX_QUANTIFIERS,
            bounds: MAX_BOUNDS,
            temper: rng.pick(&[Temper::Narrowing, Temper::Ordinary, Temper::Wild]),
        }
    }

    /// Between the two.
    pub fn medium(rng: &mut SplitMix64) -> Self {
        Self {
            nodes: 1 + rng.below(64),
            size: 1 + rng.below(MAX_SIZE),
            depth: 1 + rng.below(MAX_DEPTH),
            variables: 1 + rng.below(MAX_VARIABLES),
            constraints: 1 + rng.below(24),
            levels: 1 + rng.below(MAX_LEVELS),
            quantifiers: rng.below(MAX_QUANTIFIERS + 1),
            bounds: rng.below(MAX_BOUNDS + 1),
            temper: rng.pick(&[Temper::Narrowing, Temper::Ordinary, Temper::Wild]),
        }
    }

    /// Mostly small, now and then large.
    pub fn any(rng: &mut SplitMix64) -> Self {
        match rng.below(20) {
            _ if rng.one_in(100) => Self {
                nodes: 0,
                ..Self::medium(rng)
            },
            0 => Self::large(rng),
            1..=5 => Self::medium(rng),
            6..=10 => Self::narrowing(rng),
            _ => Self::small(rng),
        }
    }
}

/// A problem that the reader takes.
pub fn problem(rng: &mut SplitMix64, shape: &Shape) -> Parts {
    let count = match shape.temper {
        // A box for each variable, or one less or more.
        Temper::Narrowing | Temper::Beyond(_) => {
            rng.pick(&[0, 1, 1, 1, 1, 1, 1, 2]) + shape.variables - 1
        }
        _ => rng.below(shape.bounds + 1),
    };
    let count = count.min(MAX_BOUNDS);
    let bounds: Vec<(f64, f64)> = (0..count).map(|_| range(rng, shape.temper)).collect();
    let nodes = match shape.temper {
        Temper::Narrowing => narrowed_nodes(rng, shape, &bounds),
        _ => nodes(rng, shape),
    };
    let constraints = constraints(rng, shape, &nodes, &bounds);
    Parts {
        nodes,
        constraints,
        bounds,
    }
}

/// A problem that is narrowed for many rounds, each of which moves the ends a little: exp(x) - ln(exp(exp(x)) - ln(k)), which is above zero
/// for a k above 1 and nearer to it the larger x is, compared with zero.
pub fn slow_problem(rng: &mut SplitMix64) -> Parts {
    let lo = rng.uniform(-1.0, 0.5);
    Parts {
        nodes: vec![
            Node::Var(0),
            Node::One,
            Node::Eml(0, 1),
            Node::Const(rng.uniform(1.01, 1.2)),
            Node::Eml(2, 3),
            Node::Eml(0, 4),
        ],
        // A decision is narrowed by the negation.
        constraints: vec![Record::new(
            rng.pick(&[kind::LT_ZERO, kind::LE_ZERO, kind::GT_ZERO, kind::GE_ZERO]),
            5,
        )],
        bounds: vec![(lo, lo + rng.uniform(0.2, 2.0))],
    }
}

/// The documents' example of a stretch found only because exp was clamped, with other numbers: exp(v0) - ln(exp(v1)) compared with zero, by
/// itself or beside exp(v0) compared with zero, in a box in which v1 is on both sides of the clamp.
pub fn clamped_problem(rng: &mut SplitMix64, clamp: f64) -> Parts {
    let relation = |rng: &mut SplitMix64| {
        rng.pick(&[
            kind::GT_ZERO,
            kind::GT_ZERO,
            kind::GE_ZERO,
            kind::LT_ZERO,
            kind::LE_ZERO,
            kind::NE_ZERO,
        ])
    };
    let mut constraints = vec![Record::new(relation(rng), 4)];
    if rng.one_in(2) {
        let at = rng.below(2);
        constraints.insert(at, Record::new(relation(rng), 5));
        constraints.push(Record::new(rng.pick(&[kind::AND, kind::OR, kind::OR]), 2));
    }
    let lo = standins::ln(clamp) + rng.uniform(-0.1, 0.05);
    Parts {
        nodes: vec![
            Node::Var(0),
            Node::Var(1),
            Node::One,
            Node::Eml(1, 2),
            Node::Eml(0, 3),
            Node::Eml(0, 2),
        ],
        constraints,
        bounds: vec![
            (lo, lo + rng.uniform(0.0, 0.2)),
            (
                clamp * rng.uniform(0.6, 0.95),
                clamp * rng.uniform(1.1, 2.5),
            ),
        ],
    }
}

/// The largest problem that the reader takes: every count, the size, the depth, the levels and the quantifiers at their
/// limits. A size is odd, so that the largest one is 4095.
pub fn largest() -> Parts {
    // Nodes 0 to 11 double the size up to 4095, 12 to 139 make a chain of depth 128, and copies of doubled ones follow.
    let mut nodes = vec![Node::Var(15)];
    nodes.extend((0..11).map(|k| Node::Eml(k, k)));
    nodes.push(Node::Const(0.5));
    nodes.extend((12..139).map(|k| Node::Eml(k, 12)));
    while nodes.len() < MAX_NODES {
        nodes.push(Node::Eml(10, 10));
    }
    // One path of 16 levels with 4 quantifiers, one of Or, which is the deepest in narrowing, then atoms up to the count, under one Or.
    let mut constraints = vec![Record::new(kind::GT_ZERO, 139)];
    for variable in 0..MAX_QUANTIFIERS {
        let record = Record::quantifier(kind::FOR_ALL, variable, -1.0, 2.0);
        constraints.push(record);
    }
    constraints.extend(vec![
        Record::new(kind::NOT, 0);
        MAX_LEVELS - 2 - MAX_QUANTIFIERS
    ]);
    constraints.push(Record::new(kind::GT_ZERO, 139));
    constraints.extend(vec![Record::new(kind::OR, 1); MAX_LEVELS - 2]);
    let paths = constraints.len();
    let atoms = MAX_CONSTRAINTS - 1 - paths;
    constraints.extend((0..atoms).map(|k| Record::new((k % 6) as u8, MAX_NODES - 1 - k)));
    constraints.push(Record::new(kind::OR, atoms + 2));
    Parts {
        nodes,
        constraints,
        bounds: vec![(-LARGEST_END, LARGEST_END); MAX_BOUNDS],
    }
}

/// A number about a clamp, or of which exp, exp of exp, or ln is about it or its negative; else an ordinary number. There are 9 kinds.
fn about_clamp(rng: &mut SplitMix64, clamp: f64, kind: usize) -> f64 {
    let edge = clamp * rng.pick(&[1.0, 1.0, 2.0]);
    let ln = standins::ln(clamp);
    match kind {
        0 | 1 => rng.pick(&[edge, next_up(edge), next_down(edge)]),
        2 | 3 => clamp * rng.uniform(0.5, 2.0),
        4 => ln + rng.uniform(-0.5, 0.7),
        // Where the clamp is at most e, exp of exp of any number above zero is beyond it.
        5 if ln > 1.0 => standins::ln(ln) + rng.uniform(-0.2, 0.3),
        6 => standins::exp(clamp) * rng.uniform(0.9, 2.0),
        7 => standins::exp(-clamp) * rng.uniform(0.5, 1.1),
        _ => constant(rng, Temper::Ordinary),
    }
}

/// Any such number, of either sign.
fn exponent(rng: &mut SplitMix64, clamp: f64) -> f64 {
    let kind = rng.below(9);
    let x = about_clamp(rng, clamp, kind);
    if rng.one_in(3) { -x } else { x }
}

/// A finite constant.
fn constant(rng: &mut SplitMix64, temper: Temper) -> f64 {
    if let Temper::Beyond(clamp) = temper {
        return exponent(rng, clamp);
    }
    if temper == Temper::Narrowing {
        return rng.uniform(0.1, 3.0);
    }
    if temper == Temper::Ordinary || rng.one_in(2) {
        return match rng.below(6) {
            0 => rng.pick(&[0.0, -0.0, 1.0, 2.0, -1.0, 0.5]),
            1 => rng.uniform(-3.0, 3.0),
            2 => rng.uniform(0.0, 20.0),
            _ => rng.uniform(0.1, 3.0),
        };
    }
    loop {
        let v = rng.argument();
        if v.is_finite() {
            return v;
        }
    }
}

/// A list of nodes that share.
fn nodes(rng: &mut SplitMix64, shape: &Shape) -> Vec<Node> {
    let mut list: Vec<Node> = Vec::new();
    // Expanded size and depth of each.
    let mut extents: Vec<(usize, usize)> = Vec::new();
    // How a list grows: bushy, as a chain, by doubling, or by differences as `Canonical::sub` writes them.
    let habit = rng.below(4);
    let leaves = if habit == 1 { 20 } else { 2 + rng.below(4) };
    if let Temper::Beyond(clamp) = shape.temper {
        if clamp > 60.0 && shape.nodes >= 6 && rng.one_in(8) {
            append_turned(rng, clamp, &mut list, &mut extents);
        } else if shape.nodes >= 6 && rng.one_in(8) {
            append_beside(rng, clamp, shape.variables, &mut list, &mut extents);
        }
    }
    while list.len() < shape.nodes {
        let count = list.len();
        let leaf = count == 0 || rng.one_in(leaves);
        if !leaf && habit == 3 && count + 7 <= shape.nodes {
            append_sub(rng, shape, &mut list, &mut extents);
        }
        let count = list.len();
        if count == shape.nodes {
            break;
        }
        let pair = if leaf {
            None
        } else {
            child_pair(rng, shape, habit, &extents)
        };
        let (node, extent) = match pair {
            Some((left, right)) => (
                Node::Eml(left as u32, right as u32),
                joined(extents[left], extents[right]),
            ),
            None => {
                let node = match rng.below(6) {
                    0 => Node::One,
                    1 | 2 => Node::Const(constant(rng, shape.temper)),
                    _ => Node::Var(rng.below(shape.variables) as u32),
                };
                (node, (1, 1))
            }
        };
        list.push(node);
        extents.push(extent);
    }
    list
}

/// The values of a node over the boxes, as far as they have an interval; those of the nodes before it are known.
fn span(node: Node, before: &[Option<Interval>], bounds: &[(f64, f64)]) -> Option<Interval> {
    match node {
        Node::One => Some(Interval::point(1.0)),
        Node::Const(v) => Some(Interval::point(v)),
        Node::Var(i) => {
            let (lo, hi) = bounds.get(i as usize).copied().unwrap_or((-10.0, 10.0));
            Some(Interval::new(lo, hi))
        }
        Node::Eml(left, right) => eml_span(before[left as usize], before[right as usize]),
    }
}

fn spans(nodes: &[Node], bounds: &[(f64, f64)]) -> Vec<Option<Interval>> {
    let mut spans = Vec::new();
    for &node in nodes {
        spans.push(span(node, &spans, bounds));
    }
    spans
}

/// exp of the left interval minus ln of the right one, where the logarithm exists.
fn eml_span(left: Option<Interval>, right: Option<Interval>) -> Option<Interval> {
    let exp = left?.exp();
    let ln = right.filter(|r| r.lo > 0.0 && r.hi.is_finite())?.ln();
    Some(Interval::new(exp.lo - ln.hi, exp.hi - ln.lo))
}

fn crosses_zero(span: &Option<Interval>) -> bool {
    span.is_some_and(|iv| iv.lo < 0.0 && iv.hi > 0.0)
}

/// Nodes whose values mostly lie on both sides of zero, so that the boxes are narrowed.
fn narrowed_nodes(rng: &mut SplitMix64, shape: &Shape, bounds: &[(f64, f64)]) -> Vec<Node> {
    let mut list: Vec<Node> = Vec::new();
    let mut extents: Vec<(usize, usize)> = Vec::new();
    let mut spans: Vec<Option<Interval>> = Vec::new();
    while list.len() < shape.nodes {
        let count = list.len();
        let mut pair = None;
        let leaf = count == 0 || rng.one_in(4);
        for _ in 0..if leaf { 0 } else { 12 } {
            let (left, right) = (rng.below(count), rng.below(count));
            let (size, depth) = joined(extents[left], extents[right]);
            let span = eml_span(spans[left], spans[right]);
            let wanted = crosses_zero(&span) || (span.is_some() && rng.one_in(6));
            if size <= shape.size && depth <= shape.depth && wanted {
                pair = Some((left, right));
                break;
            }
        }
        let (node, extent) = match pair {
            Some((left, right)) => (
                Node::Eml(left as u32, right as u32),
                joined(extents[left], extents[right]),
            ),
            None => {
                let node = match rng.below(6) {
                    0 => Node::One,
                    1 => Node::Const(constant(rng, shape.temper)),
                    _ => Node::Var(rng.below(shape.variables) as u32),
                };
                (node, (1, 1))
            }
        };
        spans.push(span(node, &spans, bounds));
        list.push(node);
        extents.push(extent);
    }
    list
}

fn joined(left: (usize, usize), right: (usize, usize)) -> (usize, usize) {
    (1 + left.0 + right.0, 1 + left.1.max(right.1))
}

/// Children whose node stays within the shape, if a few draws find some.
fn child_pair(
    rng: &mut SplitMix64,
    shape: &Shape,
    habit: usize,
    extents: &[(usize, usize)],
) -> Option<(usize, usize)> {
    let count = extents.len();
    for _ in 0..4 {
        let any = rng.below(count);
        let recent = count - 1 - rng.below(count.min(4));
        let (left, right) = match habit {
            1 => {
                // Leaves are few in a chain, so its end is among the last nodes.
                let last = count.saturating_sub(40)..count;
                let deepest = last.max_by_key(|&k| extents[k].1).unwrap_or(0);
                let leaf = (0..count).find(|_| rng.one_in(3)).unwrap_or(0);
                rng.pick(&[(deepest, leaf), (leaf, deepest)])
            }
            2 => (recent, recent),
            _ => match rng.below(3) {
                0 => (any, recent),
                1 => (recent, any),
                _ => (any, rng.below(count)),
            },
        };
        let (size, depth) = joined(extents[left], extents[right]);
        if size <= shape.size && depth <= shape.depth {
            return Some((left, right));
        }
    }
    None
}

/// The seven nodes of `Canonical::sub`, if the result stays within the shape.
fn append_sub(
    rng: &mut SplitMix64,
    shape: &Shape,
    list: &mut Vec<Node>,
    extents: &mut Vec<(usize, usize)>,
) {
    let count = list.len();
    let (x, y) = (rng.below(count), rng.below(count));
    // The logarithm of x adds six to its size and three to its depth, the exponential of y two and one.
    let size = 1 + (extents[x].0 + 6) + (extents[y].0 + 2);
    let depth = 1 + (extents[x].1 + 3).max(extents[y].1 + 1);
    if size > shape.size || depth > shape.depth {
        return;
    }
    let at = |k: usize| (count + k) as u32;
    let added = [
        Node::One,
        Node::One,
        Node::Eml(at(1), x as u32),
        Node::Eml(at(2), at(1)),
        Node::Eml(at(1), at(3)),
        Node::Eml(y as u32, at(0)),
        Node::Eml(at(4), at(5)),
    ];
    append(&added, list, extents);
}

/// Six nodes at the start of a list. exp of exp(x) - pi i is beyond the clamp, far below zero, and its imaginary part is beyond 2^20, so that
/// it has no sine: the last node's result is a NaN where exp is clamped.
fn append_turned(
    rng: &mut SplitMix64,
    clamp: f64,
    list: &mut Vec<Node>,
    extents: &mut Vec<(usize, usize)>,
) {
    let x = standins::ln(rng.uniform(52.0, clamp));
    let added = [
        Node::Const(x),
        Node::Const(-1.0),
        Node::Eml(0, 1),
        Node::One,
        Node::Eml(2, 3),
        Node::Eml(4, 3),
    ];
    append(&added, list, extents);
}

/// Six nodes at the start of a list. exp of a variable, which a point may lack or have a NaN for, and exp of an exponent, either of them first.
fn append_beside(
    rng: &mut SplitMix64,
    clamp: f64,
    variables: usize,
    list: &mut Vec<Node>,
    extents: &mut Vec<(usize, usize)>,
) {
    let var = Node::Var(rng.below(variables) as u32);
    let exponent = Node::Const(exponent(rng, clamp));
    let (first, second) = if rng.one_in(3) {
        (exponent, var)
    } else {
        (var, exponent)
    };
    let added = [
        first,
        Node::One,
        Node::Eml(0, 1),
        second,
        Node::Eml(3, 1),
        Node::Eml(2, 4),
    ];
    append(&added, list, extents);
}

fn append(added: &[Node], list: &mut Vec<Node>, extents: &mut Vec<(usize, usize)>) {
    for &node in added {
        let extent = match node {
            Node::Eml(left, right) => joined(extents[left as usize], extents[right as usize]),
            _ => (1, 1),
        };
        list.push(node);
        extents.push(extent);
    }
}

/// Records in postorder that leave one constraint.
fn constraints(
    rng: &mut SplitMix64,
    shape: &Shape,
    nodes: &[Node],
    bounds: &[(f64, f64)],
) -> Vec<Record> {
    let favoured: Vec<usize> = match shape.temper {
        Temper::Narrowing => {
            let spans = spans(nodes, bounds);
            (0..nodes.len())
                .filter(|&k| crosses_zero(&spans[k]))
                .collect()
        }
        // Those that have an exp.
        Temper::Beyond(_) => (0..nodes.len())
            .filter(|&k| matches!(nodes[k], Node::Eml(..)))
            .collect(),
        // The later nodes are the larger ones.
        _ => (nodes.len().saturating_sub(3)..nodes.len()).collect(),
    };
    let mut writer = Writer {
        left: shape.constraints,
        nodes: nodes.len(),
        favoured,
        temper: shape.temper,
        variables: shape.variables,
        out: Vec::new(),
    };
    // Some are one long path, to reach the last level and quantifier.
    let path = rng.one_in(4);
    writer.constraint(rng, shape.levels, shape.quantifiers, path);
    writer.out
}

struct Writer {
    /// Records that may still be promised.
    left: usize,
    nodes: usize,
    /// Nodes that atoms are about more often.
    favoured: Vec<usize>,
    temper: Temper,
    variables: usize,
    out: Vec<Record>,
}

impl Writer {
    /// Writes one constraint of at most so many levels and quantifiers; at least one record is left.
    fn constraint(&mut self, rng: &mut SplitMix64, levels: usize, quantifiers: usize, path: bool) {
        self.left -= 1;
        let inner = levels > 1 && self.left > 0;
        // On a path every step goes on; where nothing goes on, an atom or an empty And or Or.
        let choice = match (inner, path) {
            (true, true) => 4 + rng.below(6),
            (true, false) => rng.below(10),
            (false, _) => rng.pick(&[0, 0, 0, 0, 0, 0, 0, 5]),
        };
        let record = match choice {
            4 => {
                self.constraint(rng, levels - 1, quantifiers, path);
                Record::new(kind::NOT, 0)
            }
            5..=7 => {
                let most = match rng.below(8) {
                    0 => 0,
                    1 => self.left,
                    _ => 1 + rng.below(4),
                };
                let mut count = 0;
                while inner && count < most && self.left > 0 {
                    self.constraint(rng, levels - 1, quantifiers, path && count == 0);
                    count += 1;
                }
                Record::new(rng.pick(&[kind::AND, kind::OR]), count)
            }
            8 | 9 if quantifiers > 0 => {
                self.constraint(rng, levels - 1, quantifiers - 1, path);
                let variable = if rng.one_in(4) {
                    rng.below(MAX_VARIABLES)
                } else {
                    rng.below(self.variables)
                };
                let (lo, hi) = range(rng, self.temper);
                Record::quantifier(rng.pick(&[kind::FOR_ALL, kind::EXISTS]), variable, lo, hi)
            }
            _ if self.nodes == 0 => Record::new(rng.pick(&[kind::AND, kind::OR]), 0),
            _ => {
                let node = if self.favoured.is_empty() || rng.one_in(3) {
                    rng.below(self.nodes)
                } else {
                    rng.pick(&self.favoured)
                };
                Record::new(rng.below(6) as u8, node)
            }
        };
        self.out.push(record);
    }
}

/// A sound range.
pub fn range(rng: &mut SplitMix64, temper: Temper) -> (f64, f64) {
    let width = rng.uniform(0.0, 4.0);
    let choice = match temper {
        Temper::Narrowing => {
            // An exponent, or the argument of a logarithm that reaches as far.
            let (least, most) = rng.pick(&[(-3.0, 1.0), (0.05, 4.0)]);
            let lo = rng.uniform(least, most);
            let far = rng.pick(&[0.0, 1.0, 1.0, 1.0, 4.0, 4.0, 4.0, 4.0]);
            return (lo, lo + far * width);
        }
        Temper::Ordinary => rng.below(8),
        Temper::Wild => rng.below(16),
        Temper::Beyond(clamp) => loop {
            // Mostly between two of a kind, so that often some of the range is beyond the clamp and some is not.
            let kind = rng.below(9);
            let a = about_clamp(rng, clamp, kind);
            let b = match rng.below(6) {
                0 => a,
                1 => exponent(rng, clamp),
                _ => about_clamp(rng, clamp, kind),
            };
            let (lo, hi) = if rng.one_in(3) {
                ordered(-a, -b)
            } else {
                ordered(a, b)
            };
            if is_sound(lo, hi) {
                return (lo, hi);
            }
        },
    };
    match choice {
        0..=2 => ordered(rng.uniform(-10.0, 10.0), rng.uniform(-10.0, 10.0)),
        3 => {
            let lo = rng.uniform(0.01, 3.0);
            (lo, lo + width)
        }
        4 => {
            let v = rng.uniform(-5.0, 5.0);
            (v, v)
        }
        // Touching zero from either side, at either zero.
        5 => (rng.pick(&[0.0, -0.0]), width),
        6 => (-width, rng.pick(&[0.0, -0.0])),
        7 => rng.pick(&[(0.0, 0.0), (-0.0, 0.0), (0.0, -0.0), (-0.0, -0.0)]),
        8 => ordered(rng.subnormal(), rng.subnormal()),
        9 => ordered(rng.subnormal(), rng.uniform(-1.0, 1.0)),
        10 => (-LARGEST_END, LARGEST_END),
        11 => {
            let v = f64::from_bits(LARGEST_END.to_bits() - rng.below(3) as u64);
            rng.pick(&[(v, v), (-v, v), (-v, -v), (0.0, v), (-v, 0.0)])
        }
        12 => {
            // Two numbers beside each other.
            let v = rng.uniform(-2.0, 2.0);
            ordered(v, rng.near(v, 2))
        }
        13 => {
            let v = rng.pick(&[1e-12, 1e-8, 1e-13, 709.0, 710.0, 746.0]);
            rng.pick(&[(-v, v), (0.0, v), (-v, 0.0), (v, v), (v, 2.0 * v)])
        }
        _ => loop {
            let (lo, hi) = ordered(rng.argument(), rng.argument());
            if is_sound(lo, hi) {
                return (lo, hi);
            }
        },
    }
}

fn ordered(a: f64, b: f64) -> (f64, f64) {
    if b < a { (b, a) } else { (a, b) }
}

/// A NaN of either kind and sign.
fn nan(rng: &mut SplitMix64) -> f64 {
    f64::from_bits(rng.pick(&[
        0x7FF8_0000_0000_0000,
        0xFFF8_0000_0000_0000,
        0x7FF0_0000_0000_0001,
        0xFFFF_FFFF_FFFF_FFFF,
    ]))
}

/// A range that is not sound: reversed, infinite, NaN, or beyond 2^1022.
pub fn unsound_range(rng: &mut SplitMix64) -> (f64, f64) {
    let beyond = f64::from_bits(LARGEST_END.to_bits() + 1 + rng.below(2) as u64);
    let v = rng.uniform(-5.0, 5.0);
    let a = rng.uniform(1.0, 5.0);
    let below_a = f64::from_bits(a.to_bits() - 1);
    let nan = nan(rng);
    let inf = f64::INFINITY;
    let pair = match rng.below(8) {
        // Reversed by one bit.
        0 => rng.pick(&[(a, below_a), (-below_a, -a)]),
        1 => (f64::from_bits(1), rng.pick(&[0.0, -0.0])),
        2 => (v + 1.0, v),
        3 => rng.pick(&[(v, inf), (-inf, v), (-inf, inf), (inf, inf), (inf, -inf)]),
        4 => rng.pick(&[(v, nan), (nan, v), (nan, nan), (nan, inf)]),
        5 => rng.pick(&[
            (v, beyond),
            (-beyond, v),
            (-beyond, beyond),
            (beyond, beyond),
        ]),
        6 => (LARGEST_END, -LARGEST_END),
        _ => (f64::MIN, f64::MAX),
    };
    debug_assert!(!is_sound(pair.0, pair.1));
    pair
}

/// Boxes for a call: mostly few, now and then about 16 or far more, one list in four with an unsound one.
pub fn any_boxes(rng: &mut SplitMix64) -> Vec<(f64, f64)> {
    let count = match rng.below(12) {
        0 | 1 => 15 + rng.below(4),
        2 => 17 + rng.below(60),
        _ => rng.below(4),
    };
    let mut boxes: Vec<(f64, f64)> = (0..count).map(|_| range(rng, Temper::Wild)).collect();
    if rng.one_in(4) && count > 0 {
        let at = rng.below(count);
        boxes[at] = unsound_range(rng);
    }
    boxes
}

/// A problem's own boxes, or others; fewer and more than the variables too.
pub fn boxes_about(rng: &mut SplitMix64, bounds: &[(f64, f64)], temper: Temper) -> Vec<(f64, f64)> {
    let mut boxes = bounds.to_vec();
    match rng.below(4) {
        0 => boxes.truncate(rng.below(boxes.len() + 1)),
        1 => {
            let more = rng.below(17 - boxes.len());
            boxes.extend((0..more).map(|_| range(rng, temper)));
        }
        2 => {
            for place in &mut boxes {
                if rng.one_in(2) {
                    *place = range(rng, Temper::Wild);
                }
            }
        }
        _ => {}
    }
    boxes
}

/// A point: ordinary values, or any f64.
pub fn point(rng: &mut SplitMix64, length: usize) -> Vec<f64> {
    let wild = rng.below(4);
    let value = |rng: &mut SplitMix64| match rng.below(4) {
        k if k < wild => rng.argument(),
        0 => rng.pick(&[0.0, -0.0, 1.0, -1.0, 2.0]),
        1 => rng.uniform(0.0, 4.0),
        _ => rng.uniform(-10.0, 10.0),
    };
    (0..length).map(|_| value(rng)).collect()
}

/// Often fewer or more than the variables.
fn length_about(rng: &mut SplitMix64, variables: usize) -> usize {
    match rng.below(6) {
        0 => rng.below(17),
        1 => variables.saturating_sub(1),
        _ => variables,
    }
}

/// A point that is often shorter or longer than the variables.
pub fn point_about(rng: &mut SplitMix64, variables: usize) -> Vec<f64> {
    let length = length_about(rng, variables);
    point(rng, length)
}

/// Such a point of exponents about a clamp, infinities and NaN too.
pub fn exponents_about(rng: &mut SplitMix64, variables: usize, clamp: f64) -> Vec<f64> {
    let length = if rng.one_in(2) {
        rng.below(variables + 1)
    } else {
        length_about(rng, variables)
    };
    let value = |rng: &mut SplitMix64| match rng.below(8) {
        0 => rng.pick(&[f64::INFINITY, f64::NEG_INFINITY]),
        1 => nan(rng),
        _ => exponent(rng, clamp),
    };
    (0..length).map(|_| value(rng)).collect()
}

/// For a decision: as many as the constraint has, or any number that is taken.
pub fn num_vars_about(rng: &mut SplitMix64, variables: usize) -> usize {
    if rng.one_in(3) {
        rng.below(17)
    } else {
        variables
    }
}

/// Mostly one of the variables, and now and then one beyond them.
pub fn variable_about(rng: &mut SplitMix64, num_vars: usize) -> usize {
    match rng.below(8) {
        0 => num_vars + rng.below(3),
        1 => usize::MAX - rng.below(2),
        _ => rng.below(num_vars.max(1)),
    }
}

/// One of the problem's ranges, or another.
pub fn range_about(rng: &mut SplitMix64, bounds: &[(f64, f64)], temper: Temper) -> (f64, f64) {
    if bounds.is_empty() || rng.one_in(3) {
        range(rng, temper)
    } else {
        rng.pick(bounds)
    }
}

/// A record that is taken: its numbers are often such that they alter answers, and often at an edge; the flag is off.
pub fn settings(rng: &mut SplitMix64) -> Settings {
    let least = f64::from_bits(1);
    let rounds = match rng.below(4) {
        0 => 1 + rng.below(100),
        _ => rng.pick(&[1, 2, 19, 21, 100]),
    };
    let equality = match rng.below(8) {
        0 => f64::MAX,
        // Patterns that are equally likely: any magnitude that has one below it.
        1 | 2 => f64::from_bits(2 + rng.draw() % (f64::MAX.to_bits() - 1)),
        _ => 10_f64.powf(rng.uniform(-8.0, 1.0)),
    };
    let below = next_down(equality);
    let slack = match rng.below(8) {
        0 => least,
        1 => below,
        2 | 3 => f64::from_bits(1 + rng.draw() % below.to_bits()),
        _ => (equality * rng.unit()).clamp(least, below),
    };
    let clamp = match rng.below(8) {
        0 | 1 => rng.pick(&[1.0, 1.5, 708.9, 709.0]),
        2 => rng.uniform(1.0, 709.0),
        _ => rng.uniform(1.0, 5.0),
    };
    Settings {
        rounds,
        equality,
        slack,
        clamp,
        strict: false,
    }
}

/// A record with one number outside its range, or with several.
pub fn refused_settings(rng: &mut SplitMix64) -> Settings {
    let mut made = settings(rng);
    let (at, several) = (rng.below(4), rng.one_in(4));
    for number in 0..4 {
        if number == at || (several && rng.one_in(2)) {
            put_outside(rng, &mut made, number);
        }
    }
    made
}

fn put_outside(rng: &mut SplitMix64, made: &mut Settings, number: usize) {
    let Settings {
        equality, slack, ..
    } = *made;
    let (least, nan, inf) = (f64::from_bits(1), nan(rng), f64::INFINITY);
    match number {
        0 => made.rounds = rng.pick(&[0, 101, 256, (1 << 32) + 20, usize::MAX]),
        1 => {
            let below = next_down(slack);
            made.equality = rng.pick(&[slack, below, 0.0, -0.0, -least, -equality, nan, inf, -inf]);
        }
        2 => {
            let above = next_up(equality);
            made.slack = rng.pick(&[equality, above, 0.0, -0.0, -least, -slack, nan, inf, -inf]);
        }
        _ => {
            let (below, above) = (next_down(1.0), next_up(709.0));
            made.clamp = rng.pick(&[below, above, 0.0, -0.0, -1.0, -709.0, 710.0, nan, inf, -inf]);
        }
    }
}

/// A record that is taken, one that is not, or numbers drawn one by one; with either value of the flag.
pub fn any_settings(rng: &mut SplitMix64) -> Settings {
    let strict = rng.one_in(2);
    let numbers = match rng.below(4) {
        0 => refused_settings(rng),
        1 => {
            let edges = [1e-12, 1e-8, 1.0, 709.0];
            let number = |rng: &mut SplitMix64| match rng.below(3) {
                0 => rng.pick(&edges),
                _ => rng.argument(),
            };
            Settings {
                rounds: rng.below(128),
                equality: number(rng),
                slack: number(rng),
                clamp: number(rng),
                strict: false,
            }
        }
        _ => settings(rng),
    };
    numbers.with_strict(strict)
}

/// Bodies of a file, sound or damaged in up to three places.
fn any_bodies(rng: &mut SplitMix64) -> Bodies {
    let shape = Shape::any(rng);
    let mut bodies = problem(rng, &shape).to_bodies();
    for _ in 0..rng.pick(&[0, 0, 0, 1, 1, 1, 1, 2, 2, 3]) {
        match rng.below(5) {
            0 | 1 => damage_nodes(rng, &mut bodies.nodes),
            2 | 3 => damage_constraints(rng, &mut bodies),
            _ => damage_bounds(rng, &mut bodies.bounds),
        }
    }
    bodies
}

/// Any file: sound, damaged in its records or around them, or noise.
pub fn any_file(rng: &mut SplitMix64) -> Vec<u8> {
    if rng.one_in(40) {
        let length = rng.below(200);
        return (0..length).map(|_| rng.draw() as u8).collect();
    }
    let bodies = any_bodies(rng);
    let mut file = bodies.to_file();
    if rng.one_in(5) {
        damage_file(rng, &mut file, &bodies);
    }
    file
}

/// Any node and constraint bytes, as they are given without a file.
pub fn any_records(rng: &mut SplitMix64) -> (Vec<u8>, Vec<u8>) {
    let Bodies {
        mut nodes,
        mut constraints,
        ..
    } = any_bodies(rng);
    if rng.one_in(20) {
        let list = if rng.one_in(2) {
            &mut nodes
        } else {
            &mut constraints
        };
        if rng.one_in(2) {
            list.truncate(rng.below(list.len() + 1));
        } else {
            list.extend(vec![0; 1 + rng.below(24)]);
        }
    }
    (nodes, constraints)
}

fn set_u32(bytes: &mut [u8], at: usize, value: u32) {
    bytes[at..at + 4].copy_from_slice(&value.to_le_bytes());
}

fn set_f64(bytes: &mut [u8], at: usize, value: f64) {
    bytes[at..at + 8].copy_from_slice(&value.to_le_bytes());
}

/// A byte other than zero.
fn nonzero(rng: &mut SplitMix64) -> u8 {
    1 + rng.below(255) as u8
}

/// A number at a limit, past it, or far past it.
fn field(rng: &mut SplitMix64, limit: u32) -> u32 {
    match rng.below(8) {
        0 => limit,
        1 => limit.wrapping_add(1),
        2 => limit.wrapping_sub(1),
        3 => u32::MAX,
        4 => 1 << rng.below(32),
        5 => rng.draw() as u32,
        _ => rng.below(2 * limit as usize + 2) as u32,
    }
}

/// Damages the nodes in one place, by itself or so that the list becomes too large.
pub fn damage_nodes(rng: &mut SplitMix64, nodes: &mut Vec<u8>) {
    let count = nodes.len() / NODE;
    if count == 0 {
        return;
    }
    let number = rng.below(count);
    let at = number * NODE;
    let record = &mut nodes[at..at + NODE];
    match rng.below(12) {
        0 => record[0] = rng.pick(&[4, 5, 128, 255]),
        1 => record[1 + rng.below(3)] = nonzero(rng),
        // Another kind over the same bytes.
        2 => record[0] = rng.below(4) as u8,
        3 => record[rng.below(NODE)] = nonzero(rng),
        4 => {
            // A child at its own number, past it, or anywhere.
            record[0] = 3;
            record[4..].fill(0);
            let child = field(rng, number as u32);
            set_u32(record, 4 + 4 * rng.below(2), child);
        }
        5 => {
            record.fill(0);
            record[0] = 2;
            let index = field(rng, MAX_VARIABLES as u32 - 1);
            set_u32(record, 4, index);
        }
        6 => {
            record.fill(0);
            record[0] = 1;
            let value = f64::from_bits(rng.pick(&[
                0x7FF0_0000_0000_0000,
                0xFFF0_0000_0000_0000,
                0x7FF8_0000_0000_0000,
                0xFFF0_0000_0000_0001,
                0x7FEF_FFFF_FFFF_FFFF,
            ]));
            set_f64(record, 8, value);
        }
        7 => {
            // An unused byte.
            let unused = match record[0] {
                0 => 4 + rng.below(12),
                1 => 4 + rng.below(4),
                2 => 8 + rng.below(8),
                _ => 12 + rng.below(4),
            };
            record[unused] = nonzero(rng);
        }
        8 | 9 => {
            // Doubling: at the largest size or past it.
            let steps = 11 + rng.below(2);
            append_chain(nodes, steps, true);
            if rng.one_in(2) {
                append_pair(nodes, rng.one_in(2));
            }
        }
        10 => {
            // A chain: at the largest depth or past it.
            let steps = MAX_DEPTH - 2 + rng.below(3);
            append_chain(nodes, steps, false);
        }
        _ => {
            // The count at its limit or past it, the added nodes being sound.
            let wanted = MAX_NODES + rng.below(3) - 1;
            while nodes.len() < wanted * NODE {
                nodes.extend([0; NODE]);
            }
        }
    }
}

fn append_node(nodes: &mut Vec<u8>, left: usize, right: usize) {
    let mut record = [0; NODE];
    record[0] = 3;
    set_u32(&mut record, 4, left as u32);
    set_u32(&mut record, 8, right as u32);
    nodes.extend(record);
}

/// A leaf and `steps` nodes over it, each over the last one, or twice over it.
fn append_chain(nodes: &mut Vec<u8>, steps: usize, doubled: bool) {
    let leaf = nodes.len() / NODE;
    nodes.extend([0; NODE]);
    for step in 0..steps {
        append_node(nodes, leaf + step, if doubled { leaf + step } else { leaf });
    }
}

/// One more node over the last one.
fn append_pair(nodes: &mut Vec<u8>, twice: bool) {
    let last = nodes.len() / NODE - 1;
    append_node(nodes, last, if twice { last } else { 0 });
}

fn append_record(constraints: &mut Vec<u8>, record: Record) {
    constraints.extend(crate::house::constraint_bytes(&[record]));
}

/// Damages the constraints in one place, or adds too much of something.
pub fn damage_constraints(rng: &mut SplitMix64, bodies: &mut Bodies) {
    let nodes = bodies.nodes.len() / NODE;
    let constraints = &mut bodies.constraints;
    let count = constraints.len() / CONSTRAINT;
    if count == 0 {
        return;
    }
    let at = rng.below(count) * CONSTRAINT;
    let record = &mut constraints[at..at + CONSTRAINT];
    match rng.below(14) {
        0 => record[0] = rng.pick(&[11, 12, 64, 255]),
        1 => record[1 + rng.below(3)] = nonzero(rng),
        2 => record[0] = rng.below(11) as u8,
        3 => record[rng.below(CONSTRAINT)] = nonzero(rng),
        4 => {
            // The argument at its limit, past it, or anywhere.
            let limit = match record[0] {
                0..=5 => (nodes as u32).saturating_sub(1),
                6 => 0,
                7 | 8 => u32::from_le_bytes([record[4], record[5], record[6], record[7]]),
                _ => MAX_VARIABLES as u32 - 1,
            };
            let argument = field(rng, limit);
            set_u32(record, 4, argument);
        }
        5 => record[8 + rng.below(16)] = nonzero(rng),
        6 | 7 => {
            // An unsound quantifier at the end.
            let (lo, hi) = unsound_range(rng);
            let variable = rng.below(MAX_VARIABLES);
            let kind = rng.pick(&[kind::FOR_ALL, kind::EXISTS]);
            append_record(constraints, Record::quantifier(kind, variable, lo, hi));
        }
        8 => {
            // A record too few.
            constraints.drain(at..at + CONSTRAINT);
        }
        9 => {
            // A record too many.
            let atom = Record::new(rng.below(6) as u8, rng.below(nodes.max(1)));
            append_record(constraints, atom);
        }
        10 => {
            // Levels at the limit or past it.
            constraints.clear();
            append_record(constraints, Record::new(rng.below(6) as u8, 0));
            for _ in 0..MAX_LEVELS - 2 + rng.below(3) {
                let and = rng.one_in(2);
                let record = if and {
                    Record::new(kind::AND, 1)
                } else {
                    Record::new(kind::NOT, 0)
                };
                append_record(constraints, record);
            }
        }
        11 => {
            // Quantifiers at the limit or past it.
            for _ in 0..MAX_QUANTIFIERS - 1 + rng.below(3) {
                let (lo, hi) = range(rng, Temper::Wild);
                let kind = rng.pick(&[kind::FOR_ALL, kind::EXISTS]);
                append_record(constraints, Record::quantifier(kind, 0, lo, hi));
            }
        }
        12 => {
            // And or Or of what is there, or of one more.
            let argument = rng.below(3);
            append_record(
                constraints,
                Record::new(rng.pick(&[kind::AND, kind::OR]), argument),
            );
        }
        _ => {
            // The count at its limit or past it, or nothing at all.
            if rng.one_in(3) {
                constraints.clear();
            } else {
                let wanted = MAX_CONSTRAINTS + rng.below(3) - 1;
                constraints.clear();
                for _ in 0..wanted - 1 {
                    append_record(constraints, Record::new(kind::GT_ZERO, 0));
                }
                append_record(constraints, Record::new(kind::AND, wanted - 1));
            }
        }
    }
}

/// Makes one range unsound, or the list too long.
pub fn damage_bounds(rng: &mut SplitMix64, bounds: &mut Vec<u8>) {
    if rng.one_in(5) {
        let wanted = MAX_BOUNDS + rng.below(2);
        bounds.resize(wanted * BOUND, 0);
        return;
    }
    if bounds.is_empty() {
        bounds.extend([0; BOUND]);
    }
    let at = rng.below(bounds.len() / BOUND) * BOUND;
    let (lo, hi) = unsound_range(rng);
    set_f64(bounds, at, lo);
    set_f64(bounds, at + 8, hi);
}

/// Damages the file around its records: its first bytes, contents, gaps and length.
pub fn damage_file(rng: &mut SplitMix64, file: &mut Vec<u8>, bodies: &Bodies) {
    let at_constraints = HEADER + bodies.nodes.len();
    let at_bounds = at_constraints + bodies.constraints.len();
    match rng.below(12) {
        0 => file.truncate(rng.below(HEADER)),
        1 => file.truncate(rng.below(file.len())),
        2 => {
            let length = 1 + rng.below(40);
            let byte = rng.pick(&[0, 0, 255, 1]);
            file.extend(vec![byte; length]);
        }
        3 => file[rng.below(8)] ^= nonzero(rng),
        4 => {
            let at = rng.below(file.len());
            file[at] ^= nonzero(rng);
        }
        5 => {
            // A count whose product with the record's length wraps to a small number in 32 bits, or any.
            let counts = [
                0x1000_0000,
                0x1000_0001,
                0x0AAA_AAAB,
                0x8000_0000,
                0xFFFF_FFFF,
                0x4000_0000,
            ];
            let count = rng.pick(&counts);
            set_u32(file, 12 + 8 * rng.below(3), count);
        }
        6 => {
            // A count beside its limit, the bodies staying.
            let body = rng.below(3);
            let limits = [MAX_NODES, MAX_CONSTRAINTS, MAX_BOUNDS];
            let count = field(rng, limits[body] as u32);
            set_u32(file, 12 + 8 * body, count);
        }
        7 => {
            // Bodies over each other, or over the contents.
            let offsets = [0, 8, HEADER, at_constraints, at_bounds, file.len()];
            let offset = rng.pick(&offsets) as u32;
            set_u32(file, 8 + 8 * rng.below(3), offset);
        }
        8 | 9 => {
            // A gap before a body, which the contents follow.
            let body = rng.below(3);
            let starts = [HEADER, at_constraints, at_bounds];
            let gap = rng.pick(&[1, 4, 8, 16, 24]);
            let start = starts[body];
            file.splice(start..start, vec![0; gap]);
            for (later, start) in starts.iter().enumerate().skip(body) {
                set_u32(file, 8 + 8 * later, (start + gap) as u32);
            }
        }
        10 => {
            // The bodies in another order, which the contents follow.
            let mut other = file[..HEADER].to_vec();
            other.extend(&bodies.constraints);
            other.extend(&bodies.nodes);
            other.extend(&bodies.bounds);
            set_u32(&mut other, 8, (HEADER + bodies.constraints.len()) as u32);
            set_u32(&mut other, 16, HEADER as u32);
            *file = other;
        }
        _ => {
            // An offset off by a little, or with a high byte set.
            let at = 8 + 8 * rng.below(3);
            file[at + rng.below(4)] ^= nonzero(rng);
        }
    }
}

#[cfg(test)]
mod tests {
    use super::*;
    use crate::compare::{say, text};
    use crate::eval::EvalCtx;
    use crate::house::{read_file, read_records, records_of};
    use crate::smt::constraint::EmlConstraint;
    use crate::smt::interval::{IntervalDomain, PropResult};
    use crate::tree::{EmlNode, EmlTree};
    use std::sync::Arc;

    /// Expanded size and depth, in document 01's count.
    fn extent(node: &Arc<EmlNode>) -> (usize, usize) {
        match &**node {
            EmlNode::Eml { left, right } => joined(extent(left), extent(right)),
            _ => (1, 1),
        }
    }

    fn levels(c: &EmlConstraint) -> (usize, usize) {
        let below = |list: &[EmlConstraint]| {
            let each = list.iter().map(levels);
            each.fold((0, 0), |a, b| (a.0.max(b.0), a.1.max(b.1)))
        };
        match c {
            EmlConstraint::Not(inner) => (1 + levels(inner).0, levels(inner).1),
            EmlConstraint::And(list) | EmlConstraint::Or(list) => {
                (1 + below(list).0, below(list).1)
            }
            EmlConstraint::ForAll { body, .. } | EmlConstraint::Exists { body, .. } => {
                (1 + levels(body).0, 1 + levels(body).1)
            }
            _ => (1, 0),
        }
    }

    #[test]
    fn the_largest_problem_is_read() {
        let parts = largest();
        assert_eq!(parts.nodes.len(), MAX_NODES);
        assert_eq!(parts.constraints.len(), MAX_CONSTRAINTS);
        assert_eq!(parts.bounds.len(), MAX_BOUNDS);
        let problem = read_file(&parts.to_file()).unwrap();
        let extents = || problem.trees.iter().map(|t| extent(&t.root));
        assert_eq!(extents().map(|e| e.0).max(), Some(4095));
        assert_eq!(extents().map(|e| e.1).max(), Some(MAX_DEPTH));
        assert_eq!(levels(&problem.constraint), (MAX_LEVELS, MAX_QUANTIFIERS));
    }

    /// Every problem is read, its records come back, and every kind, limit and extreme occurs.
    #[test]
    fn problems_are_read() {
        let mut rng = SplitMix64::new(11);
        let mut kinds = [0; 11];
        let mut empty = [0; 2];
        let (mut size, mut depth, mut most_levels, mut most_quantifiers) = (0, 0, 0, 0);
        let (mut nodes, mut constraints) = (0, 0);
        let (mut values, mut none) = (0, 0);
        let count = 20_000;
        for _ in 0..count {
            let shape = Shape::any(&mut rng);
            let parts = problem(&mut rng, &shape);
            let bodies = parts.to_bodies();
            let read = read_file(&parts.to_file()).expect("a problem is read");
            assert_eq!(read.bounds, parts.bounds);
            assert_eq!(records_of(&read.constraint, &read.trees), parts.constraints);
            let again = read_records(&bodies.nodes, &bodies.constraints).unwrap();
            assert_eq!(text(&again.constraint), text(&read.constraint));
            for record in &parts.constraints {
                kinds[record.kind as usize] += 1;
                if record.argument == 0 && [kind::AND, kind::OR].contains(&record.kind) {
                    empty[usize::from(record.kind - kind::AND)] += 1;
                }
            }
            let (l, q) = levels(&read.constraint);
            most_levels = most_levels.max(l);
            most_quantifiers = most_quantifiers.max(q);
            nodes = nodes.max(parts.nodes.len());
            constraints = constraints.max(parts.constraints.len());
            for tree in &read.trees {
                let (s, d) = extent(&tree.root);
                size = size.max(s);
                depth = depth.max(d);
            }
            let point = point(&mut rng, shape.variables);
            let last = read.trees.last();
            let ctx = EvalCtx::new(&point, &Settings::default());
            let has_value = |tree: &EmlTree| tree.eval_real(&ctx).is_ok();
            values += usize::from(last.is_some_and(has_value));
            none += usize::from(last.is_none());
        }
        say(&format!(
            "problems: {count}, records by kind {kinds:?}, empty And and Or {empty:?}, nodes {nodes}, records {constraints}, \
             size {size}, depth {depth}, levels {most_levels}, quantifiers {most_quantifiers}, with a value {values}"
        ));
        assert!(kinds.iter().all(|&n| n >= 1000));
        assert!(empty.iter().all(|&n| n >= 500));
        assert!(nodes >= 1000 && constraints >= 250);
        assert_eq!(size, 4095);
        assert_eq!(depth, MAX_DEPTH);
        assert_eq!(
            (most_levels, most_quantifiers),
            (MAX_LEVELS, MAX_QUANTIFIERS)
        );
        assert!(values >= count / 4);
        assert!(none >= 50);
    }

    /// Each answer of propagation comes up often, and so does a Conflict after something was written.
    #[test]
    fn problems_are_narrowed() {
        let mut rng = SplitMix64::new(15);
        let (mut changed, mut stable, mut conflict, mut conflict_after_writing) = (0, 0, 0, 0);
        let count = 20_000;
        for _ in 0..count {
            let shape = Shape::narrowing(&mut rng);
            let parts = problem(&mut rng, &shape);
            let read = read_file(&parts.to_file()).unwrap();
            let mut domain = IntervalDomain::new(&read.bounds, shape.variables);
            let before = domain.vars.clone();
            match domain.propagate(&read.constraint, &Settings::default()) {
                PropResult::Changed => changed += 1,
                PropResult::Stable => stable += 1,
                PropResult::Conflict if domain.vars != before => conflict_after_writing += 1,
                PropResult::Conflict => conflict += 1,
            }
        }
        say(&format!(
            "narrowing: {count}, Changed {changed}, Stable {stable}, Conflict {conflict}, after writing {conflict_after_writing}"
        ));
        let each = [changed, stable, conflict, conflict_after_writing];
        assert!(each.iter().all(|&n| n >= 1000), "{each:?}");
    }

    #[test]
    fn ranges_are_as_named() {
        let mut rng = SplitMix64::new(12);
        let mut points = 0;
        for _ in 0..100_000 {
            for temper in [
                Temper::Narrowing,
                Temper::Ordinary,
                Temper::Wild,
                Temper::Beyond(rng.uniform(1.0, 709.0)),
            ] {
                let (lo, hi) = range(&mut rng, temper);
                assert!(is_sound(lo, hi), "{lo} {hi}");
                points += usize::from(lo == hi);
            }
            let (lo, hi) = unsound_range(&mut rng);
            assert!(!is_sound(lo, hi), "{lo} {hi}");
        }
        assert!(points >= 1000);
    }

    /// Each number is below its range, in it, and above it, also with the other three in theirs.
    #[test]
    fn settings_are_as_named() {
        let mut rng = SplitMix64::new(16);
        let (mut edges, mut alone) = ([0; 8], [0; 4]);
        for _ in 0..100_000 {
            let taken = settings(&mut rng);
            assert_eq!(taken.refusal(), 0, "{taken:?}");
            let at = [
                taken.rounds == 1,
                taken.rounds == 100,
                taken.equality == f64::MAX,
                taken.equality < 1e-100,
                taken.slack == f64::from_bits(1),
                taken.slack == next_down(taken.equality),
                taken.clamp == 1.0,
                taken.clamp == 709.0,
            ];
            for (count, at) in edges.iter_mut().zip(at) {
                *count += u32::from(at);
            }
            let refused = refused_settings(&mut rng);
            assert_eq!(refused.refusal(), 14, "{refused:?}");
            let usual = Settings::default();
            let mended = [
                Settings {
                    rounds: usual.rounds,
                    ..refused
                },
                Settings {
                    equality: f64::MAX,
                    ..refused
                },
                Settings {
                    slack: f64::from_bits(1),
                    ..refused
                },
                Settings {
                    clamp: usual.clamp,
                    ..refused
                },
            ];
            for (count, mended) in alone.iter_mut().zip(mended) {
                *count += u32::from(mended.refusal() == 0);
            }
        }
        say(&format!(
            "settings: 100000 taken, at their edges {edges:?}; 100000 refused, for one number {alone:?}"
        ));
        assert!(edges.iter().chain(&alone).all(|&n| n >= 1000));
    }

    /// Every number comes up often, and so do files that are read.
    #[test]
    fn every_refusal_comes_up() {
        let mut rng = SplitMix64::new(13);
        let mut numbers = [0; 8];
        let count = 60_000;
        for _ in 0..count {
            let file = any_file(&mut rng);
            numbers[usize::from(read_file(&file).err().unwrap_or(0))] += 1;
        }
        say(&format!(
            "files: {count}, read or refused 1 to 7: {numbers:?}"
        ));
        assert!(numbers.iter().all(|&n| n >= 1000), "{numbers:?}");
    }

    /// The same without a file; 1 is about a file only.
    #[test]
    fn every_refusal_of_records_comes_up() {
        let mut rng = SplitMix64::new(14);
        let mut numbers = [0; 8];
        let count = 60_000;
        for _ in 0..count {
            let (nodes, constraints) = any_records(&mut rng);
            let answer = read_records(&nodes, &constraints);
            numbers[usize::from(answer.err().unwrap_or(0))] += 1;
        }
        say(&format!(
            "records: {count}, read or refused 1 to 7: {numbers:?}"
        ));
        assert_eq!(numbers[1], 0);
        let others = numbers.iter().enumerate().filter(|(n, _)| *n != 1);
        assert!(others.clone().all(|(_, &n)| n >= 1000), "{numbers:?}");
    }
}
