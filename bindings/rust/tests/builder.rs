//! What the builder writes, and that a refusal adds nothing.

use eml::format::{CONSTRAINT_BYTES, MOST_CONSTRAINTS, MOST_NODES, MOST_VALUES, NODE_BYTES};
use eml::{Builder, Constraint, Interval, Node, Problem, Refusal, Relation, canonical};

/// Room for the most that a problem may have, and for one more of each.
fn buffers() -> (Vec<u8>, Vec<u8>) {
    let nodes = vec![0xAA; NODE_BYTES * (MOST_NODES + 1)];
    (nodes, vec![0xAA; CONSTRAINT_BYTES * (MOST_CONSTRAINTS + 1)])
}

/// Every kind of node and constraint, as its record says.
#[test]
fn every_kind() -> Result<(), Refusal> {
    let (mut nodes, mut constraints) = buffers();
    let mut builder = Builder::new(&mut nodes, &mut constraints);
    let (one, half, x) = (builder.one()?, builder.constant(0.5)?, builder.var(3)?);
    let width = builder.eml(x, half)?;
    builder.atom(Relation::GtZero, width)?;
    builder.not()?;
    builder.atom(Relation::NeZero, one)?;
    builder.or(2)?;
    builder.forall(3, (0.0, 1.0))?;
    builder.exists(15, Interval::point(2.0))?;
    builder.and(1)?;
    let records = builder.records()?;
    let expected = [
        Node::One,
        Node::Const(0.5),
        Node::Var(3),
        Node::Eml { left: 2, right: 1 },
    ];
    assert!(records.read_nodes()?.eq(expected));
    assert_eq!(records.nodes, expected.map(Node::to_bytes).concat());
    let (relation, node) = (Relation::GtZero, 3);
    let range = (0.0, 1.0).into();
    let two = Interval::point(2.0);
    let expected = [
        Constraint::Atom { relation, node },
        Constraint::Not,
        Constraint::Atom {
            relation: Relation::NeZero,
            node: 0,
        },
        Constraint::Or(2),
        Constraint::ForAll { var: 3, range },
        Constraint::Exists {
            var: 15,
            range: two,
        },
        Constraint::And(1),
    ];
    assert!(records.read_constraints()?.eq(expected));
    let bytes = expected.map(Constraint::to_bytes).concat();
    assert_eq!(records.constraints, bytes);
    assert_eq!(records.num_vars(), Ok(16));
    Ok(())
}

/// The numbers of the refusals, and that what was built before them is all that there is.
#[test]
fn refusals() -> Result<(), Refusal> {
    let (mut nodes, mut constraints) = buffers();
    let (mut others, mut none) = ([0; 16 * 3], []);
    let mut other = Builder::new(&mut others, &mut none);
    let foreign = [other.one()?, other.one()?, other.one()?][2];
    assert_eq!(other.one(), Err(Refusal::TooShort));
    assert_eq!(other.ln(foreign), Err(Refusal::TooShort));
    assert_eq!(
        other.atom(Relation::EqZero, foreign),
        Err(Refusal::TooShort)
    );

    let mut builder = Builder::new(&mut nodes, &mut constraints);
    let x = builder.var(0)?;
    assert_eq!(builder.var(16), Err(Refusal::Node));
    assert_eq!(builder.constant(f64::INFINITY), Err(Refusal::Node));
    assert_eq!(builder.eml(x, foreign), Err(Refusal::Node));
    assert_eq!(builder.ln(foreign), Err(Refusal::Node));
    assert_eq!(builder.lt(foreign, x), Err(Refusal::Node));
    let refused = Err(Refusal::Constraint);
    assert_eq!(builder.atom(Relation::EqZero, foreign), refused);
    assert_eq!((builder.not(), builder.and(1)), (refused, refused));
    assert_eq!(builder.or(u32::MAX), refused);
    assert_eq!(builder.records().unwrap_err(), Refusal::Nesting);
    builder.atom(Relation::EqZero, x)?;
    assert_eq!(builder.forall(16, (0.0, 1.0)), refused);
    assert_eq!(builder.exists(0, (1.0, 0.0)), Err(Refusal::Range));
    let records = builder.records()?;
    assert_eq!((records.nodes.len(), records.constraints.len()), (16, 24));
    assert_eq!(nodes[16..32], [0xAA; 16]);
    assert_eq!(constraints[24..48], [0xAA; 24]);
    Ok(())
}

/// With no room: 10 comes first of what adds one record, and last of what is one call of the library.
#[test]
fn bad_operands_without_room() -> Result<(), Refusal> {
    let (mut nodes, mut none) = ([0; NODE_BYTES * 129], []);
    let mut full = Builder::new(&mut nodes, &mut none);
    let (x, one) = (full.var(0)?, full.one()?);
    let mut deep = x;
    for _ in 1..128 {
        deep = full.eml(deep, one)?;
    }
    let (mut nodes, mut constraints) = buffers();
    let mut other = Builder::new(&mut nodes, &mut constraints);
    for _ in 0..129 {
        other.one()?;
    }
    let foreign = other.one()?;

    for bad in [foreign, deep] {
        assert_eq!(full.eml(bad, one), Err(Refusal::TooShort));
    }
    let refused = Err(Refusal::TooShort);
    assert_eq!(full.atom(Relation::EqZero, foreign), refused);
    for (bad, refusal) in [
        (foreign, Refusal::Node),
        (deep, Refusal::Extent),
        (x, Refusal::TooShort),
    ] {
        assert_eq!(full.ln(bad), Err(refusal));
        assert_eq!(full.sub(bad, one), Err(refusal));
        for compare in [Builder::lt, Builder::le, Builder::gt, Builder::ge] {
            assert_eq!(compare(&mut full, bad, one), Err(refusal));
        }
    }
    Ok(())
}

/// Each limit is reached, and the next step refused.
#[test]
fn limits() -> Result<(), Refusal> {
    let (mut nodes, mut constraints) = buffers();
    let mut builder = Builder::new(&mut nodes, &mut constraints);
    let mut deep = builder.var(0)?;
    let one = builder.one()?;
    for _ in 1..128 {
        deep = builder.eml(deep, one)?;
    }
    assert_eq!(builder.eml(deep, one), Err(Refusal::Extent));
    builder.atom(Relation::GtZero, deep)?;
    for _ in 0..4 {
        builder.exists(0, (0.0, 1.0))?;
    }
    assert_eq!(builder.exists(0, (0.0, 1.0)), Err(Refusal::Nesting));
    for _ in 5..16 {
        builder.not()?;
    }
    assert_eq!(builder.not(), Err(Refusal::Nesting));
    for _ in 16..MOST_CONSTRAINTS - 1 {
        builder.atom(Relation::GtZero, one)?;
    }
    builder.lt(one, one)?;
    assert_eq!(builder.lt(one, one), Err(Refusal::TooShort));
    for _ in 129 + canonical::SUB_NODES..MOST_NODES {
        builder.one()?;
    }
    assert_eq!(builder.one(), Err(Refusal::TooShort));
    assert_eq!(builder.sub(one, one), Err(Refusal::TooShort));
    for _ in 0..MOST_VALUES {
        builder.bound(0.0, 1.0)?;
    }
    assert_eq!(builder.bound(0.0, 1.0), Err(Refusal::Boxes));
    assert_eq!(builder.bounds().len(), MOST_VALUES);
    assert_eq!(builder.records().unwrap_err(), Refusal::Nesting);
    Ok(())
}

/// An example built anew from what is read of it.
#[test]
fn an_example_again() -> Result<(), Refusal> {
    let file = include_bytes!("../../../examples/two_bars.emlq");
    let problem = Problem::from_bytes(file)?;
    let (mut nodes, mut constraints) = buffers();
    let mut builder = Builder::new(&mut nodes, &mut constraints);
    let (x, y) = (builder.var(0)?, builder.var(1)?);
    let difference = builder.eml(x, y)?;
    builder.atom(Relation::EqZero, difference)?;
    builder.forall(2, (-1.0, 1.0))?;
    for bound in problem.bounds() {
        builder.bound(bound.lo, bound.hi)?;
    }
    let (ours, theirs) = (builder.records()?, problem.records());
    assert_eq!(ours.nodes, theirs.nodes);
    assert_eq!(ours.constraints, theirs.constraints);
    let solution = ours.solve(builder.bounds(), 10_000, 1e-8);
    assert_eq!(solution, problem.solve(10_000, 1e-8));
    Ok(())
}
