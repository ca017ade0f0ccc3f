//! Shows a house file, one line a record: its number, its kind and what it holds. An f64 is shown by its bits.

use eml::number::bits_of;
use eml::{Constraint, Interval, Node, Problem};
use std::error::Error;

fn shown(range: Interval) -> String {
    format!("{:016X} {:016X}", bits_of(range.lo), bits_of(range.hi))
}

fn main() -> Result<(), Box<dyn Error>> {
    let path = std::env::args_os().nth(1).ok_or("usage: show FILE")?;
    let file = std::fs::read(path)?;
    let problem = Problem::from_bytes(&file)?;
    let records = problem.records();
    for (i, node) in records.read_nodes()?.enumerate() {
        print!("node {i} ");
        match node {
            Node::One => println!("One"),
            Node::Const(value) => println!("Const {:016X}", bits_of(value)),
            Node::Var(var) => println!("Var {var}"),
            Node::Eml { left, right } => println!("Eml {left} {right}"),
        }
    }
    for (i, constraint) in records.read_constraints()?.enumerate() {
        print!("constraint {i} ");
        match constraint {
            Constraint::Atom { relation, node } => println!("{relation:?} {node}"),
            Constraint::Not => println!("Not"),
            Constraint::And(taken) => println!("And {taken}"),
            Constraint::Or(taken) => println!("Or {taken}"),
            Constraint::ForAll { var, range } => println!("ForAll {var} {}", shown(range)),
            Constraint::Exists { var, range } => println!("Exists {var} {}", shown(range)),
        }
    }
    for (i, bound) in problem.bounds().into_iter().enumerate() {
        println!("bound {i} {}", shown(bound));
    }
    Ok(())
}
