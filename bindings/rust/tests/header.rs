//! That eml.h has the package's version, numbers and words.

use eml::calls::{self, DecidePlaces, EvalPlaces};
use eml::{Constraint, Interval, Node, Propagation, Records, Settings};
use eml::{Refusal, Relation, Stop, canonical, format};
use std::fmt::Debug;

const HEADER: &str = include_str!("../../c/eml.h");

fn has(line: &str) {
    assert!(HEADER.contains(line), "eml.h has no {line}");
}

/// A name of the package as C writes it: `EqZero` as `EQ_ZERO`.
fn in_c(name: &str) -> String {
    let mut out = String::new();
    for letter in name.chars() {
        if letter.is_uppercase() && !out.is_empty() {
            out.push('_');
        }
        out.extend(letter.to_uppercase());
    }
    out
}

/// That a name has a number in one of the header's enumerations.
fn has_number(name: &str, number: u8) {
    let line = format!("EML_{name} = {number}");
    let ends = [",", " ", "\n"];
    let found = ends
        .iter()
        .any(|end| HEADER.contains(&format!("{line}{end}")));
    assert!(found, "eml.h has no {line}");
}

/// The name of a value's variant as C writes it.
fn variant_in_c(value: &impl Debug) -> String {
    let text = format!("{value:?}");
    in_c(text.split(['(', ' ']).next().expect("a name"))
}

#[test]
fn the_version() {
    let version = env!("CARGO_PKG_VERSION");
    has(&format!("#define EML_VERSION \"{version}\"\n"));
    for (part, number) in ["MAJOR", "MINOR", "PATCH"].iter().zip(version.split('.')) {
        has(&format!("#define EML_VERSION_{part} {number}\n"));
    }
}

#[test]
fn the_numbers_of_the_format() {
    for (name, number) in [
        ("HEADER_BYTES", format::HEADER_BYTES),
        ("NODE_BYTES", format::NODE_BYTES),
        ("CONSTRAINT_BYTES", format::CONSTRAINT_BYTES),
        ("BOUND_BYTES", format::BOUND_BYTES),
        ("MOST_NODES", format::MOST_NODES),
        ("MOST_CONSTRAINTS", format::MOST_CONSTRAINTS),
        ("MOST_VALUES", format::MOST_VALUES),
        ("LONGEST_FILE", format::LONGEST_FILE),
        ("MOST_SIZE", format::MOST_SIZE),
        ("MOST_DEPTH", format::MOST_DEPTH),
        ("MOST_CONSTRAINT_DEPTH", format::MOST_CONSTRAINT_DEPTH),
        ("MOST_QUANTIFIERS", format::MOST_QUANTIFIERS),
        ("MOST_LIMIT", format::MOST_LIMIT),
        ("LN_NODES", canonical::LN_NODES),
        ("SUB_NODES", canonical::SUB_NODES),
    ] {
        has(&format!("#define EML_{name} {number}\n"));
    }
}

#[test]
fn the_kinds_the_refusals_and_the_stops() {
    let mut seen = 0;
    for number in 0..=u8::MAX {
        if let Ok(relation) = Relation::try_from(number) {
            let name = in_c(&format!("{relation:?}"));
            has(&format!("EML_KIND_{name} = {number},"));
            seen += 1;
        }
        if let Ok(refusal) = Refusal::try_from(number) {
            let name = in_c(&format!("{refusal:?}"));
            has(&format!("EML_REFUSED_{name} = {number}"));
            let text = refusal.text();
            has(&format!("case EML_REFUSED_{name}: return \"{text}\";\n"));
            seen += 1;
        }
        if let Ok(stop) = Stop::try_from(number) {
            let name = in_c(&format!("{stop:?}"));
            has(&format!("EML_{name} = {number}"));
            has(&format!("case EML_{name}: return \"{stop}\";\n"));
            seen += 1;
        }
    }
    assert_eq!(seen, 6 + 11 + 5);
}

/// As the test above, with what follows the number: 1 is not 10.
#[test]
fn the_whole_numbers() {
    for number in 0..=u8::MAX {
        if let Ok(relation) = Relation::try_from(number) {
            has_number(&format!("KIND_{}", variant_in_c(&relation)), number);
        }
        if let Ok(refusal) = Refusal::try_from(number) {
            has_number(&format!("REFUSED_{}", variant_in_c(&refusal)), number);
        }
        if let Ok(stop) = Stop::try_from(number) {
            has_number(&variant_in_c(&stop), number);
        }
    }
}

/// The fields as C has them, in the package's order, and document 01's numbers.
#[test]
fn the_settings() {
    let (_, rest) = HEADER
        .split_once("typedef struct eml_settings {\n")
        .expect("declared");
    let (body, _) = rest.split_once("} eml_settings;\n").expect("ended");
    let lines = body.lines().map(str::trim);
    let fields = lines.filter(|line| !line.starts_with(['/', '*']));
    let usual = Settings::default();
    let text = format!("{usual:?}");
    let names = text.split(['{', ',']).skip(1);
    let names = names.map(|field| field.trim().split(':').next().expect("a name"));
    let types = ["size_t", "double", "double", "double", "bool"];
    let expected = types
        .iter()
        .zip(names)
        .map(|(kind, name)| format!("{kind} {name};"));
    assert!(fields.eq(expected));
    let (rounds, equality, slack, clamp) = (usual.rounds, usual.equality, usual.slack, usual.clamp);
    assert!(!usual.strict);
    has(&format!(
        "Document 01's numbers: {rounds}, {equality:e}, {slack:e} and {clamp}. Not strict."
    ));
}

#[test]
fn the_propagations() {
    let mut seen = 0;
    for number in 0..=u8::MAX {
        if let Ok(propagation) = Propagation::try_from(number) {
            has_number(&format!("PROP_{}", variant_in_c(&propagation)), number);
            seen += 1;
        }
    }
    assert_eq!(seen, 3);
}

#[test]
fn the_kinds_of_records() {
    let nodes = [
        Node::One,
        Node::Const(0.0),
        Node::Var(0),
        Node::Eml { left: 0, right: 0 },
    ];
    for node in nodes {
        has_number(&format!("NODE_{}", variant_in_c(&node)), node.to_bytes()[0]);
    }
    let (var, range) = (0, Interval::new(0.0, 0.0));
    for (name, constraint) in [
        ("NOT", Constraint::Not),
        ("AND", Constraint::And(0)),
        ("OR", Constraint::Or(0)),
        ("FORALL", Constraint::ForAll { var, range }),
        ("EXISTS", Constraint::Exists { var, range }),
    ] {
        has_number(&format!("KIND_{name}"), constraint.to_bytes()[0]);
    }
}

/// The number that the library writes beside the package's name for it, in strict evaluations, which answer every kind.
#[test]
fn the_evaluations() {
    let (ln, exp) = (
        Node::Eml { left: 1, right: 0 },
        Node::Eml { left: 0, right: 1 },
    );
    let nodes = [Node::Var(0), Node::One, ln, exp];
    let nodes = nodes.map(Node::to_bytes).concat();
    let records = Records {
        nodes: &nodes,
        constraints: &[],
    };
    let mut strict = Settings::default();
    strict.strict = true;
    let cases: [(usize, &[f64]); 5] = [
        (0, &[2.0]),
        (0, &[]),
        (0, &[f64::NAN]),
        (2, &[-1.0]),
        (3, &[800.0]),
    ];
    for (number, (node, point)) in (0..).zip(cases) {
        let mut to = EvalPlaces::default();
        calls::eval_real(&nodes, node, point, strict, &mut to).expect("sound");
        assert_eq!(to.kind, number);
        let evaluation = records.eval_real_with(node, point, strict).expect("sound");
        has_number(&format!("EVAL_{}", variant_in_c(&evaluation)), number);
    }
}

/// As [`the_evaluations`], of the constraint that variable 0 is at least 0.
#[test]
fn the_verdicts() {
    let (relation, node) = (Relation::GeZero, 0);
    let records = Records {
        nodes: &Node::Var(0).to_bytes(),
        constraints: &Constraint::Atom { relation, node }.to_bytes(),
    };
    for (number, (forall, lo, hi)) in (0..).zip([
        (true, 1.0, 2.0),
        (false, -1.0, 2.0),
        (true, -1.0, 2.0),
        (false, -2.0, -1.0),
    ]) {
        let range = Interval::new(lo, hi);
        let settings = Settings::default();
        let mut to = DecidePlaces {
            verdict: u8::MAX,
            count: 0,
            point: &mut [0.0],
        };
        let decision = if forall {
            calls::decide_forall(records, 0, range, 1, settings, &mut to).expect("sound");
            records.decide_forall(0, range)
        } else {
            calls::decide_exists(records, 0, range, 1, settings, &mut to).expect("sound");
            records.decide_exists(0, range)
        };
        assert_eq!(to.verdict, number);
        has_number(&variant_in_c(&decision.expect("sound")), number);
    }
}
