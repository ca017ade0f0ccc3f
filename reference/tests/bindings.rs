//! The bindings' own answers against those of the calls that the other comparisons use, and their refusals.

use eml::{
    Builder, Constraint, Decision, DecisionError, Evaluation, Interval, Node, Problem, Propagation,
    Records, calls,
};
use reference::compare::{Tally, hex, say, text};
use reference::counted::Answer;
use reference::generate::{self, Shape, Temper};
use reference::port::{self, Evaluated, bits};
use reference::settings::Settings;
use reference::smt::helpers::QuantResult;
use reference::smt::interval::PropResult;
use reference::splitmix::SplitMix64;

/// The bindings' answers as the comparison has them.
fn solution(answer: Result<eml::Solution, eml::Refusal>) -> Result<Answer, u8> {
    let s = answer.map_err(eml::Refusal::number)?;
    Ok(Answer {
        stop: s.stop,
        point: s.point.to_vec(),
        exact: s.exact,
        residual: s.residual,
        halvings: s.halvings,
    })
}

fn evaluation(answer: Result<Evaluation, eml::Refusal>) -> Result<Evaluated, u8> {
    Ok(match answer.map_err(eml::Refusal::number)? {
        Evaluation::Value(x) => Evaluated::Value(x),
        Evaluation::VarOutOfBounds { index, count } => Evaluated::VarOutOfBounds(index, count),
        Evaluation::NanEncountered => Evaluated::NanEncountered,
        Evaluation::ComplexResult(im) => Evaluated::ComplexResult(im),
        Evaluation::ExpOverflow(re) => Evaluated::ExpOverflow(re),
        other => panic!("{other:?}"),
    })
}

fn decision(answer: Result<Decision, DecisionError>) -> Result<QuantResult, u8> {
    let refused = |error| match error {
        DecisionError::Refused(refusal) => refusal.number(),
        other => panic!("{other}"),
    };
    Ok(match answer.map_err(refused)? {
        Decision::True => QuantResult::True,
        Decision::TrueWithWitness(point) => QuantResult::TrueWithWitness(point.to_vec()),
        Decision::FalseWithCounterexample(point) => QuantResult::FalseWithCounterexample {
            counterexample: point.to_vec(),
        },
        Decision::Unknown => QuantResult::Unknown,
    })
}

fn propagation(answer: Result<Propagation, eml::Refusal>) -> Result<PropResult, u8> {
    Ok(match answer.map_err(eml::Refusal::number)? {
        Propagation::Changed => PropResult::Changed,
        Propagation::Stable => PropResult::Stable,
        Propagation::Conflict => PropResult::Conflict,
    })
}

/// Files, sound and damaged, with limits that are taken and that are not.
#[test]
fn files() {
    let mut rng = SplitMix64::new(91);
    let mut tally = Tally::new("bindings on a file");
    for _ in 0..20_000 {
        let file = generate::any_file(&mut rng);
        let limit = rng.pick(&[0, 1, 5, 1_000_001]);
        let tolerance = rng.pick(&[1e-8, f64::INFINITY, f64::NAN]);
        let theirs = port::solve_file(&file, limit, tolerance, &Settings::default(), 16);
        let untested = solution(eml::solve_file(&file, limit, tolerance));
        assert_eq!(text(&untested), text(&theirs));
        let problem = Problem::from_bytes(&file).map_err(eml::Refusal::number);
        let vars = problem.map(|p| p.num_vars() as u64);
        assert_eq!(vars, port::num_vars(&file));
        let tested = problem.and_then(|p| solution(p.solve(limit, tolerance)));
        assert_eq!(text(&tested), text(&theirs));
        tally.add(theirs.err().unwrap_or(0));
    }
    tally.done(&[0, 1, 2, 3, 4, 5, 6, 7, 8], 100);
}

/// Both decisions of the port's calls.
fn decisions(
    records: Records,
    var: usize,
    range: (f64, f64),
    num_vars: usize,
    settings: &Settings,
) -> [Result<QuantResult, port::Refusal>; 2] {
    let Records { nodes, constraints } = records;
    let calls: [port::Decide; 2] = [port::decide_forall, port::decide_exists];
    calls.map(|call| {
        let places = &mut [0.0; 16];
        call(nodes, constraints, var, range, num_vars, settings, places)
    })
}

/// Both decisions about a variable, which are those of the calls with the constraint's own number of variables, or an error where
/// it has no such variable.
fn compare_decisions(records: Records, var: usize, range: (f64, f64), decided: &mut [u64; 2]) {
    let (nodes, constraints) = (records.nodes, records.constraints);
    let interval = Interval::from(range);
    let num_vars = port::num_vars_records(nodes, constraints).map(|n| n as usize);
    assert_eq!(records.num_vars().map_err(eml::Refusal::number), num_vars);
    let ours = [
        records.decide_forall(var, interval),
        records.decide_exists(var, interval),
    ];
    let count = match num_vars {
        Ok(num_vars) if var >= num_vars => {
            let absent = Err(DecisionError::NoSuchVariable { var, num_vars });
            assert_eq!(ours, [absent, absent]);
            decided[1] += 1;
            return;
        }
        Ok(num_vars) => num_vars,
        // Refused whatever the number of variables is.
        Err(_) => 0,
    };
    let theirs = decisions(records, var, range, count, &Settings::default());
    for (ours, theirs) in ours.into_iter().zip(&theirs) {
        assert_eq!(text(&decision(ours)), text(theirs));
    }
    decided[0] += 1;
}

/// Records, points, boxes and outputs, each sometimes such as is refused.
#[test]
fn records() {
    let mut rng = SplitMix64::new(92);
    let settings = Settings::default();
    let mut tally = Tally::new("bindings on records");
    let (mut counts, mut decided) = ([0_u64; 2], [0_u64; 2]);
    for _ in 0..20_000 {
        let (nodes, constraints) = if rng.one_in(2) {
            generate::any_records(&mut rng)
        } else {
            let shape = Shape::narrowing(&mut rng);
            let bodies = generate::problem(&mut rng, &shape).to_bodies();
            (bodies.nodes, bodies.constraints)
        };
        let records = Records {
            nodes: &nodes,
            constraints: &constraints,
        };
        let length = match rng.below(8) {
            0 => 15 + rng.below(4),
            1 => 17 + rng.below(60),
            _ => rng.below(5),
        };

        let point = generate::point(&mut rng, length);
        let passes = records.check(&point).map_err(eml::Refusal::number);
        assert_eq!(passes, port::check(&nodes, &constraints, &point, &settings));
        let residual = records.residual(&point).map_err(eml::Refusal::number);
        let theirs = port::residual(&nodes, &constraints, &point, &settings);
        assert_eq!(residual.map(f64::to_bits), theirs.map(f64::to_bits));
        let node = rng.below(nodes.len() / 16 + 2);
        let ours = evaluation(records.eval_real(node, &point));
        let theirs = port::eval_real(&nodes, node, &point, &settings);
        assert_eq!(text(&ours), text(&theirs));

        let mut boxes: Vec<Interval> = (0..length)
            .map(|_| generate::range(&mut rng, Temper::Wild))
            .map(|(lo, hi)| Interval::new(lo, hi))
            .collect();
        if rng.one_in(8) && length > 0 {
            let (lo, hi) = generate::unsound_range(&mut rng);
            boxes[rng.below(length)] = Interval::new(lo, hi);
        }
        let (mut lo, mut hi): (Vec<f64>, Vec<f64>) = boxes.iter().map(|b| (b.lo, b.hi)).unzip();
        let limit = rng.pick(&[0, 1, 3, 1_000_001]);
        let theirs = port::solve(&nodes, &constraints, (&lo, &hi), limit, 1e-8, &settings, 16);
        let ours = solution(records.solve(&boxes, limit, 1e-8));
        assert_eq!(text(&ours), text(&theirs));
        tally.add(ours.err().unwrap_or(0));

        let (mut narrowed, mut low, mut high) = (boxes.clone(), lo.clone(), hi.clone());
        let theirs = port::propagate(&nodes, &constraints, &settings, &mut lo, &mut hi);
        assert_eq!(propagation(records.propagate(&mut narrowed)), theirs);
        assert_eq!(
            propagation(records.propagate_ends(&mut low, &mut high)),
            theirs
        );
        assert_eq!((hex(&low), hex(&high)), (hex(&lo), hex(&hi)));
        let ends = low
            .iter()
            .zip(&high)
            .map(|(&lo, &hi)| Interval::new(lo, hi));
        assert_eq!(bits(&narrowed), bits(&ends.collect::<Vec<_>>()));

        let var = if rng.one_in(8) {
            rng.below(18)
        } else {
            rng.below(2)
        };
        let range = boxes.first().map_or((-1.0, 1.0), |b| (b.lo, b.hi));
        compare_decisions(records, var, range, &mut decided);

        let before: Vec<u8> = (0..rng.below(200)).map(|_| rng.draw() as u8).collect();
        let (mut ours, mut theirs) = (before.clone(), before);
        assert_eq!(
            records.to_nnf(&mut ours).map_err(eml::Refusal::number),
            port::to_nnf(&nodes, &constraints, &mut theirs)
        );
        assert_eq!(ours, theirs);

        let free = rng.below(12) * 16;
        let mut list = nodes.clone();
        list.resize(list.len() + free, 0);
        let count = nodes.len() / 16;
        let (x, y) = (rng.below(count + 1), rng.below(count + 1));
        let one_for_one = [calls::lt, calls::le, calls::gt, calls::ge];
        let made = [eml::lt, eml::le, eml::gt, eml::ge];
        for (call, compare) in one_for_one.into_iter().zip(made) {
            let (mut ours, mut theirs, mut record) = (list.clone(), list.clone(), [0; 24]);
            let expected = call(&mut theirs, count, x, y, &mut record).map(|()| record);
            assert_eq!(compare(&mut ours, count, x, y), expected);
            assert_eq!(ours, theirs);
            counts[usize::from(expected.is_err())] += 1;
        }
    }
    tally.done(&[0, 2, 3, 4, 5, 6, 7, 8, 9], 100);
    say(&format!(
        "bindings' comparisons: {} made, {} refused, all equal",
        counts[0], counts[1]
    ));
    assert!(counts.iter().all(|&n| n >= 5_000));
    say(&format!(
        "bindings' decisions: {} about a variable of the constraint or on refused records, all equal; {} about another, all told",
        decided[0], decided[1]
    ));
    assert!(decided[0] >= 12_000 && decided[1] >= 2_000);
}

/// The methods that receive a record of numbers, which is taken or refused, against the calls that receive it.
#[test]
fn with_settings() {
    let mut rng = SplitMix64::new(94);
    let mut tally = Tally::new("bindings with settings");
    for _ in 0..20_000 {
        let shape = Shape::narrowing(&mut rng);
        let parts = generate::problem(&mut rng, &shape);
        let (bodies, file) = (parts.to_bodies(), parts.to_file());
        let (nodes, constraints) = (&bodies.nodes[..], &bodies.constraints[..]);
        let records = Records { nodes, constraints };
        let numbers = generate::any_settings(&mut rng);
        let settings = numbers.to_port();

        let theirs = port::solve_file(&file, 5, 1e-8, &numbers, 16);
        let ours = solution(eml::solve_file_with(&file, 5, 1e-8, settings));
        assert_eq!(text(&ours), text(&theirs));
        let problem = Problem::from_bytes(&file).expect("accepted");
        let ours = solution(problem.solve_with(5, 1e-8, settings));
        assert_eq!(text(&ours), text(&theirs));
        tally.add(ours.err().unwrap_or(0));
        let boxes: Vec<Interval> = parts.bounds.iter().map(|&ends| ends.into()).collect();
        let ours = solution(records.solve_with(&boxes, 5, 1e-8, settings));
        assert_eq!(text(&ours), text(&theirs));

        let point = generate::point_about(&mut rng, shape.variables);
        let node = parts.nodes.len() - 1;
        let theirs = port::eval_real(nodes, node, &point, &numbers);
        let ours = evaluation(records.eval_real_with(node, &point, settings));
        assert_eq!(text(&ours), text(&theirs));
        let theirs = port::check(nodes, constraints, &point, &numbers);
        let ours = records.check_with(&point, settings);
        assert_eq!(ours.map_err(eml::Refusal::number), theirs);
        let theirs = port::residual(nodes, constraints, &point, &numbers);
        let ours = records.residual_with(&point, settings);
        assert_eq!(text(&ours.map_err(eml::Refusal::number)), text(&theirs));

        let num_vars = problem.num_vars();
        let domain = eml::IntervalDomain::new(&boxes, num_vars).expect("accepted");
        let middle: Vec<f64> = domain.vars.iter().map(|v| v.midpoint()).collect();
        let theirs = port::check(nodes, constraints, &middle, &numbers);
        let ours = records.check_midpoint_with(&boxes, settings);
        let ours = ours.map(|point| point.map(|point| hex(&point)));
        let theirs = theirs.map(|passes| passes.then(|| hex(&middle)));
        assert_eq!(ours.map_err(eml::Refusal::number), theirs);

        let (mut lo, mut hi) = port::ends(&parts.bounds);
        let (mut low, mut high, mut narrowed) = (lo.clone(), hi.clone(), boxes);
        let theirs = port::propagate(nodes, constraints, &numbers, &mut lo, &mut hi);
        let ours = records.propagate_ends_with(&mut low, &mut high, settings);
        assert_eq!(propagation(ours), theirs);
        assert_eq!((hex(&low), hex(&high)), (hex(&lo), hex(&hi)));
        assert_eq!(
            propagation(records.propagate_with(&mut narrowed, settings)),
            theirs
        );
        let ends = low
            .iter()
            .zip(&high)
            .map(|(&lo, &hi)| Interval::new(lo, hi));
        assert_eq!(bits(&narrowed), bits(&ends.collect::<Vec<_>>()));

        if num_vars > 0 {
            let var = rng.below(num_vars);
            let range = generate::range_about(&mut rng, &parts.bounds, shape.temper);
            let asked = Interval::from(range);
            let ours = [
                records.decide_forall_with(var, asked, settings),
                records.decide_exists_with(var, asked, settings),
            ];
            let theirs = decisions(records, var, range, num_vars, &numbers);
            for (ours, theirs) in ours.into_iter().zip(&theirs) {
                assert_eq!(text(&decision(ours)), text(theirs));
            }
        }
    }
    tally.done(&[0, 14], 5_000);
}

/// A builder makes the same records and bounds of what is read of a problem, and a second look at a problem's box is the check of its
/// midpoint.
#[test]
fn built_again() {
    let mut rng = SplitMix64::new(93);
    let mut passed = 0;
    for _ in 0..5_000 {
        let shape = Shape::any(&mut rng);
        let parts = generate::problem(&mut rng, &shape);
        let file = parts.to_file();
        let problem = Problem::from_bytes(&file).expect("accepted");
        let (records, bounds) = (problem.records(), problem.bounds());
        let (mut nodes, mut constraints) = (vec![0; 16 * 1024], vec![0; 24 * 256]);
        let mut builder = Builder::new(&mut nodes, &mut constraints);
        build_again(&mut builder, problem).expect("accepted");
        let again = builder.records().expect("accepted");
        assert_eq!(again.nodes, records.nodes);
        assert_eq!(again.constraints, records.constraints);
        assert_eq!(bits(builder.bounds()), bits(&bounds));

        let num_vars = problem.num_vars();
        let domain = reference::smt::interval::IntervalDomain::new(&parts.bounds, num_vars);
        let middle: Vec<f64> = domain.vars.iter().map(|v| v.midpoint()).collect();
        let second = records.check_midpoint(&bounds).expect("accepted");
        let passes = port::check(
            records.nodes,
            records.constraints,
            &middle,
            &Settings::default(),
        )
        .expect("accepted");
        assert_eq!(
            second.map(|point| hex(&point)),
            passes.then(|| hex(&middle))
        );
        passed += u64::from(passes);
    }
    say(&format!(
        "builder: 5000 problems built again, all equal; {passed} midpoints pass"
    ));
    assert!((1_000..4_000).contains(&passed));
}

/// Adds to a builder what a problem has.
fn build_again(builder: &mut Builder, problem: Problem) -> Result<(), eml::Refusal> {
    let records = problem.records();
    let mut made = Vec::new();
    for node in records.read_nodes()? {
        let node = match node {
            Node::One => builder.one()?,
            Node::Const(value) => builder.constant(value)?,
            Node::Var(var) => builder.var(var)?,
            Node::Eml { left, right } => builder.eml(made[left as usize], made[right as usize])?,
        };
        made.push(node);
    }
    for constraint in records.read_constraints()? {
        match constraint {
            Constraint::Atom { relation, node } => builder.atom(relation, made[node as usize])?,
            Constraint::Not => builder.not()?,
            Constraint::And(taken) => builder.and(taken)?,
            Constraint::Or(taken) => builder.or(taken)?,
            Constraint::ForAll { var, range } => builder.forall(var, range)?,
            Constraint::Exists { var, range } => builder.exists(var, range)?,
        }
    }
    for bound in problem.bounds() {
        builder.bound(bound.lo, bound.hi)?;
    }
    Ok(())
}
