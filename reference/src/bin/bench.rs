//! The time of the port's calls as a ratio to the Rust's, on the same arguments in one run.
//!
//! Both sides take turns over the rounds. Each time is the median of the rounds, and the ratio is the median of the
//! rounds' ratios, so that a disturbance of the machine in one round does not count.

use eml::{Records, maths, number};
use reference::eval::EvalCtx;
use reference::generate::{self, Shape};
use reference::house::{self, Bodies, Problem};
use reference::settings::Settings;
use reference::smt::helpers::evaluate_constraint_residual;
use reference::smt::interval::{Interval, IntervalDomain};
use reference::smt::nra::EmlNraSolver;
use reference::splitmix::SplitMix64;
use reference::standins::{self, Complex64};
use std::hint::black_box;
use std::time::Instant;

const ROUNDS: usize = 21;
const CALLS: usize = 20_000;

fn median(mut values: Vec<f64>) -> f64 {
    values.sort_by(f64::total_cmp);
    values[values.len() / 2]
}

/// Nanoseconds a call, of one pass.
fn time(calls: usize, pass: &mut impl FnMut()) -> f64 {
    let start = Instant::now();
    pass();
    start.elapsed().as_nanos() as f64 / calls as f64
}

/// Prints one line. Each closure makes `calls` calls in one pass.
fn line(name: &str, calls: usize, mut rust: impl FnMut(), mut port: impl FnMut()) {
    // One pass each to fill the caches.
    rust();
    port();
    let (mut rust_times, mut port_times) = (Vec::new(), Vec::new());
    for round in 0..ROUNDS {
        // Who comes first changes too.
        if round % 2 == 0 {
            rust_times.push(time(calls, &mut rust));
            port_times.push(time(calls, &mut port));
        } else {
            port_times.push(time(calls, &mut port));
            rust_times.push(time(calls, &mut rust));
        }
    }
    let ratios = rust_times.iter().zip(&port_times).map(|(r, p)| p / r);
    let ratio = median(ratios.collect());
    let (rust, port) = (median(rust_times), median(port_times));
    println!("{name:<24} {rust:>10.2} {port:>10.2} {ratio:>7.3}");
}

/// A line for a function of one number.
fn unary(name: &str, xs: &[f64], rust: impl Fn(f64) -> f64, port: impl Fn(f64) -> f64) {
    let rust = || {
        for &x in xs {
            black_box(rust(x));
        }
    };
    let port = || {
        for &x in xs {
            black_box(port(x));
        }
    };
    line(name, xs.len(), rust, port);
}

/// A line for a function of two numbers.
fn binary<T>(
    name: &str,
    xs: &[(f64, f64)],
    rust: impl Fn(f64, f64) -> T,
    port: impl Fn(f64, f64) -> T,
) {
    let rust = || {
        for &(a, b) in xs {
            black_box(rust(a, b));
        }
    };
    let port = || {
        for &(a, b) in xs {
            black_box(port(a, b));
        }
    };
    line(name, xs.len(), rust, port);
}

/// The small functions as calls: the port's are calls too, and the solver's own use of them may be woven into it.
mod called {
    use reference::standins;

    #[inline(never)]
    pub fn abs(x: f64) -> f64 {
        x.abs()
    }

    #[inline(never)]
    pub fn next_up(x: f64) -> f64 {
        standins::next_up(x)
    }

    #[inline(never)]
    pub fn next_down(x: f64) -> f64 {
        standins::next_down(x)
    }

    #[inline(never)]
    pub fn max(a: f64, b: f64) -> f64 {
        standins::max(a, b)
    }

    #[inline(never)]
    pub fn min(a: f64, b: f64) -> f64 {
        standins::min(a, b)
    }
}

/// Reading files: the Rust side builds trees, the port tests the records where they lie.
fn reading() {
    let mut rng = SplitMix64::new(2);
    let small: Vec<Vec<u8>> = (0..200)
        .map(|_| {
            let shape = Shape::small(&mut rng);
            generate::problem(&mut rng, &shape).to_file()
        })
        .collect();
    let largest = vec![generate::largest().to_file(); 20];
    for (name, files) in [("read, small", small), ("read, largest", largest)] {
        let rust = || {
            for file in &files {
                black_box(house::read_file(file).is_ok());
            }
        };
        let port = || {
            for file in &files {
                black_box(eml::Problem::from_bytes(file).is_ok());
            }
        };
        line(name, files.len(), rust, port);
    }
}

/// A problem as each side gets it, with a point.
struct Case {
    problem: Problem,
    bodies: Bodies,
    point: Vec<f64>,
}

fn case(rng: &mut SplitMix64, shape: &Shape) -> Case {
    let parts = generate::problem(rng, shape);
    let bodies = parts.to_bodies();
    let problem = house::read_file(&parts.to_file()).expect("a sound file");
    let point = (0..shape.variables)
        .map(|_| rng.uniform(-2.0, 2.0))
        .collect();
    Case {
        problem,
        bodies,
        point,
    }
}

fn value(problem: &Problem, point: &[f64], settings: &Settings) {
    let tree = problem.trees.last().expect("a node");
    black_box(tree.eval_real(&EvalCtx::new(point, settings)).is_ok());
}

fn residual(problem: &Problem, point: &[f64], settings: &Settings) {
    black_box(evaluate_constraint_residual(
        &problem.constraint,
        point,
        settings,
    ));
}

/// Narrowing alters its boxes, so on both sides they are copied for each call, to a list that is there already.
fn refill<T>(list: &mut Vec<T>, problem: &Problem, of: impl Fn(f64, f64) -> T) {
    list.clear();
    list.extend(problem.bounds.iter().map(|&(lo, hi)| of(lo, hi)));
}

/// So that a few long runs do not outweigh the others.
const LIMIT: usize = 100;

fn solve(problem: &Problem, bounds: &[(f64, f64)], settings: &Settings) {
    let solver = EmlNraSolver {
        max_iterations: LIMIT,
        settings: *settings,
        ..EmlNraSolver::new(bounds.to_vec())
    };
    black_box(solver.solve(&problem.constraint).is_ok());
}

/// The problem as the port gets it.
fn records(c: &Case) -> Records<'_> {
    Records {
        nodes: &c.bodies.nodes,
        constraints: &c.bodies.constraints,
    }
}

/// Two lines: the Rust reads the records in each call, as the port does, and the Rust has built its trees before.
fn both_ways(
    name: &str,
    cases: &[Case],
    mut rust: impl FnMut(&Problem, &Case),
    mut port: impl FnMut(&Case),
) {
    let mut port = || {
        for c in cases {
            port(c);
        }
    };
    let reading = || {
        for c in cases {
            let read = house::read_records(&c.bodies.nodes, &c.bodies.constraints);
            rust(&read.expect("sound"), c);
        }
    };
    line(name, cases.len(), reading, &mut port);
    let built = || {
        for c in cases {
            rust(&c.problem, c);
        }
    };
    line(&format!("{name}, built"), cases.len(), built, &mut port);
}

/// Values, residuals, narrowed boxes and answers of problems like the house's, and of larger ones.
fn solving() {
    let mut rng = SplitMix64::new(3);
    let usual = &Settings::default();
    let mut many = |shape: fn(&mut SplitMix64) -> Shape| -> Vec<Case> {
        let mut cases = Vec::new();
        while cases.len() < 300 {
            let shape = shape(&mut rng);
            let made = case(&mut rng, &shape);
            if !made.problem.trees.is_empty() {
                cases.push(made);
            }
        }
        cases
    };
    for (size, cases) in [
        ("small", many(Shape::narrowing)),
        ("medium", many(Shape::medium)),
    ] {
        both_ways(
            &format!("eval, {size}"),
            &cases,
            |problem, c| value(problem, &c.point, usual),
            |c| {
                let last = c.problem.trees.len() - 1;
                black_box(records(c).eval_real(last, &c.point).is_ok());
            },
        );
        both_ways(
            &format!("residual, {size}"),
            &cases,
            |problem, c| residual(problem, &c.point, usual),
            |c| {
                black_box(records(c).residual(&c.point).is_ok());
            },
        );
        let mut domain = IntervalDomain { vars: Vec::new() };
        let mut narrow = |problem: &Problem, c: &Case| {
            refill(&mut domain.vars, &c.problem, Interval::new);
            black_box(domain.propagate(&problem.constraint, usual));
        };
        let (mut lo, mut hi) = (Vec::new(), Vec::new());
        both_ways(&format!("propagate, {size}"), &cases, &mut narrow, |c| {
            refill(&mut lo, &c.problem, |lo, _| lo);
            refill(&mut hi, &c.problem, |_, hi| hi);
            black_box(records(c).propagate_ends(&mut lo, &mut hi).is_ok());
        });
        let mut boxes = Vec::new();
        both_ways(&format!("intervals, {size}"), &cases, &mut narrow, |c| {
            refill(&mut boxes, &c.problem, |lo, hi| eml::Interval { lo, hi });
            black_box(records(c).propagate(&mut boxes).is_ok());
        });
        both_ways(
            &format!("solve, {size}"),
            &cases,
            |problem, c| solve(problem, &c.problem.bounds, usual),
            |c| {
                let bounds = c.problem.bounds.iter();
                let bounds: Vec<_> = bounds.map(|&(lo, hi)| eml::Interval { lo, hi }).collect();
                black_box(records(c).solve(&bounds, LIMIT, 1e-8).is_ok());
            },
        );
    }
}

fn main() {
    let mut rng = SplitMix64::new(1);
    let mut many = |lo: f64, hi: f64| -> Vec<f64> {
        let draws = (0..CALLS).map(|_| rng.uniform(lo, hi));
        draws.collect()
    };
    let wide = many(-700.0, 700.0);
    let ordinary = many(-10.0, 10.0);
    let positive = many(1e-3, 1e3);
    let units = many(0.0, 1.0);
    let other = many(-10.0, 10.0);
    let pairs: Vec<(f64, f64)> = ordinary.iter().copied().zip(other).collect();
    let subnormal: Vec<f64> = (0..CALLS).map(|_| rng.subnormal().abs()).collect();

    println!(
        "{:<24} {:>10} {:>10} {:>7}",
        "call", "ns Rust", "ns port", "ratio"
    );
    unary("exp", &ordinary, standins::exp, maths::exp);
    unary("exp, wide", &wide, standins::exp, maths::exp);
    unary("ln", &positive, standins::ln, maths::ln);
    unary("ln, subnormal", &subnormal, standins::ln, maths::ln);
    unary("sin", &ordinary, standins::sin, maths::sin);
    unary("cos", &ordinary, standins::cos, maths::cos);
    unary("atan", &units, standins::atan, maths::atan);
    unary("abs", &ordinary, called::abs, number::abs);
    unary("next_up", &ordinary, called::next_up, number::next_up);
    unary("next_down", &ordinary, called::next_down, number::next_down);
    binary("max", &pairs, called::max, number::max);
    binary("min", &pairs, called::min, number::min);
    let rust_exp = |re, im| {
        let z = Complex64::new(re, im).exp();
        (z.re, z.im)
    };
    let rust_ln = |re, im| {
        let z = Complex64::new(re, im).ln();
        (z.re, z.im)
    };
    binary("complex exp", &pairs, rust_exp, maths::complex_exp);
    binary("complex ln", &pairs, rust_ln, maths::complex_ln);
    reading();
    solving();
}
