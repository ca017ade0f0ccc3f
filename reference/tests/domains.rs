//! IntervalDomain's calls against the Rust's, and their refusals.

use eml::Interval;
use reference::compare::Tally;
use reference::generate;
use reference::house;
use reference::port::{self, bits};
use reference::smt::interval::IntervalDomain;
use reference::splitmix::SplitMix64;

fn listed(boxes: &[(f64, f64)]) -> Vec<Interval> {
    boxes.iter().map(|&ends| ends.into()).collect()
}

/// Too few bounds, too many, or an unsound one, and places for the ends, or too few.
#[test]
fn new() {
    let mut rng = SplitMix64::new(61);
    let mut tally = Tally::new("IntervalDomain::new");
    for _ in 0..200_000 {
        let bounds = generate::any_boxes(&mut rng);
        let (mut lo, mut hi) = port::ends(&bounds);
        match rng.below(20) {
            0 => lo.push(1.0),
            1 => hi.push(1.0),
            _ => {}
        }
        let num_vars = rng.below(18);
        let room = (rng.below(19), rng.below(19));
        let sound = bounds.iter().all(|&(a, b)| house::is_sound(a, b));
        let number = if lo.len() != hi.len() || lo.len() > 16 || !sound || num_vars > 16 {
            9
        } else if num_vars > room.0.min(room.1) {
            10
        } else {
            0
        };
        let theirs = IntervalDomain::new(&bounds, num_vars).vars;
        let theirs: Vec<_> = theirs
            .iter()
            .map(|v| Interval::from((v.lo, v.hi)))
            .collect();
        match port::domain_new(&lo, &hi, num_vars, room) {
            Ok(ours) => assert_eq!((bits(&listed(&ours)), 0), (bits(&theirs), number)),
            Err(refusal) => assert_eq!(refusal, number),
        }
        if lo.len() == hi.len() && number != 10 {
            let ours = eml::IntervalDomain::new(&listed(&bounds), num_vars);
            assert_eq!(port::number(ours), number);
            assert!(ours.is_err() || bits(&ours.expect("taken").vars) == bits(&theirs));
        }
        tally.add(number);
    }
    tally.done(&[0, 9, 10], 10_000);
}

/// Intervals of any f64, and lists that are too long or differ in length.
#[test]
fn is_empty() {
    let mut rng = SplitMix64::new(62);
    let mut tally = Tally::new("IntervalDomain::is_empty");
    let mut counts = [0_u64; 2];
    for _ in 0..200_000 {
        let count = rng.below(18);
        let ordered = !rng.one_in(4);
        let vars: Vec<(f64, f64)> = (0..count)
            .map(|_| (rng.argument(), rng.argument()))
            .map(|(a, b)| {
                if ordered {
                    (a.min(b), a.max(b))
                } else {
                    (a, b)
                }
            })
            .collect();
        let (lo, mut hi) = port::ends(&vars);
        if rng.one_in(20) {
            hi.push(1.0);
        }
        let number = if hi.len() != count || count > 16 {
            9
        } else {
            0
        };
        let ours = port::domain_is_empty(&lo, &hi);
        if number == 0 {
            let theirs = IntervalDomain::new(&vars, count).is_empty();
            assert_eq!(ours, Ok(theirs));
            let mut domain = eml::IntervalDomain::new(&[], count).expect("taken");
            domain.vars.copy_from_slice(&listed(&vars));
            assert_eq!(domain.is_empty(), theirs);
            counts[usize::from(theirs)] += 1;
        }
        assert_eq!(ours.err().unwrap_or(0), number);
        tally.add(number);
    }
    tally.done(&[0, 9], 10_000);
    assert!(counts.iter().all(|&n| n >= 10_000), "{counts:?}");
}
