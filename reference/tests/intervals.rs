//! Interval's methods against the Rust's, on any f64: NaN, infinities and reversed ends too.

use reference::compare::Comparison;
use reference::smt::interval::Interval;
use reference::splitmix::{SPECIALS, SplitMix64};

/// Each call is compared at least this often.
const ENOUGH: u64 = 1_000_000;

fn ends(i: Interval) -> [f64; 2] {
    [i.lo, i.hi]
}

fn our_ends(i: eml::Interval) -> [f64; 2] {
    [i.lo, i.hi]
}

fn number(test: bool) -> f64 {
    f64::from(u8::from(test))
}

/// Pairs of specials, and random pairs: any patterns, ends near each other, ordinary numbers.
fn at_two<const M: usize>(mut c: Comparison<2, M>, seed: u64) {
    let mut rng = SplitMix64::new(seed);
    for a in SPECIALS {
        for b in SPECIALS {
            c.at([f64::from_bits(a), f64::from_bits(b)]);
        }
    }
    for _ in 0..ENOUGH {
        let a = rng.argument();
        let b = if rng.one_in(3) {
            rng.near(a, 4)
        } else {
            rng.argument()
        };
        c.at([a, b]);
    }
    c.done(ENOUGH);
}

/// What zeros can meet: both of them, the numbers beside them, others, and no number.
const AROUND_ZERO: [f64; 9] = [
    0.0,
    -0.0,
    f64::from_bits(1),
    -f64::from_bits(1),
    1.0,
    -1.0,
    f64::INFINITY,
    f64::NEG_INFINITY,
    f64::NAN,
];

/// Four ends of which most are a zero: every four of the above, and as many random ones as elsewhere. Two zeros with different signs
/// meet at lo in at least a fifth of the random ones, and at hi in as many.
fn at_zeros(mut c: Comparison<4, 2>, seed: u64) {
    for a in AROUND_ZERO {
        for b in AROUND_ZERO {
            for x in AROUND_ZERO {
                for y in AROUND_ZERO {
                    c.at([a, b, x, y]);
                }
            }
        }
    }
    let mut rng = SplitMix64::new(seed);
    let mut met = [0_u64; 2];
    for _ in 0..ENOUGH {
        let mut end = || match rng.below(6) {
            0 => rng.argument(),
            1 => rng.pick(&AROUND_ZERO),
            _ => rng.pick(&[0.0, -0.0]),
        };
        let [a, b, x, y] = [end(), end(), end(), end()];
        for (count, (p, q)) in met.iter_mut().zip([(a, x), (b, y)]) {
            *count += u64::from(p == q && p.is_sign_negative() != q.is_sign_negative());
        }
        c.at([a, b, x, y]);
    }
    assert!(met.iter().all(|&n| n >= ENOUGH / 5));
    c.done(ENOUGH);
}

/// Two intervals, which touch, overlap, lie apart or are reversed.
fn at_four<const M: usize>(mut c: Comparison<4, M>, seed: u64) {
    let mut rng = SplitMix64::new(seed);
    for _ in 0..ENOUGH {
        let (a, b) = (rng.argument(), rng.argument());
        let mut other = || match rng.below(4) {
            0 => rng.near(a, 3),
            1 => rng.near(b, 3),
            _ => rng.argument(),
        };
        let (x, y) = (other(), other());
        c.at([a, b, x, y]);
    }
    c.done(ENOUGH);
}

#[test]
fn methods_of_one_interval() {
    at_two(
        Comparison::new(
            "Interval::is_empty",
            |[lo, hi]| [number(Interval::new(lo, hi).is_empty())],
            |[lo, hi]| [number(eml::Interval::new(lo, hi).is_empty())],
        ),
        51,
    );
    at_two(
        Comparison::new(
            "Interval::width",
            |[lo, hi]| [Interval::new(lo, hi).width()],
            |[lo, hi]| [eml::Interval::new(lo, hi).width()],
        ),
        52,
    );
    at_two(
        Comparison::new(
            "Interval::midpoint",
            |[lo, hi]| [Interval::new(lo, hi).midpoint()],
            |[lo, hi]| [eml::Interval::new(lo, hi).midpoint()],
        ),
        53,
    );
    at_two(
        Comparison::new(
            "Interval::split",
            |[lo, hi]| {
                let (lower, upper) = Interval::new(lo, hi).split();
                [lower.lo, lower.hi, upper.lo, upper.hi]
            },
            |[lo, hi]| {
                let (lower, upper) = eml::Interval::new(lo, hi).split();
                [lower.lo, lower.hi, upper.lo, upper.hi]
            },
        ),
        54,
    );
    at_two(
        Comparison::new(
            "Interval::exp",
            |[lo, hi]| ends(Interval::new(lo, hi).exp()),
            |[lo, hi]| our_ends(eml::Interval::new(lo, hi).exp()),
        ),
        55,
    );
    at_two(
        Comparison::new(
            "Interval::ln",
            |[lo, hi]| ends(Interval::new(lo, hi).ln()),
            |[lo, hi]| our_ends(eml::Interval::new(lo, hi).ln()),
        ),
        56,
    );
}

#[test]
fn constructors_and_inverses() {
    at_two(
        Comparison::new(
            "Interval::new",
            |[lo, hi]| ends(Interval::new(lo, hi)),
            |[lo, hi]| our_ends(eml::Interval::new(lo, hi)),
        ),
        60,
    );
    at_two(
        Comparison::new(
            "Interval::point",
            |[v, _]| ends(Interval::point(v)),
            |[v, _]| our_ends(eml::Interval::point(v)),
        ),
        61,
    );
    at_two(
        Comparison::new(
            "Interval::exp_inv",
            |[lo, hi]| ends(Interval::new(lo, hi).exp_inv()),
            |[lo, hi]| our_ends(eml::Interval::new(lo, hi).exp_inv()),
        ),
        62,
    );
    at_two(
        Comparison::new(
            "Interval::ln_inv",
            |[lo, hi]| ends(Interval::new(lo, hi).ln_inv()),
            |[lo, hi]| our_ends(eml::Interval::new(lo, hi).ln_inv()),
        ),
        63,
    );
}

fn intersections(name: &'static str) -> Comparison<4, 2> {
    Comparison::new(
        name,
        |[a, b, x, y]| ends(Interval::new(a, b).intersect(&Interval::new(x, y))),
        |[a, b, x, y]| our_ends(eml::Interval::new(a, b).intersect(eml::Interval::new(x, y))),
    )
}

fn hulls(name: &'static str) -> Comparison<4, 2> {
    Comparison::new(
        name,
        |[a, b, x, y]| ends(Interval::new(a, b).hull(&Interval::new(x, y))),
        |[a, b, x, y]| our_ends(eml::Interval::new(a, b).hull(eml::Interval::new(x, y))),
    )
}

#[test]
fn methods_of_two() {
    at_four(intersections("Interval::intersect"), 57);
    at_four(hulls("Interval::hull"), 58);
    at_four(
        Comparison::new(
            "Interval::contains",
            |[a, b, x, _]| [number(Interval::new(a, b).contains(x))],
            |[a, b, x, _]| [number(eml::Interval::new(a, b).contains(x))],
        ),
        59,
    );
}

/// Where the two sides must choose the same zero.
#[test]
fn ends_of_both_zeros() {
    at_zeros(intersections("Interval::intersect at zeros"), 64);
    at_zeros(hulls("Interval::hull at zeros"), 65);
}
