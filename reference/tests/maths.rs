//! The proved mathematics against the Rust stand-ins: equal in every bit, a NaN counting as a NaN.

use eml::{maths, number};
use reference::compare::{Comparison, say};
use reference::splitmix::{SPECIALS, SplitMix64};
use reference::standins::{self, Complex64};

/// The factors before `nearest` in exp, and in sin and cos.
const INV_LN2: f64 = f64::from_bits(0x3FF7_1547_652B_82FE);
const INV_QUARTER: f64 = f64::from_bits(0x3FE4_5F30_6DC9_C883);
/// The mantissa above which ln halves it.
const LN_FOLD: u64 = 0x3FF6_A09E_667F_3BCD;
const FRACTION: u64 = (1 << 52) - 1;
/// A quarter turn.
const QUARTER: f64 = std::f64::consts::FRAC_PI_2;

/// The specials, every power of two, ln's mantissa at every exponent, and the ends of every test in document 01, each with
/// its neighbours in bits and both signs.
fn edges(c: &mut Comparison<1, 1>) {
    for bits in SPECIALS {
        c.around(f64::from_bits(bits), 8);
    }
    for exponent in 0..2047_u64 {
        c.around(f64::from_bits(exponent << 52), 3);
        c.around(f64::from_bits((exponent << 52) | (LN_FOLD & FRACTION)), 3);
    }
    for place in 0..52 {
        c.around(f64::from_bits(1 << place), 3);
        let mantissa = (1 << 52) | (LN_FOLD & FRACTION);
        c.around(f64::from_bits(mantissa >> (52 - place)), 3);
    }
    let ends = [
        709.0,
        710.0,
        745.0,
        746.0,
        1_048_576.0,
        0.4142,
        1.0,
        2.0,
        0.5,
        10.0,
        1e-12,
        1e-8,
        QUARTER,
    ];
    for x in ends {
        c.around(x, 100);
    }
    // Where exp overflows, becomes subnormal and becomes zero.
    for x in [
        709.782712893384,
        708.3964185322641,
        744.4400719213812,
        745.1332191019412,
    ] {
        c.around(x, 1000);
    }
}

/// Arguments at which x * factor lies at or beside k + 1/2; returns how many lay at it.
fn ties(c: &mut Comparison<1, 1>, factor: f64, k: u32, steps: i64) -> u64 {
    let x = (f64::from(k) + 0.5) / factor;
    c.around(x, steps);
    let at = (-steps..=steps)
        .map(|step| f64::from_bits(x.to_bits().wrapping_add_signed(step)))
        .filter(|x| (x * factor).fract() == 0.5);
    2 * at.count() as u64
}

/// A number of either sign whose exponent is uniform in a range.
fn scaled(rng: &mut SplitMix64, least: i32, most: i32) -> f64 {
    let exponent = least + rng.below((most - least + 1) as usize) as i32;
    let bits = rng.draw();
    f64::from_bits((bits & (1 << 63)) | (((exponent + 1023) as u64) << 52) | (bits & FRACTION))
}

#[test]
fn exp() {
    let mut c = Comparison::new("exp", |[x]| [standins::exp(x)], |[x]| [maths::exp(x)]);
    edges(&mut c);
    let at: u64 = (0..1078).map(|k| ties(&mut c, INV_LN2, k, 12)).sum();
    assert!(at >= 1000, "only {at} ties");
    let mut rng = SplitMix64::new(101);
    for _ in 0..10_000_000 {
        let x = match rng.below(10) {
            0 => rng.pattern(),
            1 => rng.argument(),
            2 => rng.uniform(-746.0, -707.0),
            3 => scaled(&mut rng, -60, 9),
            4 => rng.uniform(-1.0, 1.0),
            5 => {
                let x = (rng.below(2100) as f64 - 1076.0 + 0.5) / INV_LN2;
                rng.near(x, 100)
            }
            _ => rng.uniform(-746.0, 710.0),
        };
        c.at([x]);
    }
    say(&format!("exp: {at} of them at ties of nearest"));
    c.done(10_000_000);
}

#[test]
fn ln() {
    let mut c = Comparison::new("ln", |[x]| [standins::ln(x)], |[x]| [maths::ln(x)]);
    edges(&mut c);
    let mut rng = SplitMix64::new(102);
    for _ in 0..10_000_000 {
        let x = match rng.below(10) {
            0 => rng.pattern(),
            1 => rng.argument(),
            2 => rng.subnormal().abs(),
            3 => 1.0 + scaled(&mut rng, -53, -1),
            4 => rng.uniform(0.5, 2.0),
            5 => {
                let exponent = (rng.below(2046) as u64 + 1) << 52;
                rng.near(f64::from_bits(exponent | (LN_FOLD & FRACTION)), 100)
            }
            6 => rng.uniform(0.0, 100.0),
            _ => rng.pattern().abs(),
        };
        c.at([x]);
    }
    c.done(10_000_000);
}

fn angles(
    name: &'static str,
    rust: fn([f64; 1]) -> [f64; 1],
    port: fn([f64; 1]) -> [f64; 1],
    seed: u64,
) {
    let mut c = Comparison::new(name, rust, port);
    edges(&mut c);
    let mut at: u64 = (0..4096).map(|k| ties(&mut c, INV_QUARTER, k, 4)).sum();
    let mut rng = SplitMix64::new(seed);
    for _ in 0..20_000 {
        let k = rng.below(667_544) as u32;
        at += ties(&mut c, INV_QUARTER, k, 3);
        // Whole quarter turns, where the remaining angle is all cancellation.
        c.around(f64::from(k) * QUARTER, 2);
    }
    assert!(at >= 1000, "only {at} ties");
    for _ in 0..1_500_000 {
        let x = match rng.below(10) {
            0 => rng.pattern(),
            1 => rng.argument(),
            2 => rng.uniform(-7.0, 7.0),
            3 => scaled(&mut rng, -60, 3),
            4 => scaled(&mut rng, -1022, 20),
            5 => rng.subnormal(),
            _ => rng.uniform(-1_048_576.0, 1_048_576.0),
        };
        c.at([x]);
    }
    say(&format!("{name}: {at} of them at ties of nearest"));
    c.done(1_000_000);
}

#[test]
fn sin() {
    angles("sin", |[x]| [standins::sin(x)], |[x]| [maths::sin(x)], 103);
}

#[test]
fn cos() {
    angles("cos", |[x]| [standins::cos(x)], |[x]| [maths::cos(x)], 104);
}

#[test]
fn atan() {
    let mut c = Comparison::new("atan", |[x]| [standins::atan(x)], |[x]| [maths::atan(x)]);
    edges(&mut c);
    let mut rng = SplitMix64::new(105);
    for _ in 0..2_000_000 {
        let x = match rng.below(8) {
            0 => rng.pattern(),
            1 => rng.argument(),
            2 => scaled(&mut rng, -60, -1).abs(),
            3 => rng.near(0.4142, 1000),
            4 => rng.near(1.0, 1000),
            _ => rng.unit(),
        };
        c.at([x]);
    }
    c.done(1_000_000);
}

#[test]
fn abs_and_neighbours() {
    let mut abs = Comparison::new("abs", |[x]| [x.abs()], |[x]| [number::abs(x)]);
    let mut up = Comparison::new(
        "next_up",
        |[x]| [standins::next_up(x)],
        |[x]| [number::next_up(x)],
    );
    let mut down = Comparison::new(
        "next_down",
        |[x]| [standins::next_down(x)],
        |[x]| [number::next_down(x)],
    );
    // Clause 5.3.1 by a second reading, that of Rust's own library.
    let mut up2 = Comparison::new(
        "next_up by Rust's library",
        |[x]| [x.next_up()],
        |[x]| [number::next_up(x)],
    );
    let mut down2 = Comparison::new(
        "next_down by Rust's library",
        |[x]| [x.next_down()],
        |[x]| [number::next_down(x)],
    );
    for c in [&mut abs, &mut up, &mut down, &mut up2, &mut down2] {
        edges(c);
        // Each pattern about the cases that the clause names, of both signs: zero and the least numbers; the largest, the
        // infinity and the first NaNs; the quiet NaN; the last NaNs.
        for bits in [0, f64::INFINITY.to_bits(), f64::NAN.to_bits(), !0 >> 1] {
            c.around(f64::from_bits(bits), 100_000);
        }
        let mut rng = SplitMix64::new(106);
        for _ in 0..1_500_000 {
            c.at([rng.argument()]);
        }
    }
    for c in [abs, up, down, up2, down2] {
        c.done(1_000_000);
    }
}

/// Clause 5.3.1 by the cases that it names, in its order; and nextDown(x) is -nextUp(-x).
#[test]
fn neighbours_by_the_clause() {
    let least = f64::from_bits(1);
    let named = [
        (-least, -0.0),
        (0.0, least),
        (-0.0, least),
        (f64::INFINITY, f64::INFINITY),
        (f64::NEG_INFINITY, f64::MIN),
    ];
    for (x, next) in named {
        assert_eq!(number::next_up(x).to_bits(), next.to_bits(), "{x}");
        assert_eq!(number::next_down(-x).to_bits(), (-next).to_bits(), "{x}");
    }
    for nan in [f64::NAN, -f64::NAN] {
        assert!(number::next_up(nan).is_nan() && number::next_down(nan).is_nan());
    }
}

#[test]
fn bits_and_signs() {
    // The sign as a number, and the bits through the pattern of a number, so that one comparison serves all.
    let mut sign = Comparison::new(
        "sign_bit",
        |[x]| [f64::from(u8::from(standins::sign_bit(x)))],
        |[x]| [f64::from(u8::from(number::sign_bit(x)))],
    );
    let mut of = Comparison::new("of_bits", |[x]| [x], |[x]| [number::of_bits(x.to_bits())]);
    edges(&mut sign);
    edges(&mut of);
    let mut rng = SplitMix64::new(107);
    for _ in 0..1_500_000 {
        let x = rng.argument();
        sign.at([x]);
        of.at([x]);
    }
    sign.done(1_000_000);
    of.done(1_000_000);

    let mut count = 0;
    let mut check = |x: f64| {
        // One pattern stands for every NaN.
        let bits = if x.is_nan() {
            0x7FF8_0000_0000_0000
        } else {
            x.to_bits()
        };
        assert_eq!(number::bits_of(x), bits, "bits_of of {:016X}", x.to_bits());
        count += 1;
    };
    for bits in SPECIALS {
        check(f64::from_bits(bits));
    }
    for _ in 0..1_500_000 {
        check(rng.argument());
    }
    say(&format!("bits_of: {count} arguments compared, all equal"));
}

/// Pairs: every two specials, equal numbers, numbers beside each other, and any two.
fn pairs(c: &mut Comparison<2, 1>, seed: u64) {
    for a in SPECIALS {
        for b in SPECIALS {
            c.at([f64::from_bits(a), f64::from_bits(b)]);
        }
    }
    let mut rng = SplitMix64::new(seed);
    for _ in 0..1_500_000 {
        let a = rng.argument();
        let b = match rng.below(5) {
            0 => a,
            1 => -a,
            2 => rng.near(a, 3),
            _ => rng.argument(),
        };
        c.at([a, b]);
    }
}

#[test]
fn max_and_min() {
    let mut max = Comparison::new(
        "max",
        |[a, b]| [standins::max(a, b)],
        |[a, b]| [number::max(a, b)],
    );
    let mut min = Comparison::new(
        "min",
        |[a, b]| [standins::min(a, b)],
        |[a, b]| [number::min(a, b)],
    );
    pairs(&mut max, 108);
    pairs(&mut min, 109);
    max.done(1_000_000);
    min.done(1_000_000);
}

/// A real number within exp's reach, or any.
fn real_part(rng: &mut SplitMix64) -> f64 {
    match rng.below(5) {
        0 => rng.argument(),
        1 => rng.uniform(-746.0, 710.0),
        2 => {
            let x = rng.pick(&[709.0, -709.0, 710.0, -746.0]);
            rng.near(x, 3)
        }
        _ => rng.uniform(-5.0, 5.0),
    }
}

/// An angle within the reach of sin and cos, or any number.
fn angle(rng: &mut SplitMix64) -> f64 {
    match rng.below(6) {
        0 => rng.argument(),
        1 => rng.uniform(-1_048_576.0, 1_048_576.0),
        2 => {
            let x = rng.pick(&[1_048_576.0, -1_048_576.0]);
            rng.near(x, 3)
        }
        3 => {
            let x = (rng.below(1000) as f64 + 0.5) / INV_QUARTER;
            rng.near(x, 3)
        }
        4 => rng.pick(&[0.0, -0.0]),
        _ => rng.uniform(-7.0, 7.0),
    }
}

#[test]
fn complex_exp() {
    let mut c = Comparison::new(
        "complex exp",
        |[re, im]| {
            let z = Complex64::new(re, im).exp();
            [z.re, z.im]
        },
        |[re, im]| maths::complex_exp(re, im).into(),
    );
    for a in SPECIALS {
        for b in SPECIALS {
            c.at([f64::from_bits(a), f64::from_bits(b)]);
        }
    }
    let mut rng = SplitMix64::new(110);
    for _ in 0..2_000_000 {
        let (re, im) = (real_part(&mut rng), angle(&mut rng));
        c.at([re, im]);
    }
    c.done(1_000_000);
}

#[test]
fn complex_ln() {
    let mut c = Comparison::new(
        "complex ln",
        |[re, im]| {
            let z = Complex64::new(re, im).ln();
            [z.re, z.im]
        },
        |[re, im]| maths::complex_ln(re, im).into(),
    );
    for a in SPECIALS {
        for b in SPECIALS {
            for (i, j) in [(0, 0), (0, 1), (1, 0), (1, 1)] {
                c.at([f64::from_bits(a ^ i), f64::from_bits(b ^ j)]);
            }
        }
    }
    let mut rng = SplitMix64::new(111);
    for _ in 0..2_000_000 {
        let re = match rng.below(3) {
            0 => rng.uniform(-5.0, 5.0),
            1 => rng.pattern(),
            _ => rng.argument(),
        };
        let im = match rng.below(8) {
            // |im| at and beside |re|.
            0 => rng.pick(&[re, -re]),
            1 => {
                let x = rng.pick(&[re, -re]);
                rng.near(x, 4)
            }
            2 => rng.pick(&[0.0, -0.0]),
            // A quotient beside atan's test.
            3 => {
                let t = rng.near(0.4142, 4);
                rng.pick(&[re * t, re / t])
            }
            4 => re * scaled(&mut rng, -60, 60),
            5 => rng.argument(),
            6 => rng.pattern(),
            _ => rng.uniform(-5.0, 5.0),
        };
        c.at([re, im]);
        c.at([im, re]);
    }
    c.done(1_000_000);
}
