//! exp and ln in pairs of f64, some 100 bits, to be rounded once. They serve the search of a near-tie, as a platform whose exp differs
//! from this one's in a last bit, and the measurement of how far document 01's exp and ln lie from the true functions.

/// An unevaluated sum; `lo` is below half a unit in the last place of `hi`.
#[derive(Clone, Copy)]
pub struct Pair {
    pub hi: f64,
    pub lo: f64,
}

const ONE: Pair = Pair { hi: 1.0, lo: 0.0 };

/// a + b, exactly.
fn sum(a: f64, b: f64) -> Pair {
    let hi = a + b;
    let part = hi - a;
    Pair {
        hi,
        lo: (a - (hi - part)) + (b - part),
    }
}

/// a × b, exactly.
fn product(a: f64, b: f64) -> Pair {
    let hi = a * b;
    Pair {
        hi,
        lo: a.mul_add(b, -hi),
    }
}

fn add(a: Pair, b: Pair) -> Pair {
    let high = sum(a.hi, b.hi);
    let low = sum(a.lo, b.lo);
    let middle = sum(high.hi, high.lo + low.hi);
    sum(middle.hi, middle.lo + low.lo)
}

fn mul(a: Pair, b: Pair) -> Pair {
    let high = product(a.hi, b.hi);
    sum(high.hi, high.lo + (a.hi * b.lo + a.lo * b.hi))
}

fn over(a: Pair, b: Pair) -> Pair {
    let quotient = a.hi / b.hi;
    let whole = mul(
        b,
        Pair {
            hi: quotient,
            lo: 0.0,
        },
    );
    sum(quotient, ((a.hi - whole.hi) - whole.lo + a.lo) / b.hi)
}

fn whole(n: i32) -> Pair {
    Pair {
        hi: f64::from(n),
        lo: 0.0,
    }
}

/// ln 2 in three parts.
const LN2: [f64; 3] = [
    f64::from_bits(0x3FE6_2E42_FEFA_39EF),
    f64::from_bits(0x3C7A_BC9E_3B39_803F),
    f64::from_bits(0x3907_B57A_079A_1934),
];

/// x + k × ln 2.
fn with_doublings(x: Pair, k: f64) -> Pair {
    LN2.into_iter().fold(x, |x, part| add(x, product(k, part)))
}

/// exp, for magnitudes up to 600.
pub fn exp_pair(x: f64) -> Pair {
    let k = (x / LN2[0]).round();
    let r = with_doublings(Pair { hi: x, lo: 0.0 }, -k);
    let mut s = ONE;
    for d in (1..=30).rev() {
        s = add(ONE, over(mul(r, s), whole(d)));
    }
    let scale = 2.0_f64.powi(k as i32);
    Pair {
        hi: s.hi * scale,
        lo: s.lo * scale,
    }
}

/// ln, for a normal f64 above zero.
pub fn ln_pair(x: f64) -> Pair {
    const FRACTION: u64 = (1 << 52) - 1;
    let bits = x.to_bits();
    let mut e = (bits >> 52) as f64 - 1023.0;
    let mut m = f64::from_bits(1.0_f64.to_bits() | (bits & FRACTION));
    if m > std::f64::consts::SQRT_2 {
        m /= 2.0;
        e += 1.0;
    }
    let f = over(sum(m, -1.0), sum(m, 1.0));
    let w = mul(f, f);
    let mut s = whole(0);
    for j in (1..=45).rev().step_by(2) {
        s = add(over(ONE, whole(j)), mul(w, s));
    }
    with_doublings(mul(add(f, f), s), e)
}

/// exp rounded correctly, for magnitudes up to 700.
pub fn exp(x: f64) -> f64 {
    exp_pair(x).hi
}

#[cfg(test)]
mod tests {
    /// exp(1) is 2.718281828459045|09 in f64, exp(2) 7.38905609893065|02; both as the nearest f64.
    #[test]
    fn known_values() {
        assert_eq!(super::exp(0.0), 1.0);
        assert_eq!(super::exp(1.0), std::f64::consts::E);
        assert_eq!(super::exp(-1.0).to_bits(), 0x3FD7_8B56_362C_EF38);
        assert_eq!(super::exp(2.0).to_bits(), 0x401D_8E64_B8D4_DDAE);
        assert_eq!(super::exp(10.0).to_bits(), 0x40D5_829D_CF95_0560);
    }
}
