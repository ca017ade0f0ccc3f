//! Comparing two sides bit for bit, and counting what was compared.

use std::fmt::Debug;
use std::io::Write;

/// Equal in every bit, a NaN counting as a NaN.
pub fn same(a: f64, b: f64) -> bool {
    a.to_bits() == b.to_bits() || (a.is_nan() && b.is_nan())
}

/// The bits of numbers, as document 01 prints them.
pub fn hex(numbers: &[f64]) -> String {
    let words: Vec<String> = numbers
        .iter()
        .map(|x| format!("{:016X}", x.to_bits()))
        .collect();
    words.join(" ")
}

/// A value as text, by which two are compared: the digits of an f64 are enough to give its bits, a NaN counting as a NaN.
pub fn text(value: &impl Debug) -> String {
    format!("{value:?}")
}

/// Prints a line also where the test harness keeps what passing tests print.
pub fn say(line: &str) {
    let mut out = std::io::stdout().lock();
    // A closed output must not fail the comparison.
    let _ = out.write_all(format!("{line}\n").as_bytes());
}

/// A function of N numbers to M numbers, on both sides.
pub struct Comparison<const N: usize, const M: usize> {
    name: &'static str,
    rust: fn([f64; N]) -> [f64; M],
    port: fn([f64; N]) -> [f64; M],
    count: u64,
}

impl<const N: usize, const M: usize> Comparison<N, M> {
    pub fn new(
        name: &'static str,
        rust: fn([f64; N]) -> [f64; M],
        port: fn([f64; N]) -> [f64; M],
    ) -> Self {
        let count = 0;
        Self {
            name,
            rust,
            port,
            count,
        }
    }

    /// Compares one call; a difference ends the test with the argument's bits.
    pub fn at(&mut self, x: [f64; N]) {
        let (rust, port) = ((self.rust)(x), (self.port)(x));
        self.count += 1;
        if !rust.iter().zip(&port).all(|(a, b)| same(*a, *b)) {
            let (x, rust, port) = (hex(&x), hex(&rust), hex(&port));
            panic!("{} of {x}: Rust {rust}, port {port}", self.name);
        }
    }

    /// Prints the number of arguments, which must be at least `least`.
    pub fn done(self, least: u64) {
        say(&format!(
            "{}: {} arguments compared, all equal",
            self.name, self.count
        ));
        assert!(
            self.count >= least,
            "{}: under {least} arguments",
            self.name
        );
    }
}

impl<const M: usize> Comparison<1, M> {
    /// Compares at x and at the patterns up to `steps` before and after it, with both signs.
    pub fn around(&mut self, x: f64, steps: i64) {
        for step in -steps..=steps {
            let near = f64::from_bits(x.to_bits().wrapping_add_signed(step));
            self.at([near]);
            self.at([-near]);
        }
    }
}

/// Counts answers by refusal number, 0 being none.
pub struct Tally {
    name: &'static str,
    counts: [u64; 15],
}

impl Tally {
    pub fn new(name: &'static str) -> Self {
        Self {
            name,
            counts: [0; 15],
        }
    }

    pub fn add(&mut self, number: u8) {
        self.counts[number as usize] += 1;
    }

    /// Prints the counts; each number listed must have come up at least `least` times.
    pub fn done(self, numbers: &[u8], least: u64) {
        let total: u64 = self.counts.iter().sum();
        say(&format!(
            "{}: {total} compared, all equal; by number {:?}",
            self.name, self.counts
        ));
        for &number in numbers {
            assert!(self.counts[number as usize] >= least, "number {number}");
        }
    }
}
