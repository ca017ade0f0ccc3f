//! The record that a caller may choose: the numbers of document 01 that document 02's request [8] names, and the strict flag of its
//! request [9].

/// Document 01's numbers are the default, with the flag off.
#[derive(Clone, Copy, Debug, PartialEq)]
pub struct Settings {
    /// The most rounds of narrowing.
    pub rounds: usize,
    /// Below it the magnitude of a value passes EqZero.
    pub equality: f64,
    /// The slack of the check's GeZero, LeZero and NeZero, of narrowing's NeZero, and of the moved-end test.
    pub slack: f64,
    /// The largest magnitude of exp's real argument in evaluation.
    pub clamp: f64,
    /// Whether a real argument of exp beyond the clamp is an error of the evaluation.
    pub strict: bool,
}

impl Default for Settings {
    /// "At most 20 rounds"; an equation holds to 1e-8, as in `check_constraint`; "writes where an end moves by over 1e-12"; "exp's real
    /// argument is clamped to ±709". Document 02 [9]: "The flag is off by default".
    fn default() -> Self {
        Self {
            rounds: 20,
            equality: 1e-8,
            slack: 1e-12,
            clamp: 709.0,
            strict: false,
        }
    }
}

impl Settings {
    /// "Rounds are 1 to 100, 0 < slack < equality tolerance, both finite, and the clamp is 1 to 709." "Refused: 14, a parameter outside its
    /// range". A NaN is in no range. Either value of the flag is taken.
    pub fn refusal(&self) -> u8 {
        let finite = self.slack.is_finite() && self.equality.is_finite();
        let tolerances = 0.0 < self.slack && self.slack < self.equality && finite;
        let rounds = 1 <= self.rounds && self.rounds <= 100;
        let clamp = 1.0 <= self.clamp && self.clamp <= 709.0;
        if rounds && tolerances && clamp { 0 } else { 14 }
    }

    /// The record as the port is given it.
    pub fn to_port(&self) -> eml::Settings {
        let mut record = eml::Settings::default();
        record.rounds = self.rounds;
        record.equality = self.equality;
        record.slack = self.slack;
        record.clamp = self.clamp;
        record.strict = self.strict;
        record
    }

    /// The same numbers with this value of the flag.
    pub fn with_strict(self, strict: bool) -> Self {
        Self { strict, ..self }
    }
}
