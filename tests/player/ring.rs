//! Exact amplitudes: `a + b w + c w^2 + d w^3` with whole numbers, where `w` is an eighth root of
//! one, so that `w^4 = -1` and `w - w^3` is the root of two.

use std::fmt;

const OVERFLOW: &str = "an amplitude outgrew 128 bits";

/// An amplitude, by its four parts.
#[derive(Clone, Copy, Debug, PartialEq, Eq)]
pub struct Amplitude {
    parts: [i128; 4],
}

impl Amplitude {
    /// Nothing.
    pub const ZERO: Self = Self::new([0; 4]);
    /// One.
    pub const ONE: Self = Self::new([1, 0, 0, 0]);

    /// The amplitude with these parts.
    pub const fn new(parts: [i128; 4]) -> Self {
        Self { parts }
    }

    /// The sum.
    pub fn plus(self, other: Self) -> Self {
        self.by_parts(other, i128::checked_add)
    }

    /// The difference.
    pub fn minus(self, other: Self) -> Self {
        self.by_parts(other, i128::checked_sub)
    }

    /// Multiplied by `w` that many times.
    pub fn turned(self, eighths: u8) -> Self {
        (0..eighths % 8).fold(self, |turned, _| {
            let [a, b, c, d] = turned.parts;
            Self::new([d.checked_neg().expect(OVERFLOW), a, b, c])
        })
    }

    /// Multiplied by the root of two, that many times.
    pub fn times_roots(self, many: usize) -> Self {
        (0..many).fold(self, |product, _| {
            product.turned(1).minus(product.turned(3))
        })
    }

    /// Divided by the root of two, if that leaves whole numbers.
    pub fn over_root(self) -> Option<Self> {
        let twice = self.times_roots(1).parts;
        let even = twice.iter().all(|part| part % 2 == 0);
        even.then(|| Self::new(twice.map(|part| part / 2)))
    }

    fn by_parts(self, other: Self, operation: fn(i128, i128) -> Option<i128>) -> Self {
        let mut parts = self.parts;
        for (part, of_other) in parts.iter_mut().zip(other.parts) {
            *part = operation(*part, of_other).expect(OVERFLOW);
        }
        Self::new(parts)
    }
}

impl fmt::Display for Amplitude {
    /// As a `state` job prints it: `1 + w - w^3`, `2 - 3w^2`, `-w`.
    fn fmt(&self, out: &mut fmt::Formatter<'_>) -> fmt::Result {
        let mut first = true;
        for (part, power) in self.parts.iter().zip(["", "w", "w^2", "w^3"]) {
            if *part == 0 {
                continue;
            }
            let sign = match (first, *part < 0) {
                (true, false) => "",
                (true, true) => "-",
                (false, false) => " + ",
                (false, true) => " - ",
            };
            first = false;
            match part.unsigned_abs() {
                1 if !power.is_empty() => write!(out, "{sign}{power}")?,
                size => write!(out, "{sign}{size}{power}")?,
            }
        }
        Ok(())
    }
}
