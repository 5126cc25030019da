//! The seven sections of a lamp's filter in a row, and the radius behind them.

use crate::cascade::{filter_of, radius_of};
use std::hint::black_box;

/// Coefficients over 2^61, and two states. Signals are below 2^60 in size, and states below 2^63.
#[derive(Clone, Copy)]
struct Section {
    b0: i64,
    b1: i64,
    a1: i64,
    a2: i64,
    s1: i64,
    s2: i64,
}

fn wide(k: i64, v: i64) -> i128 {
    i128::from(k) * i128::from(8 * v)
}

/// `k * v / 2^32`, rounded down.
fn product(k: i64, v: i64) -> i64 {
    (wide(k, v) >> 64) as i64
}

/// `-p / 2^64` of a wide product, rounded down: that of p with its sign turned, and one less where there is a rest.
fn minus(p: i128) -> i64 {
    -((p >> 64) as i64) - i64::from(p as u64 != 0)
}

impl Section {
    /// `b1 = -b0`, and one state.
    #[inline(always)]
    fn high_pass(&mut self, x: i64) -> i64 {
        let p = wide(self.b0, x);
        let y = (p >> 64) as i64 + self.s1;
        self.s1 = minus(p) - product(self.a1, y);
        y
    }

    /// `b1 = 2 b0` and `b2 = b0`: twice a product over 2^32, rounded down, is that product over 2^31, rounded down.
    #[inline(always)]
    fn low_pass(&mut self, x: i64) -> i64 {
        let p = wide(self.b0, x);
        let once = (p >> 64) as i64;
        let y = once + self.s1;
        self.s1 = (p >> 63) as i64 + self.s2 - product(self.a1, y);
        self.s2 = once - product(self.a2, y);
        y
    }

    /// `b1 = 0` and `b2 = -b0`.
    #[inline(always)]
    fn band_pass(&mut self, x: i64) -> i64 {
        let p = wide(self.b0, x);
        let y = (p >> 64) as i64 + self.s1;
        self.s1 = self.s2 - product(self.a1, y);
        self.s2 = minus(p) - product(self.a2, y);
        y
    }

    /// One state.
    #[inline(always)]
    fn lead_and_lag(&mut self, x: i64) -> i64 {
        let y = product(self.b0, x) + self.s1;
        self.s1 = product(self.b1, x) - product(self.a1, y);
        y
    }

    /// `b1 = b0`, and one state.
    #[inline(always)]
    fn lag(&mut self, x: i64) -> i64 {
        let p = product(self.b0, x);
        let y = p + self.s1;
        self.s1 = p - product(self.a1, y);
        y
    }
}

/// A lamp's filter.
pub struct Sections {
    sections: [Section; 7],
    bounds: [(u64, u64); 2],
    greatest: u64,
    radius: u64,
}

impl Sections {
    /// The filter of the lamp of a frequency, 50 or 60, at a rate, 2400 or 4800.
    pub fn new(hertz: u32, rate: u32) -> Sections {
        let filter = filter_of(hertz, rate);
        for (place, [b0, b1, b2, _, a2]) in filter.sections.iter().enumerate() {
            assert!(match place {
                0 => (*b1, *b2, *a2) == (-b0, 0, 0),
                1..=3 => (*b1, *b2) == (2 * b0, *b0),
                4 => (*b1, *b2) == (0, -b0),
                5 => (*b2, *a2) == (0, 0),
                _ => (*b1, *b2, *a2) == (*b0, 0, 0),
            });
        }
        // The compiler is not to make a program of these seven sections alone.
        let mut sections = black_box(filter.sections).map(|k| {
            let [b0, b1, _, a1, a2] = k.map(|b| b << 29);
            Section { b0, b1, a1, a2, s1: 0, s2: 0 }
        });
        sections[0].s1 = -65536 * filter.sections[0][0];
        let bounds = filter.bounds.map(|(input, rounding)| (input as u64, rounding as u64));
        Sections { sections, bounds, greatest: 0, radius: radius_of(&filter.bounds, 0) as u64 }
    }

    /// One section alone.
    fn step(&mut self, place: usize, x: i64) -> i64 {
        let section = &mut self.sections[place];
        match place {
            0 => section.high_pass(x),
            1..=3 => section.low_pass(x),
            4 => section.band_pass(x),
            5 => section.lead_and_lag(x),
            _ => section.lag(x),
        }
    }

    /// The sections of these places take what is handed to them, the last one first: `handed` has the input of each, and the last output.
    fn turn(&mut self, handed: &mut [i64; 8], places: std::ops::Range<usize>) {
        for place in places.rev() {
            handed[place + 1] = self.step(place, handed[place]);
        }
    }

    /// Whole turns: one for each sample of `x`. What a turn answers is written down.
    fn turns(&mut self, handed: &mut [i64; 8], signal: &mut [i64]) {
        let [mut q1, mut q2, mut q3, mut q4, mut q5, mut q6, mut q7] = self.sections;
        let [_, mut x2, mut x3, mut x4, mut x5, mut x6, mut x7, _] = *handed;
        for t in 6..signal.len() {
            signal[t - 6] = q7.lag(x7);
            x7 = q6.lead_and_lag(x6);
            x6 = q5.band_pass(x5);
            x5 = q4.low_pass(x4);
            x4 = q3.low_pass(x3);
            x3 = q2.low_pass(x2);
            x2 = q1.high_pass(signal[t]);
        }
        *handed = [0, x2, x3, x4, x5, x6, x7, 0];
        self.sections = [q1, q2, q3, q4, q5, q6, q7];
    }

    /// Filters a signal in its place. In turn t the section at place i takes sample `t - i`, so that the seven of a turn don't wait for one
    /// another. Each section takes the same samples in the same order as one by one, and it shares nothing with another but the
    /// signal that is handed on.
    pub fn filter(&mut self, signal: &mut [i64]) {
        let count = signal.len();
        if count < 7 {
            for x in signal {
                *x = (0..7).fold(*x, |x, place| self.step(place, x));
            }
            return;
        }
        let mut handed = [0; 8];
        for t in 0..6 {
            handed[0] = signal[t];
            self.turn(&mut handed, 0..t + 1);
        }
        self.turns(&mut handed, signal);
        for t in 0..6 {
            self.turn(&mut handed, t + 1..7);
            signal[count - 6 + t] = handed[7];
        }
    }

    fn radius_of(&self, greatest: u64) -> u64 {
        self.bounds.iter().fold(greatest, |r, (input, rounding)| {
            ((u128::from(r) * u128::from(*input) + u128::from(u32::MAX)) >> 32) as u64 + rounding
        })
    }

    /// Puts the radius behind the last section in the place of each radius before the first, which is that of the greatest one so far.
    pub fn radii(&mut self, radii: &mut [u64]) {
        let most = radii.iter().fold(0, |most: u64, radius| most.max(*radius));
        if most <= self.greatest {
            radii.fill(self.radius);
            return;
        }
        for radius in radii {
            if *radius > self.greatest {
                self.greatest = *radius;
                self.radius = self.radius_of(*radius);
            }
            *radius = self.radius;
        }
    }
}
