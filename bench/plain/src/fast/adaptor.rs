//! The adaptor: squares by their running mean.

const QUARTER: u128 = 1 << 62;

/// The running means of the least and of the greatest squares, in units of 2^-64.
pub struct Adaptor {
    exponent: u32,
    low: u128,
    high: u128,
}

/// A number below 2^52 that is near `q * 2^64 / divisor` where this is below 2^52: with 2^52 added, a double has its whole part in the lowest
/// 52 bits. Nothing of the guess is used but its rest, which is tested.
#[inline(always)]
fn guess(q: u64, divisor: u128) -> u64 {
    const SCALE: f64 = (1u64 << 56) as f64;
    const WHOLE: f64 = (1u64 << 52) as f64;
    let quotient = q as i64 as f64 * SCALE / ((divisor >> 8) as i64 as f64);
    (quotient + WHOLE).to_bits() & ((1 << 52) - 1)
}

/// What `q * 2^64` is more than `guess * divisor`. It doesn't wrap: squares are below 2^53, means below 2^69 and guesses below 2^52.
#[inline(always)]
fn rest(q: u64, guess: u64, divisor: u128) -> i128 {
    (u128::from(q) << 64).wrapping_sub(u128::from(guess).wrapping_mul(divisor)) as i128
}

/// `q * 2^64 / divisor`, rounded down: with a rest t from `-divisor` to below `divisor` it is the guess, or one less where t is negative.
#[inline(always)]
fn quotient_down(q: u64, divisor: u128) -> u64 {
    let guess = guess(q, divisor);
    let t = rest(q, guess, divisor);
    if t.wrapping_add(divisor as i128) as u128 >= 2 * divisor {
        return ((u128::from(q) << 64) / divisor) as u64;
    }
    guess.wrapping_add((t >> 127) as u64)
}

/// The same rounded up: with a rest t from above `-divisor` to `divisor` it is the guess, or one more where t is positive.
#[inline(always)]
fn quotient_up(q: u64, divisor: u128) -> u64 {
    let guess = guess(q, divisor);
    let t = rest(q, guess, divisor);
    if (divisor as i128).wrapping_sub(t) as u128 >= 2 * divisor {
        return (u128::from(q) << 64).div_ceil(divisor) as u64;
    }
    guess + u64::from(t > 0)
}

impl Adaptor {
    /// At 2400 or 4800 samples a second.
    pub fn new(rate: u32) -> Adaptor {
        Adaptor { exponent: if rate == 4800 { 17 } else { 16 }, low: 1 << 64, high: 1 << 64 }
    }

    #[inline(always)]
    fn block<const E: u32>(&mut self, least: &mut [u64], greatest: &mut [u64]) {
        let (mut low, mut high) = (self.low, self.high);
        for (least, greatest) in least.iter_mut().zip(greatest) {
            let from = quotient_down(*least, high.max(QUARTER));
            let to = quotient_up(*greatest, low.max(QUARTER));
            low = low - ((low + ((1 << E) - 1)) >> E) + u128::from(*least >> (E - 16));
            high = high - (high >> E) + u128::from((*greatest + ((1 << (E - 16)) - 1)) >> (E - 16));
            let mid = (from + to) >> 1;
            (*least, *greatest) = (mid, to - mid);
        }
        (self.low, self.high) = (low, high);
    }

    /// Puts the mids and the radii of the outputs in the places of the least and the greatest squares, in units of 2^-48.
    pub fn points(&mut self, least: &mut [u64], greatest: &mut [u64]) {
        if self.exponent == 16 {
            self.block::<16>(least, greatest)
        } else {
            self.block::<17>(least, greatest)
        }
    }
}
