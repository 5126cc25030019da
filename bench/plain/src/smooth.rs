//! The squaring and the sliding mean.

const SCALE: u128 = 310_700;

/// The level's two ends. Each moves by a part of what is between it and the square.
pub struct Smooth {
    pub(crate) share: i128,
    pub(crate) low: u128,
    pub(crate) high: u128,
}

impl Smooth {
    /// At 2400 or 4800 samples a second.
    pub fn new(rate: u32) -> Smooth {
        Smooth { share: if rate == 4800 { 2_982_616 } else { 5_965_232 }, low: 0, high: 0 }
    }

    /// Takes the next weighted signal, and answers the ends of the level.
    pub fn step(&mut self, mid: i64, radius: i64) -> (i128, i128) {
        let (size, radius) = (mid.unsigned_abs(), radius as u64);
        let (least, greatest) = (u128::from(size.saturating_sub(radius)), u128::from(size + radius));
        let (least, greatest) = (least * least, greatest * greatest);
        let from = ((least >> 16) * SCALE) >> 32;
        let to = (greatest.div_ceil(1 << 16) * SCALE).div_ceil(1 << 32);
        self.low = (self.low as i128 + ((self.share * (from as i128 - self.low as i128)) >> 32)) as u128;
        self.high = (self.high as i128 - ((self.share * (self.high as i128 - to as i128)) >> 32)) as u128;
        (self.low as i128, self.high as i128)
    }
}
