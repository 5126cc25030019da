//! The squaring and the sliding mean.

use crate::smooth::Smooth;

const SCALE: u64 = 310_700;

/// The smoothing of a level's two ends.
pub struct Smoother {
    wide: Smooth,
}

/// What a block of points comes to: levels below 2^61 in the places of the points, or not, where 64 bits may not serve.
#[derive(PartialEq, Eq)]
pub enum Levels {
    Narrow,
    Wide(Vec<(i128, i128)>),
}

/// `floor(floor(s / 2^16) * SCALE / 2^32)` of a square below 2^90: the quotient by 2^16 is `th * 2^32 + tl`, and the product with th is whole.
fn scaled_down(s: u128) -> i64 {
    let (th, tl) = ((s >> 48) as u64, u64::from((s >> 16) as u32));
    (th * SCALE + ((tl * SCALE) >> 32)) as i64
}

/// The same with ceilings.
fn scaled_up(s: u128) -> i64 {
    let s = s + 0xffff;
    let (th, tl) = ((s >> 48) as u64, u64::from((s >> 16) as u32));
    (th * SCALE + ((tl * SCALE + u64::from(u32::MAX)) >> 32)) as i64
}

/// `share * v / 2^64`, rounded down.
fn part(share: i64, v: i64) -> i64 {
    ((i128::from(share) * i128::from(v)) >> 64) as i64
}

impl Smoother {
    /// At 2400 or 4800 samples a second.
    pub fn new(rate: u32) -> Smoother {
        Smoother { wide: Smooth::new(rate) }
    }

    /// Puts the low and high ends of the levels in the places of the mids and the radii. 64 bits serve while a signal is below 2^45 and a level below
    /// 2^61: then a scaled square is below 2^61 too, and a level never comes to more than the greatest of it and the scaled squares.
    pub fn levels(&mut self, mids: &mut [i64], radii: &mut [u64]) -> Levels {
        let most = |most: u64, (mid, radius): (&i64, &u64)| most.max(mid.unsigned_abs().saturating_add(*radius));
        let most = mids.iter().zip(&*radii).fold(0, most);
        if most < 1 << 45 && self.wide.high < 1 << 61 {
            self.narrow_levels(mids, radii);
            return Levels::Narrow;
        }
        Levels::Wide(mids.iter().zip(radii).map(|(mid, radius)| self.wide.step(*mid, *radius as i64)).collect())
    }

    fn narrow_levels(&mut self, mids: &mut [i64], radii: &mut [u64]) {
        let share = (self.wide.share as i64) << 32;
        let (mut low, mut high) = (self.wide.low as i64, self.wide.high as i64);
        for (mid, radius) in mids.iter_mut().zip(radii) {
            let size = mid.unsigned_abs();
            let (least, greatest) = (u128::from(size.saturating_sub(*radius)), u128::from(size + *radius));
            low += part(share, scaled_down(least * least) - low);
            high -= part(share, high - scaled_up(greatest * greatest));
            (*mid, *radius) = (low, high as u64);
        }
        (self.wide.low, self.wide.high) = (low as u128, high as u128);
    }
}
