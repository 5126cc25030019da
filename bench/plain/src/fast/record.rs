//! The quick reading of an ASCII record of the usual form: digits without spaces or signs, but for a minus before a value.

/// The bytes that must lie before a record, and behind what is read, for the words and masks that reach over.
pub const PAD: usize = 64;

const ZEROS: u64 = 0x3030_3030_3030_3030;

#[cfg(target_arch = "x86_64")]
fn separators_of_16(bytes: &[u8]) -> u64 {
    use std::arch::x86_64::{_mm_cmpeq_epi8, _mm_loadu_si128, _mm_movemask_epi8, _mm_or_si128, _mm_set1_epi8};
    let bytes: &[u8; 16] = bytes.try_into().unwrap();
    // SAFETY: each processor of this kind has SSE2, and 16 bytes may be read there.
    unsafe {
        let v = _mm_loadu_si128(bytes.as_ptr().cast());
        let comma = _mm_cmpeq_epi8(v, _mm_set1_epi8(b',' as i8));
        let feed = _mm_cmpeq_epi8(v, _mm_set1_epi8(b'\n' as i8));
        _mm_movemask_epi8(_mm_or_si128(comma, feed)) as u64
    }
}

#[cfg(not(target_arch = "x86_64"))]
fn separators_of_16(bytes: &[u8]) -> u64 {
    let bit = |(i, b): (usize, &u8)| u64::from(matches!(b, b',' | b'\n')) << i;
    bytes.iter().enumerate().map(bit).sum()
}

/// Which of 64 bytes are a comma or the end of a line.
fn separators(bytes: &[u8; 64]) -> u64 {
    let (a, b) = (separators_of_16(&bytes[..16]), separators_of_16(&bytes[16..32]));
    let (c, d) = (separators_of_16(&bytes[32..48]), separators_of_16(&bytes[48..]));
    a | b << 16 | c << 32 | d << 48
}

/// The digits that a word of eight bytes holds in its last `length` ones, the last digit in the highest byte and zeros before them; None
/// where one of these bytes isn't a digit. A byte of a digit is at most 9, and then 0x76 more doesn't
/// reach its highest bit; no sum carries where all of them lack that bit.
fn digits(word: u64, length: usize) -> Option<u64> {
    let digits = (word ^ ZEROS) & (u64::MAX << (64 - 8 * length));
    let odd = (digits.wrapping_add(0x7676_7676_7676_7676) | digits) & 0x8080_8080_8080_8080;
    (odd == 0).then_some(digits)
}

/// The number of eight digits: first the pairs `10 a + b`, then the fours, then the whole.
fn value(digits: u64) -> u32 {
    let pairs = (digits.wrapping_mul(10 * 256 + 1) >> 8) & 0x00ff_00ff_00ff_00ff;
    let fours = (pairs.wrapping_mul(100 * 65_536 + 1) >> 16) & 0x0000_ffff_0000_ffff;
    (fours.wrapping_mul(10_000 * 4_294_967_296 + 1) >> 32) as u32
}

/// The digits of the next record's number, as `digits` gives them; more than eight are no digits.
#[derive(Clone, Copy)]
pub struct Number(u64);

impl Number {
    pub const NONE: Number = Number(u64::MAX);

    pub fn of(number: u32) -> Number {
        if number > 99_999_999 {
            return Number::NONE;
        }
        let text = format!("{number:08}");
        Number(u64::from_le_bytes(text.as_bytes().try_into().unwrap()) ^ ZEROS)
    }

    fn next(self) -> Number {
        let (mut digits, mut place) = (self.0, 56);
        while (digits >> place) & 255 == 9 {
            digits &= !(255 << place);
            if place == 0 {
                return Number::NONE;
            }
            place -= 8;
        }
        Number(digits + (1 << place))
    }
}

/// The fields of a record, one after the other, from masks of 64 bytes.
struct Fields<'a> {
    bytes: &'a [u8],
    base: usize,
    mask: u64,
    start: usize,
}

fn chunk(bytes: &[u8], at: usize) -> Option<&[u8; 64]> {
    bytes.get(at..at + 64)?.try_into().ok()
}

impl<'a> Fields<'a> {
    fn new(bytes: &'a [u8], at: usize) -> Option<Fields<'a>> {
        Some(Fields { bytes, base: at, mask: separators(chunk(bytes, at)?), start: at })
    }

    /// Where the next field starts and where its separator is.
    #[inline(always)]
    fn next(&mut self) -> Option<(usize, usize)> {
        while self.mask == 0 {
            self.base += 64;
            self.mask = separators(chunk(self.bytes, self.base)?);
        }
        let (start, end) = (self.start, self.base + self.mask.trailing_zeros() as usize);
        self.mask &= self.mask - 1;
        self.start = end + 1;
        Some((start, end))
    }

    #[inline(always)]
    fn inner(&mut self) -> Option<(usize, usize)> {
        let (start, end) = self.next()?;
        (self.bytes[end] == b',').then_some((start, end))
    }

    /// The last field, without the end of its line.
    #[inline(always)]
    fn last(&mut self) -> Option<(usize, usize)> {
        let (start, end) = self.next()?;
        let cr = end > start && self.bytes[end - 1] == b'\r';
        (self.bytes[end] == b'\n').then_some((start, end - usize::from(cr)))
    }

    #[inline(always)]
    fn word(&self, end: usize) -> Option<u64> {
        Some(u64::from_le_bytes(self.bytes.get(end.checked_sub(8)?..end)?.try_into().ok()?))
    }

    #[inline(always)]
    fn eight(&self, (start, end): (usize, usize)) -> Option<u64> {
        let length = end - start;
        if length.wrapping_sub(1) > 7 {
            return None;
        }
        digits(self.word(end)?, length)
    }

    /// Whether a field is empty or has at most ten digits: then it is a time stamp.
    fn is_stamp(&self, (start, end): (usize, usize)) -> Option<bool> {
        let length = end - start;
        if length <= 8 {
            return Some(length == 0 || self.eight((start, end)).is_some());
        }
        Some(length <= 10 && digits(self.word(end)?, 8).is_some() && digits(self.word(end - 8)?, length - 8).is_some())
    }

    /// A value below 99999 in size.
    #[inline(always)]
    fn sample(&self, (start, end): (usize, usize)) -> Option<i32> {
        let negative = self.bytes[start] == b'-';
        let size = value(self.eight((start + usize::from(negative), end))?);
        let sign = -i32::from(negative);
        (size < 99_999).then_some((size as i32 ^ sign) - sign)
    }

    fn bit(&self, (start, end): (usize, usize)) -> bool {
        end == start + 1 && matches!(self.bytes[start], b'0' | b'1')
    }
}

/// Reads the record that begins at a place, and answers the place behind it; None where it isn't of the usual form, which only the reader
/// of the whole grammar can judge. Where a record is read here, that reader gives the same values: its numbers are those of the digits
/// with or without leading zeros, and 99999, which may be a missing value, isn't read here.
pub fn record(bytes: &[u8], at: usize, number: &mut Number, values: &mut [i32], digital: usize) -> Option<usize> {
    let mut fields = Fields::new(bytes, at)?;
    let first = fields.inner()?;
    if fields.eight(first)? != number.0 {
        return None;
    }
    let stamp = fields.inner()?;
    if !fields.is_stamp(stamp)? {
        return None;
    }
    let inner = values.len() - usize::from(digital == 0);
    for value in &mut values[..inner] {
        let field = fields.inner()?;
        *value = fields.sample(field)?;
    }
    if digital == 0 {
        let field = fields.last()?;
        values[inner] = fields.sample(field)?;
    }
    for i in 1..=digital {
        let field = if i == digital { fields.last()? } else { fields.inner()? };
        if !fields.bit(field) {
            return None;
        }
    }
    *number = number.next();
    Some(fields.start)
}
