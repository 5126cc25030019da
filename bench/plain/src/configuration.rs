//! The reading of a configuration.

/// What a field gives, or the number of the faulty field and its kind of fault.
type Judged<T> = Result<T, (usize, u8)>;

const END: u8 = 1;
const FIELDS: u8 = 2;
const NUMBER: u8 = 3;
const RANGE: u8 = 4;
const WORD: u8 = 5;
const REVISION: u8 = 6;
const RATES: u8 = 7;
const LENGTH: u8 = 8;

/// A decimal: Syntax, Range or its value times 10^24.
enum Text<T> {
    Syntax,
    Range,
    Value(T),
}

fn is_digits(bytes: &[u8]) -> bool {
    !bytes.is_empty() && bytes.iter().all(u8::is_ascii_digit)
}

pub fn unsigned(bytes: &[u8]) -> (bool, &[u8]) {
    match bytes {
        [b'-', rest @ ..] => (true, rest),
        [b'+', rest @ ..] => (false, rest),
        _ => (false, bytes),
    }
}

fn decimal(bytes: &[u8]) -> Text<i128> {
    let (negative, rest) = unsigned(bytes);
    let (mut digits, mut after_point, mut point, mut at) = (0usize, 0i64, false, 0usize);
    let (mut m, mut places, mut zeros) = (0u64, 0u32, 0i64);
    while let Some(&byte) = rest.get(at) {
        match byte {
            b'0'..=b'9' => {
                digits += 1;
                after_point += i64::from(point);
                if byte == b'0' {
                    zeros += i64::from(m > 0 || places > 0);
                } else {
                    places = if places == 0 { 1 } else { (i64::from(places) + zeros + 1).min(100) as u32 };
                    if places <= 18 {
                        m = m * 10u64.pow(zeros as u32 + 1) + u64::from(byte - b'0');
                    }
                    zeros = 0;
                }
            }
            b'.' if !point => point = true,
            _ => break,
        }
        at += 1;
    }
    if digits == 0 {
        return Text::Syntax;
    }
    let mut exponent = 0i64;
    if let Some((b'E' | b'e', tail)) = rest[at..].split_first() {
        let (down, size) = unsigned(tail);
        if !is_digits(size) || size.len() > 3 {
            return Text::Syntax;
        }
        exponent = size.iter().fold(0, |sum, d| 10 * sum + i64::from(d - b'0'));
        if down {
            exponent = -exponent;
        }
    } else if at < rest.len() {
        return Text::Syntax;
    }
    if places == 0 {
        return Text::Value(0);
    }
    let power = exponent + zeros - after_point;
    if places > 18 || !(-24..=12).contains(&power) {
        return Text::Range;
    }
    match i128::from(m).checked_mul(10i128.pow((power + 24) as u32)) {
        Some(size) if size <= 10i128.pow(36) => Text::Value(if negative { -size } else { size }),
        _ => Text::Range,
    }
}

fn whole(bytes: &[u8], least: i64, most: i64) -> Text<i64> {
    let (negative, rest) = unsigned(bytes);
    if !is_digits(rest) {
        return Text::Syntax;
    }
    let size = rest.iter().fold(0i64, |sum, d| (10 * sum + i64::from(d - b'0')).min(1_000_000_000_000_000));
    let value = if negative { -size } else { size };
    if (least..=most).contains(&value) { Text::Value(value) } else { Text::Range }
}

fn judge<T>(text: Text<T>, field: usize) -> Judged<T> {
    match text {
        Text::Syntax => Err((field, NUMBER)),
        Text::Range => Err((field, RANGE)),
        Text::Value(value) => Ok(value),
    }
}

pub fn trimmed(mut bytes: &[u8]) -> &[u8] {
    while let [b' ', rest @ ..] = bytes {
        bytes = rest;
    }
    while let [rest @ .., b' '] = bytes {
        bytes = rest;
    }
    bytes
}

fn words(bytes: &[u8], field: usize) -> Judged<Vec<u8>> {
    if bytes.len() > 64 {
        return Err((field, LENGTH));
    }
    if bytes.iter().any(|b| matches!(b, b'\r' | 0x1a)) {
        return Err((field, WORD));
    }
    Ok(bytes.to_vec())
}

fn channels(bytes: &[u8], letter: u8, least: i64, field: usize) -> Judged<i64> {
    match bytes {
        [rest @ .., last] if last.eq_ignore_ascii_case(&letter) => judge(whole(rest, least, 256), field),
        _ => Err((field, WORD)),
    }
}

fn number(digits: &[u8], least: usize, most: usize) -> Option<u32> {
    (is_digits(digits) && (least..=most).contains(&digits.len()))
        .then(|| digits.iter().fold(0, |sum, d| 10 * sum + u32::from(d - b'0')))
}

fn three(bytes: &[u8], separator: u8) -> Option<[&[u8]; 3]> {
    let mut parts = bytes.split(|b| *b == separator);
    let three = [parts.next()?, parts.next()?, parts.next()?];
    parts.next().is_none().then_some(three)
}

fn date(bytes: &[u8]) -> Text<(u32, u32, u32)> {
    let parts = three(bytes, b'/')
        .and_then(|[d, m, y]| Some((number(d, 1, 2)?, number(m, 1, 2)?, number(y, 4, 4)?)));
    let Some((day, month, year)) = parts else {
        return Text::Syntax;
    };
    let leap = year % 4 == 0 && (year % 100 != 0 || year % 400 == 0);
    let days = match month {
        2 => 28 + u32::from(leap),
        4 | 6 | 9 | 11 => 30,
        1..=12 => 31,
        _ => 0,
    };
    if year >= 1 && (1..=days).contains(&day) { Text::Value((day, month, year)) } else { Text::Range }
}

fn time(bytes: &[u8]) -> Text<(u32, u32, u32, u32)> {
    let point = bytes.iter().position(|b| *b == b'.');
    let nanoseconds = match point {
        None => Some(0),
        Some(at) => {
            let digits = &bytes[at + 1..];
            number(digits, 1, 9).map(|n| n * 10u32.pow(9 - digits.len() as u32))
        }
    };
    let clock = three(&bytes[..point.unwrap_or(bytes.len())], b':')
        .and_then(|[h, m, s]| Some((number(h, 1, 2)?, number(m, 2, 2)?, number(s, 2, 2)?)));
    match (clock, nanoseconds) {
        (Some((h, m, s)), Some(n)) if h <= 23 && m <= 59 && s <= 59 => Text::Value((h, m, s, n)),
        (Some(_), Some(_)) => Text::Range,
        _ => Text::Syntax,
    }
}

struct Lines<'a> {
    bytes: &'a [u8],
    line: usize,
    fields: Vec<&'a [u8]>,
}

impl<'a> Lines<'a> {
    /// Takes the next line and cuts it into `count` fields.
    fn take(&mut self, count: usize, last: bool) -> Judged<()> {
        self.line += 1;
        if self.bytes.is_empty() {
            return Err((0, END));
        }
        let end = self.bytes.iter().position(|b| *b == b'\n' || (last && *b == 0x1a)).unwrap_or(self.bytes.len());
        let line = self.bytes[..end].strip_suffix(b"\r").unwrap_or(&self.bytes[..end]);
        let found = self.bytes.get(end);
        self.bytes = &self.bytes[end + usize::from(found == Some(&b'\n'))..];
        self.fields.clear();
        self.fields.extend(line.split(|b| *b == b',').map(trimmed));
        if self.fields.len() == count { Ok(()) } else { Err((0, FIELDS)) }
    }
}

#[derive(Default)]
pub struct Config {
    pub station: Vec<u8>,
    pub device: Vec<u8>,
    pub analog: Vec<([Vec<u8>; 4], [i128; 7], bool)>,
    pub digital: Vec<([Vec<u8>; 3], bool)>,
    pub lf: i128,
    pub rate: u32,
    pub endsamp: i64,
    pub stamps: Vec<((u32, u32, u32), (u32, u32, u32, u32))>,
    pub binary: bool,
    pub timemult: i128,
}

impl Config {
    /// The line frequency where it is 50 or 60 hertz.
    pub fn hertz(&self) -> Option<u32> {
        [50, 60].into_iter().find(|hertz| self.lf == i128::from(*hertz) * 10i128.pow(24))
    }

    /// The line frequency as a plain decimal.
    pub fn frequency(&self) -> String {
        let text = format!("{}.{:024}", self.lf / 10i128.pow(24), self.lf % 10i128.pow(24));
        text.trim_end_matches('0').trim_end_matches('.').to_string()
    }
}

fn read(lines: &mut Lines) -> Judged<Config> {
    let mut config = Config::default();
    let cut = lines.take(3, false);
    if lines.fields.len() == 2 {
        return Err((3, REVISION));
    }
    cut?;
    config.station = words(lines.fields[0], 1)?;
    config.device = words(lines.fields[1], 2)?;
    if lines.fields[2] != b"1999" {
        return Err((3, REVISION));
    }
    lines.take(3, false)?;
    let total = judge(whole(lines.fields[0], 1, 512), 1)?;
    let analog = channels(lines.fields[1], b'A', 1, 2)?;
    let digital = channels(lines.fields[2], b'D', 0, 3)?;
    if total != analog + digital {
        return Err((1, RANGE));
    }
    for position in 1..=analog {
        lines.take(13, false)?;
        let f = &lines.fields;
        judge(whole(f[0], position, position), 1)?;
        let texts = [words(f[1], 2)?, words(f[2], 3)?, words(f[3], 4)?, words(f[4], 5)?];
        let mut values = [0; 7];
        for k in 0..7 {
            if !(k == 2 && f[7].is_empty()) {
                values[k] = judge(decimal(f[5 + k]), 6 + k)?;
            }
        }
        let primary = match f[12] {
            b"P" | b"p" => true,
            b"S" | b"s" => false,
            _ => return Err((13, WORD)),
        };
        config.analog.push((texts, values, primary));
    }
    for position in 1..=digital {
        lines.take(5, false)?;
        let f = &lines.fields;
        judge(whole(f[0], position, position), 1)?;
        let texts = [words(f[1], 2)?, words(f[2], 3)?, words(f[3], 4)?];
        config.digital.push((texts, judge(whole(f[4], 0, 1), 5)? == 1));
    }
    lines.take(1, false)?;
    config.lf = judge(decimal(lines.fields[0]), 1)?;
    if config.lf <= 0 {
        return Err((1, RANGE));
    }
    lines.take(1, false)?;
    match whole(lines.fields[0], 1, 1) {
        Text::Syntax => return Err((1, NUMBER)),
        Text::Range => return Err((1, RATES)),
        Text::Value(_) => {}
    }
    lines.take(2, false)?;
    match decimal(lines.fields[0]) {
        Text::Syntax => return Err((1, NUMBER)),
        Text::Value(samp) if samp == 2400 * 10i128.pow(24) => config.rate = 2400,
        Text::Value(samp) if samp == 4800 * 10i128.pow(24) => config.rate = 4800,
        _ => return Err((1, RATES)),
    }
    config.endsamp = judge(whole(lines.fields[1], 1, i64::from(u32::MAX)), 2)?;
    for _ in 0..2 {
        lines.take(2, false)?;
        let day = judge(date(lines.fields[0]), 1)?;
        config.stamps.push((day, judge(time(lines.fields[1]), 2)?));
    }
    lines.take(1, false)?;
    config.binary = lines.fields[0].eq_ignore_ascii_case(b"BINARY");
    if !config.binary && !lines.fields[0].eq_ignore_ascii_case(b"ASCII") {
        return Err((1, WORD));
    }
    lines.take(1, true)?;
    config.timemult = judge(decimal(lines.fields[0]), 1)?;
    let marks = lines.bytes.iter().filter(|b| **b == 0x1a).count();
    if marks > 1 || lines.bytes.iter().any(|b| !matches!(b, b'\r' | b'\n' | b' ' | 0x1a)) {
        lines.line += 1;
        return Err((0, LENGTH));
    }
    Ok(config)
}

/// The configuration of a file, or the line, the field and the kind of its first fault.
pub fn read_configuration(bytes: &[u8]) -> Result<Config, (usize, usize, u8)> {
    if bytes.len() > 1_048_576 {
        return Err((0, 0, LENGTH));
    }
    let mut lines = Lines { bytes, line: 0, fields: Vec::new() };
    read(&mut lines).map_err(|(field, kind)| (lines.line, field, kind))
}
