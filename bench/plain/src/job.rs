//! The reading of a job: the TOML that its values need.

use crate::configuration::Config;

/// The number of the faulty key and its kind of fault.
pub type JobFault = (usize, u8);

const TOML: u8 = 1;
const UNKNOWN: u8 = 2;
const ABSENT: u8 = 3;
const TYPE: u8 = 4;
const RANGE: u8 = 5;
const LENGTH: u8 = 6;

const KEYS: [&str; 7] = ["lamp", "nominal_mv", "uncertainty_uv", "channels", "dmax", "run_in_s", "interval_s"];

/// What is to be measured of a recording.
pub struct Job {
    /// The frequency of the lamp's supply: 50 or 60.
    pub hertz: u32,
    pub nominal_mv: i64,
    pub uncertainty_uv: i64,
    /// From 1.
    pub channels: Vec<usize>,
    /// In percent.
    pub dmax: i64,
    pub run_in_s: u32,
    pub interval_s: u32,
}

impl Job {
    /// How many intervals of a recording are judged.
    pub fn intervals(&self, config: &Config) -> usize {
        let records = config.endsamp - i64::from(config.rate * self.run_in_s);
        (records / i64::from(config.rate * self.interval_s)).clamp(0, 12) as usize
    }
}

enum Value {
    Text(Vec<u8>),
    Number(i64),
    Array(Vec<Value>),
}

struct Toml<'a> {
    rest: &'a [u8],
}

impl<'a> Toml<'a> {
    fn skips(&mut self, start: &[u8]) -> bool {
        let rest = self.rest.strip_prefix(start);
        self.rest = rest.unwrap_or(self.rest);
        rest.is_some()
    }

    fn take(&mut self, count: usize) -> Option<&'a [u8]> {
        let (front, rest) = self.rest.split_at_checked(count)?;
        self.rest = rest;
        Some(front)
    }

    fn take_while(&mut self, test: impl Fn(u8) -> bool) -> &'a [u8] {
        let count = self.rest.iter().position(|b| !test(*b)).unwrap_or(self.rest.len());
        self.take(count).unwrap()
    }

    fn blanks(&mut self) {
        self.take_while(|b| b == b' ' || b == b'\t');
    }

    /// Blanks, comments and line ends: whether there was a line end or nothing is left.
    fn lines(&mut self) -> bool {
        let mut ended = false;
        loop {
            self.blanks();
            if self.skips(b"#") {
                self.take_while(|b| b != b'\n');
            }
            if !self.skips(b"\n") && !self.skips(b"\r\n") {
                return ended || self.rest.is_empty();
            }
            ended = true;
        }
    }

    fn escaped(&mut self) -> Option<char> {
        let digits = match self.take(1)?[0] {
            b'b' => return Some('\u{8}'),
            b't' => return Some('\t'),
            b'n' => return Some('\n'),
            b'f' => return Some('\u{c}'),
            b'r' => return Some('\r'),
            b'e' => return Some('\u{1b}'),
            b'"' => return Some('"'),
            b'\\' => return Some('\\'),
            b'x' => 2,
            b'u' => 4,
            b'U' => 8,
            _ => return None,
        };
        let digits = std::str::from_utf8(self.take(digits)?).ok()?;
        char::from_u32(u32::from_str_radix(digits, 16).ok()?)
    }

    /// The rest of a text that ends with these quotes.
    fn text(&mut self, end: &[u8]) -> Option<Vec<u8>> {
        let mut text = Vec::new();
        if end.len() == 3 && !self.skips(b"\n") {
            self.skips(b"\r\n");
        }
        loop {
            if self.rest.starts_with(end) {
                // of up to five quotes at the end the first ones are of the text
                while self.rest.get(end.len()) == Some(&end[0]) && end.len() == 3 {
                    text.extend_from_slice(self.take(1)?);
                }
                self.take(end.len());
                return Some(text);
            }
            match self.take(1)?[0] {
                b'\\' if end[0] == b'"' => {
                    let before = self.rest;
                    if end.len() == 3 && self.lines() {
                        self.take_while(|b| b" \t\r\n".contains(&b));
                        continue;
                    }
                    self.rest = before;
                    let mut bytes = [0; 4];
                    text.extend_from_slice(self.escaped()?.encode_utf8(&mut bytes).as_bytes());
                }
                b'\n' if end.len() == 1 => return None,
                byte => text.push(byte),
            }
        }
    }

    fn quoted(&mut self) -> Option<Vec<u8>> {
        let end = [&b"\"\"\""[..], b"'''", b"\"", b"'"].into_iter().find(|end| self.rest.starts_with(end))?;
        self.take(end.len());
        self.text(end)
    }

    fn number(&mut self) -> Option<i64> {
        let word = self.take_while(|b| b.is_ascii_alphanumeric() || b"_+-.:".contains(&b));
        let word = std::str::from_utf8(word).ok()?.replace('_', "");
        for (start, radix) in [("0x", 16), ("0o", 8), ("0b", 2)] {
            if let Some(digits) = word.strip_prefix(start) {
                return i64::from_str_radix(digits, radix).ok();
            }
        }
        word.parse().ok()
    }

    fn value(&mut self) -> Option<Value> {
        if let Some(b'"' | b'\'') = self.rest.first() {
            return self.quoted().map(Value::Text);
        }
        if !self.skips(b"[") {
            return self.number().map(Value::Number);
        }
        let mut items = Vec::new();
        loop {
            self.lines();
            if self.skips(b"]") {
                return Some(Value::Array(items));
            }
            items.push(self.value()?);
            self.lines();
            if !self.skips(b",") && !self.rest.starts_with(b"]") {
                return None;
            }
        }
    }

    fn member(&mut self) -> Option<(Vec<u8>, Value)> {
        let key = match self.rest.first()? {
            b'"' | b'\'' => self.quoted()?,
            _ => self.take_while(|b| b.is_ascii_alphanumeric() || b"_-".contains(&b)).to_vec(),
        };
        self.blanks();
        self.skips(b"=").then_some(())?;
        self.blanks();
        let value = self.value()?;
        self.lines().then_some((key, value))
    }
}

fn integer(value: Option<Value>, key: usize, default: Option<i64>, set: impl Fn(i64) -> bool) -> Result<i64, JobFault> {
    match value {
        None => default.ok_or((key, ABSENT)),
        Some(Value::Number(n)) => set(n).then_some(n).ok_or((key, RANGE)),
        Some(_) => Err((key, TYPE)),
    }
}

fn lamp(value: Option<Value>) -> Result<u32, JobFault> {
    match value {
        None => Err((1, ABSENT)),
        Some(Value::Text(text)) if text == b"230/50" => Ok(50),
        Some(Value::Text(text)) if text == b"120/60" => Ok(60),
        Some(Value::Text(_)) => Err((1, RANGE)),
        Some(_) => Err((1, TYPE)),
    }
}

fn channels(value: Option<Value>) -> Result<Vec<usize>, JobFault> {
    let Some(Value::Array(items)) = value else {
        return Err((4, if value.is_none() { ABSENT } else { TYPE }));
    };
    let (mut channels, mut good) = (Vec::new(), (1..=6).contains(&items.len()));
    for item in items {
        let Value::Number(n) = item else {
            return Err((4, TYPE));
        };
        good &= (1..=256).contains(&n) && !channels.contains(&(n as usize));
        channels.push(n as usize);
    }
    good.then_some(channels).ok_or((4, RANGE))
}

/// The job of a file, or its first fault.
pub fn read_job(bytes: &[u8]) -> Result<Job, JobFault> {
    if bytes.len() > 65_536 {
        return Err((0, LENGTH));
    }
    let mut toml = Toml { rest: bytes };
    let mut values = KEYS.map(|_| None);
    let mut unknown = false;
    toml.lines();
    while !toml.rest.is_empty() {
        let (key, value) = toml.member().ok_or((0, TOML))?;
        match KEYS.iter().position(|name| name.as_bytes() == key) {
            None => unknown = true,
            Some(place) if values[place].is_some() => return Err((0, TOML)),
            Some(place) => values[place] = Some(value),
        }
    }
    if unknown {
        return Err((0, UNKNOWN));
    }
    let [one, two, three, four, five, six, seven] = values;
    let hertz = lamp(one)?;
    let nominal_mv = integer(two, 2, None, |n| (1000..=1_000_000).contains(&n))?;
    Ok(Job {
        hertz,
        nominal_mv,
        uncertainty_uv: integer(three, 3, None, |n| (0..=10 * nominal_mv).contains(&n))?,
        channels: channels(four)?,
        dmax: integer(five, 5, None, |n| [4, 6, 7].contains(&n))?,
        run_in_s: integer(six, 6, Some(60), |n| (0..=60).contains(&n))? as u32,
        interval_s: integer(seven, 7, Some(600), |n| (1..=600).contains(&n))? as u32,
    })
}
