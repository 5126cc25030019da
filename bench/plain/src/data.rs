//! The reading of a data file, in pieces.

use crate::configuration::{trimmed, unsigned, Config};
use std::fs::File;
use std::io::{self, BufRead, BufReader, Read};

const FIELDS: u8 = 1;
const NUMBER: u8 = 2;
const RANGE: u8 = 3;
const ORDER: u8 = 4;
pub(crate) const SHORT: u8 = 5;
pub(crate) const LONG: u8 = 6;
const MISSING: u8 = 7;
const LENGTH: u8 = 8;

pub(crate) const PIECE: usize = 65_536;
const LONGEST_LINE: usize = 16_384;
const LONGEST_TAIL: usize = 65_536;

/// Why reading ended before the last record.
pub enum Stop {
    Read,
    /// The record, the field and the kind of the first fault.
    Fault(u32, usize, u8),
    /// The taker refused this record.
    Refused(u32),
}

impl From<io::Error> for Stop {
    fn from(_: io::Error) -> Stop {
        Stop::Read
    }
}

/// What a record has.
pub struct Record<'a> {
    pub number: u32,
    pub analog: &'a [i32],
}

/// What is read of a file so far.
pub(crate) struct Reader {
    pub records: u32,
    selected: Vec<bool>,
    pub digital: usize,
    /// The number of the record before.
    pub before: Option<u32>,
    analog: Vec<i32>,
}

impl Reader {
    /// A missing value is a fault in the selected channels, from 0.
    pub fn new(config: &Config, selected: &[usize]) -> Reader {
        let channels = config.analog.len();
        Reader {
            records: config.endsamp as u32,
            selected: (0..channels).map(|i| selected.contains(&i)).collect(),
            digital: config.digital.len(),
            before: None,
            analog: vec![0; channels],
        }
    }

    /// The bytes of a BINARY record.
    pub fn size(&self) -> usize {
        8 + 2 * self.selected.len() + 2 * self.digital.div_ceil(16)
    }

    fn follows(&mut self, number: u32) -> bool {
        let follows = self.before.is_none_or(|before| number.checked_sub(1) == Some(before));
        self.before = Some(number);
        follows
    }

    /// Reads the fields of a record.
    pub fn binary(&mut self, bytes: &[u8]) -> Result<Record<'_>, (usize, u8)> {
        let number = u32::from_le_bytes(bytes[..4].try_into().unwrap());
        if !self.follows(number) {
            return Err((1, ORDER));
        }
        let values = bytes[8..].chunks_exact(2).map(|b| i16::from_le_bytes([b[0], b[1]]));
        for (i, ((to, value), selected)) in self.analog.iter_mut().zip(values).zip(&self.selected).enumerate() {
            if *selected && value == i16::MIN {
                return Err((i + 3, MISSING));
            }
            *to = i32::from(value);
        }
        Ok(Record { number, analog: &self.analog })
    }

    /// Reads the fields of a line, without its end.
    fn line(&mut self, line: &[u8]) -> Result<Record<'_>, (usize, u8)> {
        if line.len() > LONGEST_LINE {
            return Err((0, LENGTH));
        }
        if line.iter().filter(|b| **b == b',').count() != 1 + self.selected.len() + self.digital {
            return Err((0, FIELDS));
        }
        let mut fields = line.split(|b| *b == b',').map(trimmed);
        let mut next = || fields.next().unwrap();
        let number = whole(next(), 0, u32::MAX.into()).map_err(|kind| (1, kind))? as u32;
        if !self.follows(number) {
            return Err((1, ORDER));
        }
        let stamp = next();
        if !stamp.is_empty() {
            whole(stamp, 0, 9_999_999_999).map_err(|kind| (2, kind))?;
        }
        for (i, selected) in self.selected.iter().enumerate() {
            let value = whole(next(), -99_999, 99_999).map_err(|kind| (i + 3, kind))?;
            if *selected && value == 99_999 {
                return Err((i + 3, MISSING));
            }
            self.analog[i] = value as i32;
        }
        for i in 0..self.digital {
            whole(next(), 0, 1).map_err(|kind| (self.selected.len() + i + 3, kind))?;
        }
        Ok(Record { number, analog: &self.analog })
    }
}

/// A whole number of a set, or why it isn't one.
fn whole(field: &[u8], least: i64, most: i64) -> Result<i64, u8> {
    let (negative, digits) = unsigned(field);
    if digits.is_empty() {
        return Err(NUMBER);
    }
    let mut size = 0i64;
    for byte in digits {
        let digit = byte.wrapping_sub(b'0');
        if digit > 9 {
            return Err(NUMBER);
        }
        size = (10 * size + i64::from(digit)).min(1_000_000_000_000);
    }
    let value = if negative { -size } else { size };
    if (least..=most).contains(&value) { Ok(value) } else { Err(RANGE) }
}

fn without_cr(line: &[u8]) -> &[u8] {
    line.strip_suffix(b"\r").unwrap_or(line)
}

fn read_binary(file: &mut BufReader<File>, reader: &mut Reader, mut take: impl FnMut(Record) -> bool) -> Result<(), Stop> {
    let size = reader.size();
    let (mut piece, mut held) = (vec![0; PIECE], 0);
    let mut row = 0;
    loop {
        let count = file.read(&mut piece[held..])?;
        let end = held + count;
        let mut at = 0;
        while row < reader.records && end - at >= size {
            row += 1;
            let record = reader.binary(&piece[at..at + size]).map_err(|(field, kind)| Stop::Fault(row, field, kind))?;
            if !take(record) {
                return Err(Stop::Refused(row));
            }
            at += size;
        }
        if row == reader.records && at < end {
            return Err(Stop::Fault(row.saturating_add(1), 0, LONG));
        }
        if count == 0 {
            return if row == reader.records { Ok(()) } else { Err(Stop::Fault(row + 1, 0, SHORT)) };
        }
        piece.copy_within(at..end, 0);
        held = end - at;
    }
}

/// A line of an ASCII file, and what follows the last record.
pub(crate) struct Lines {
    line: Vec<u8>,
    tail: Vec<u8>,
}

impl Lines {
    pub fn new() -> Lines {
        Lines { line: Vec::with_capacity(LONGEST_LINE + 2), tail: Vec::new() }
    }

    /// Reads the record of a row, from 1.
    pub fn record<'a>(&mut self, file: &mut impl BufRead, reader: &'a mut Reader, row: u32) -> Result<Record<'a>, Stop> {
        let line = &mut self.line;
        line.clear();
        file.by_ref().take(LONGEST_LINE as u64 + 2).read_until(b'\n', line)?;
        let mut end = line.len();
        if row == reader.records {
            end = line.iter().position(|b| *b == 0x1a).unwrap_or(end);
            self.tail.extend_from_slice(&line[end..]);
        }
        let ended = line[..end].ends_with(b"\n") || end < line.len();
        let text = line[..end].strip_suffix(b"\n").unwrap_or(&line[..end]);
        if !ended && end <= LONGEST_LINE && text.iter().all(|b| *b == b' ') {
            return Err(Stop::Fault(row, 0, SHORT));
        }
        reader.line(without_cr(text)).map_err(|(field, kind)| Stop::Fault(row, field, kind))
    }

    /// Reads what follows the last record.
    pub fn end(mut self, file: &mut impl BufRead, records: u32) -> Result<(), Stop> {
        file.by_ref().take(LONGEST_TAIL as u64 + 1).read_to_end(&mut self.tail)?;
        let marks = self.tail.iter().filter(|b| **b == 0x1a).count();
        if self.tail.len() > LONGEST_TAIL || marks > 1 || self.tail.iter().any(|b| !matches!(b, b'\r' | b'\n' | b' ' | 0x1a)) {
            return Err(Stop::Fault(records.saturating_add(1), 0, LONG));
        }
        Ok(())
    }
}

fn read_ascii(file: &mut BufReader<File>, reader: &mut Reader, mut take: impl FnMut(Record) -> bool) -> Result<(), Stop> {
    let mut lines = Lines::new();
    for row in 1..=reader.records {
        if !take(lines.record(file, reader, row)?) {
            return Err(Stop::Refused(row));
        }
    }
    lines.end(file, reader.records)
}

/// Reads the data of a configuration, and hands each record over. A missing value is a fault in these channels, from 0.
pub fn read_data(name: &str, config: &Config, selected: &[usize], take: impl FnMut(Record) -> bool) -> Result<(), Stop> {
    let mut reader = Reader::new(config, selected);
    let mut file = BufReader::with_capacity(PIECE, File::open(name)?);
    if config.binary {
        read_binary(&mut file, &mut reader, take)
    } else {
        read_ascii(&mut file, &mut reader, take)
    }
}
