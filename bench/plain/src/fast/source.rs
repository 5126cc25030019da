//! The reading of a data file, block by block.

use super::record::{record, Number, PAD};
use crate::configuration::Config;
use crate::data::{Lines, Reader, Stop, LONG, PIECE, SHORT};
use std::fs::File;
use std::io::{self, BufRead, Read};

/// A file in pieces. Before and behind the bytes that are read lie others, so that a word or a mask may reach over.
struct Pieces {
    file: File,
    bytes: Vec<u8>,
    from: usize,
    to: usize,
}

impl Pieces {
    fn open(name: &str) -> io::Result<Pieces> {
        Ok(Pieces { file: File::open(name)?, bytes: vec![0; PAD + PIECE + PAD], from: PAD, to: PAD })
    }

    fn rest(&self) -> &[u8] {
        &self.bytes[self.from..self.to]
    }

    /// Puts the rest in front, and reads more behind it: whether there was more.
    fn more(&mut self) -> io::Result<bool> {
        self.bytes.copy_within(self.from..self.to, PAD);
        (self.from, self.to) = (PAD, PAD + self.to - self.from);
        let count = self.file.read(&mut self.bytes[self.to..PAD + PIECE])?;
        self.to += count;
        Ok(count > 0)
    }
}

impl Read for Pieces {
    fn read(&mut self, to: &mut [u8]) -> io::Result<usize> {
        let count = self.fill_buf()?.read(to)?;
        self.consume(count);
        Ok(count)
    }
}

impl BufRead for Pieces {
    fn fill_buf(&mut self) -> io::Result<&[u8]> {
        if self.from == self.to {
            self.more()?;
        }
        Ok(self.rest())
    }

    fn consume(&mut self, count: usize) {
        self.from += count;
    }
}

/// Data of a configuration that are read into columns, one for each of the places.
pub struct Source {
    pieces: Pieces,
    reader: Reader,
    lines: Lines,
    row: u32,
    places: Vec<usize>,
    binary: bool,
    values: Vec<i32>,
}

/// Adds the values of whole BINARY records whose numbers count up from `first`: whether they do, and no value is missing.
fn add_records(records: &[u8], size: usize, first: u64, places: &[usize], columns: &mut [Vec<i32>]) -> bool {
    let mut good = true;
    for (number, record) in (first..).zip(records.chunks_exact(size)) {
        good &= u64::from(u32::from_le_bytes(record[..4].try_into().unwrap())) == number;
    }
    for (place, column) in places.iter().zip(columns) {
        let at = 8 + 2 * place;
        let mut least = i32::MAX;
        column.extend(records.chunks_exact(size).map(|record| {
            let value = i32::from(i16::from_le_bytes([record[at], record[at + 1]]));
            least = least.min(value);
            value
        }));
        good &= least > i32::from(i16::MIN);
    }
    good
}

impl Source {
    /// Of the channels at these places, from 0.
    pub fn open(name: &str, config: &Config, places: &[usize]) -> Result<Source, Stop> {
        Ok(Source {
            pieces: Pieces::open(name)?,
            reader: Reader::new(config, places),
            lines: Lines::new(),
            row: 0,
            places: places.to_vec(),
            binary: config.binary,
            values: vec![0; config.analog.len()],
        })
    }

    /// Adds at most so many records to the columns, which have as many before a fault: whether more may follow.
    pub fn read(&mut self, columns: &mut [Vec<i32>], rows: usize) -> Result<bool, Stop> {
        let last = self.row.saturating_add(rows as u32).min(self.reader.records);
        while self.row < last {
            if self.binary {
                self.add_binary(columns, last)?;
            } else {
                self.add_ascii(columns, last)?;
            }
        }
        if self.row < self.reader.records {
            return Ok(true);
        }
        if !self.binary {
            std::mem::replace(&mut self.lines, Lines::new()).end(&mut self.pieces, self.row)?;
        } else if !self.pieces.fill_buf()?.is_empty() {
            return Err(Stop::Fault(self.row.saturating_add(1), 0, LONG));
        }
        Ok(false)
    }

    fn add_binary(&mut self, columns: &mut [Vec<i32>], last: u32) -> Result<(), Stop> {
        let size = self.reader.size();
        let count = (self.pieces.rest().len() / size).min((last - self.row) as usize);
        if count == 0 {
            return if self.pieces.more()? { Ok(()) } else { Err(Stop::Fault(self.row + 1, 0, SHORT)) };
        }
        let records = &self.pieces.rest()[..count * size];
        let number = u32::from_le_bytes(records[..4].try_into().unwrap());
        let first = self.reader.before.map_or(u64::from(number), |before| u64::from(before) + 1);
        let held = columns[0].len();
        if add_records(records, size, first, &self.places, columns) {
            self.reader.before = Some((first + count as u64 - 1) as u32);
            self.row += count as u32;
        } else {
            columns.iter_mut().for_each(|column| column.truncate(held));
            self.judge_binary(count, columns)?;
        }
        self.pieces.consume(count * size);
        Ok(())
    }

    /// The same record by record, where one has a fault.
    fn judge_binary(&mut self, count: usize, columns: &mut [Vec<i32>]) -> Result<(), Stop> {
        let size = self.reader.size();
        for bytes in self.pieces.rest()[..count * size].chunks_exact(size) {
            self.row += 1;
            let record = self.reader.binary(bytes).map_err(|(field, kind)| Stop::Fault(self.row, field, kind))?;
            for (place, column) in self.places.iter().zip(&mut *columns) {
                column.push(record.analog[*place]);
            }
        }
        Ok(())
    }

    /// Adds records of the usual form, and then one of any form.
    fn add_ascii(&mut self, columns: &mut [Vec<i32>], last: u32) -> Result<(), Stop> {
        self.add_usual(columns, last.min(self.reader.records - 1));
        if self.row < last {
            self.row += 1;
            let record = self.lines.record(&mut self.pieces, &mut self.reader, self.row)?;
            for (place, column) in self.places.iter().zip(&mut *columns) {
                column.push(record.analog[*place]);
            }
        }
        Ok(())
    }

    /// The last record isn't among these: what ends the file may be in its line.
    fn add_usual(&mut self, columns: &mut [Vec<i32>], last: u32) {
        let Some(next) = self.reader.before.and_then(|before| before.checked_add(1)) else {
            return;
        };
        let (mut number, mut at, before) = (Number::of(next), self.pieces.from, self.row);
        while self.row < last {
            match record(&self.pieces.bytes, at, &mut number, &mut self.values, self.reader.digital) {
                Some(end) if end <= self.pieces.to => at = end,
                _ => break,
            }
            for (place, column) in self.places.iter().zip(&mut *columns) {
                column.push(self.values[*place]);
            }
            self.row += 1;
        }
        self.pieces.from = at;
        self.reader.before = Some(next - 1 + (self.row - before));
    }
}
