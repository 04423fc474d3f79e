//! The rows of a capture, for the yardstick, as somebody writes them who wants them fast: a line is found by words of eight bytes, read where
//! it stands, and parsed in one pass. What is unusual (quotes, a line that is no row, one across the end of the input) goes to the plain code.
use std::convert::TryInto;
use std::io::Read;

#[path = "rows.rs"]
mod plain;

pub use self::plain::{Fields, LANES, Row, Side, Spelled, Stop};

const MAX_ROW: usize = 4096;
const NO_DIGIT: u8 = 0xff;

/// The value of each byte as a hexadecimal digit.
const DIGITS: [u8; 256] = {
    let mut digits = [NO_DIGIT; 256];
    let mut value = 0;
    while value < 16 {
        digits[b"0123456789abcdef"[value] as usize] = value as u8;
        digits[b"0123456789ABCDEF"[value] as usize] = value as u8;
        value += 1;
    }
    digits
};

/// A word whose bytes have their high bit set where those of a word are this byte, up to the first such byte.
fn hits(word: u64, byte: u8) -> u64 {
    const ONES: u64 = u64::MAX / 255;
    let other = word ^ (ONES * u64::from(byte));
    other.wrapping_sub(ONES) & !other & (ONES << 7)
}

/// Where the first end of a line or quote stands.
fn stop_of(text: &[u8]) -> Option<usize> {
    let mut words = text.chunks_exact(8);
    let mut place = 0;
    for chunk in &mut words {
        let word = u64::from_le_bytes(chunk.try_into().unwrap());
        let found = hits(word, b'\n') | hits(word, b'\r') | hits(word, b'"');
        if found != 0 {
            return Some(place + found.trailing_zeros() as usize / 8);
        }
        place += 8;
    }
    let rest = words.remainder();
    rest.iter().position(|byte| matches!(byte, b'\n' | b'\r' | b'"')).map(|more| place + more)
}

/// A line that is parsed from the left. Each call answers `None` if the line is unusual.
struct Cursor<'a> {
    line: &'a [u8],
    at: usize,
}

impl Cursor<'_> {
    fn comma(&mut self) -> Option<()> {
        (*self.line.get(self.at)? == b',').then(|| self.at += 1)
    }

    fn decimal(&mut self, most: u64) -> Option<u64> {
        let start = self.at;
        let mut value = 0u64;
        while let Some(byte) = self.line.get(self.at) {
            let digit = byte.wrapping_sub(b'0');
            if digit > 9 {
                break;
            }
            value = value.wrapping_mul(10).wrapping_add(u64::from(digit));
            self.at += 1;
        }
        let count = self.at - start;
        (count > 0 && count < 19 && value <= most).then_some(value)
    }

    fn hexadecimal(&mut self, most: usize) -> Option<(u64, usize)> {
        let start = self.at;
        let mut value = 0u64;
        while let Some(byte) = self.line.get(self.at) {
            let digit = DIGITS[*byte as usize];
            if digit == NO_DIGIT {
                break;
            }
            value = value << 4 | u64::from(digit);
            self.at += 1;
        }
        let count = self.at - start;
        (count > 0 && count <= most).then_some((value, count))
    }

    fn exactly(&mut self, count: usize) -> Option<u64> {
        self.hexadecimal(count).filter(|found| found.1 == count).map(|found| found.0)
    }

    fn flag(&mut self) -> Option<bool> {
        let byte = *self.line.get(self.at)?;
        self.at += 1;
        matches!(byte, b'0' | b'1').then_some(byte == b'1')
    }

    fn row(&mut self, line: u64, masters: usize, ports: usize) -> Option<Row> {
        let time = self.decimal(u64::MAX)?;
        self.comma()?;
        let (side, count) = match self.line.get(self.at)? {
            b'm' => (Side::Master, masters),
            b'p' => (Side::Port, ports),
            _ => return None,
        };
        self.at += 1;
        let number = self.decimal(count as u64 - 1)? as usize;
        self.comma()?;
        let is_ask = match self.line.get(self.at)? {
            b'A' => true,
            b'D' => false,
            _ => return None,
        };
        self.at += 1;
        self.comma()?;
        let mut fields = Fields { opcode: self.decimal(255)? as u8, ..Fields::default() };
        self.comma()?;
        if is_ask {
            fields.param = self.decimal(255)? as u8;
        }
        self.comma()?;
        fields.size = self.decimal(255)? as u8;
        self.comma()?;
        fields.source = self.decimal(65535)? as u16;
        self.comma()?;
        if is_ask {
            fields.address = self.hexadecimal(16)?.0;
            self.comma()?;
            fields.mask = self.exactly(2)? as u8;
        } else {
            self.comma()?;
        }
        self.comma()?;
        let lanes = if *self.line.get(self.at)? == b',' { 0 } else { self.exactly(16)? };
        self.comma()?;
        if !is_ask {
            fields.denied = self.flag()?;
        }
        self.comma()?;
        if !is_ask {
            fields.corrupt = self.flag()?;
        }
        let row = Row { line, time, side, number, is_ask, fields, lanes: lanes.to_le_bytes(), known: 0xff };
        (self.at == self.line.len()).then_some(row)
    }
}

/// What the last record is: a line that stands in the chunk, or a record of the plain reader.
enum Last {
    Line(usize, usize),
    Plain,
}

/// The records of a text, read in chunks.
pub struct Records<R> {
    plain: plain::Records<R>,
    last: Last,
}

impl<R: Read> Records<R> {
    pub fn new(source: R) -> Records<R> {
        Records { plain: plain::Records::new(source), last: Last::Plain }
    }

    pub fn line(&self) -> u64 {
        self.plain.line()
    }

    pub fn read_header(&mut self) -> Result<bool, Stop> {
        self.plain.read_header()
    }

    pub fn row(&self, masters: usize, ports: usize) -> Spelled<Row> {
        let Last::Line(start, end) = self.last else {
            return self.plain.row(masters, ports);
        };
        let line = &self.plain.chunk()[start..end];
        match (Cursor { line, at: 0 }).row(self.plain.line(), masters, ports) {
            Some(row) => Ok(row),
            None => self.plain.row_of_line(line, masters, ports),
        }
    }

    pub fn read(&mut self) -> Result<(), Stop> {
        self.plain.skip_line_ends();
        let (start, text) = self.plain.at_hand();
        let most = text.len().min(MAX_ROW + 1);
        match stop_of(&text[..most]) {
            Some(length) if length > 0 && text[length] != b'"' => {
                self.last = Last::Line(start, start + length);
                self.plain.take_line(length);
                Ok(())
            }
            _ => {
                self.last = Last::Plain;
                self.plain.read()
            }
        }
    }
}
