//! The rows of a capture, for the yardstick: what columns spell, and the records of a text that is read in chunks.
use std::io::{self, Read};

pub const LANES: usize = 8;
const COLUMNS: usize = 12;
const MAX_ROW: usize = 4096;
const HEADER: [&str; COLUMNS] = [
    "time", "link", "channel", "opcode", "param", "size", "source", "address", "mask", "data", "denied", "corrupt",
];

#[derive(Clone, Copy, PartialEq)]
pub enum Side {
    Master,
    Port,
}

#[derive(Clone, Copy, Default)]
pub struct Fields {
    pub opcode: u8,
    pub param: u8,
    pub size: u8,
    pub source: u16,
    pub address: u64,
    pub mask: u8,
    pub denied: bool,
    pub corrupt: bool,
}

/// A beat that was seen: on channel A or D, with its lanes and a bit for each lane that is known.
#[derive(Clone, Copy)]
pub struct Row {
    pub line: u64,
    pub time: u64,
    pub side: Side,
    pub number: usize,
    pub is_ask: bool,
    pub fields: Fields,
    pub lanes: [u8; LANES],
    pub known: u8,
}

impl Row {
    /// Where the beat stands among those of one time.
    pub fn place(&self) -> usize {
        let group = match (self.is_ask, self.side) {
            (true, Side::Master) => 0,
            (true, Side::Port) => 1,
            (false, Side::Port) => 2,
            (false, Side::Master) => 3,
        };
        16 * group + self.number
    }
}

pub type Spelled<T> = Result<T, &'static str>;

fn decimal(word: &[u8], most: u64) -> Spelled<u64> {
    if word.is_empty() || !word.iter().all(u8::is_ascii_digit) {
        return Err("bad number");
    }
    let mut value = 0u64;
    for digit in word {
        let more = value.checked_mul(10).and_then(|tens| tens.checked_add(u64::from(digit - b'0')));
        value = more.ok_or("number out of range")?;
    }
    if value <= most { Ok(value) } else { Err("number out of range") }
}

fn hexadecimal(word: &[u8], fewest: usize, most: usize) -> Spelled<u64> {
    if word.len() < fewest || word.len() > most {
        return Err("bad number");
    }
    let mut value = 0;
    for digit in word {
        let digit = (*digit as char).to_digit(16).ok_or("bad number")?;
        value = 16 * value + u64::from(digit);
    }
    Ok(value)
}

fn empty(word: &[u8]) -> Spelled<()> {
    if word.is_empty() { Ok(()) } else { Err("bad number") }
}

fn flag(word: &[u8]) -> Spelled<bool> {
    match word {
        b"0" => Ok(false),
        b"1" => Ok(true),
        _ => Err("bad number"),
    }
}

/// The lanes that sixteen digits show, lane 7 first, and a bit for each that is known.
fn lanes(word: &[u8]) -> Spelled<([u8; LANES], u8)> {
    let mut lanes = [0; LANES];
    if word.is_empty() {
        return Ok((lanes, 0xff));
    }
    if word.len() != 2 * LANES {
        return Err("bad number");
    }
    let mut known = 0;
    for (lane, pair) in word.rchunks(2).enumerate() {
        match hexadecimal(pair, 2, 2) {
            Ok(byte) => {
                lanes[lane] = byte as u8;
                known |= 1 << lane;
            }
            Err(fault) => {
                let shown = |c: &u8| c.is_ascii_hexdigit() || b"xXzZ".contains(c);
                if !pair.iter().all(shown) {
                    return Err(fault);
                }
            }
        }
    }
    Ok((lanes, known))
}

fn link(word: &[u8], masters: usize, ports: usize) -> Spelled<(Side, usize)> {
    let (side, count) = match word.first() {
        Some(b'm') => (Side::Master, masters),
        Some(b'p') => (Side::Port, ports),
        _ => return Err("no such link"),
    };
    match decimal(&word[1..], u64::MAX) {
        Ok(number) if number < count as u64 => Ok((side, number as usize)),
        _ => Err("no such link"),
    }
}

/// The row that columns spell, or the first thing wrong with them.
fn row_of<'a>(columns: usize, column: impl Fn(usize) -> &'a [u8], line: u64, masters: usize, ports: usize) -> Spelled<Row> {
    if columns != COLUMNS {
        return Err("wrong count of columns");
    }
    let time = decimal(column(0), u64::MAX)?;
    let (side, number) = link(column(1), masters, ports)?;
    let is_ask = match column(2) {
        b"A" => true,
        b"D" => false,
        _ => return Err("no such channel"),
    };
    let mut fields = Fields { opcode: decimal(column(3), 255)? as u8, ..Fields::default() };
    if is_ask {
        fields.param = decimal(column(4), 255)? as u8;
    } else {
        empty(column(4))?;
    }
    fields.size = decimal(column(5), 255)? as u8;
    fields.source = decimal(column(6), 65535)? as u16;
    if is_ask {
        fields.address = hexadecimal(column(7), 1, 16)?;
        fields.mask = hexadecimal(column(8), 2, 2)? as u8;
    } else {
        empty(column(7))?;
        empty(column(8))?;
    }
    let (lanes, known) = lanes(column(9))?;
    if is_ask {
        empty(column(10))?;
        empty(column(11))?;
    } else {
        fields.denied = flag(column(10))?;
        fields.corrupt = flag(column(11))?;
    }
    Ok(Row { line, time, side, number, is_ask, fields, lanes, known })
}

#[derive(Clone, Copy, PartialEq)]
enum At {
    RecordStart,
    FieldStart,
    Field,
    Quoted,
    QuoteEnd,
}

/// The records of a text, read in chunks.
pub struct Records<R> {
    source: R,
    chunk: Vec<u8>,
    next: usize,
    filled: usize,
    feeds: u64,
    line: u64,
    bytes: Vec<u8>,
    ends: Vec<usize>,
}

pub enum Stop {
    End,
    TooLong,
    ReadFailed,
}

impl<R: Read> Records<R> {
    pub fn new(source: R) -> Records<R> {
        let chunk = vec![0; 1 << 16];
        Records { source, chunk, next: 0, filled: 0, feeds: 0, line: 1, bytes: Vec::new(), ends: Vec::new() }
    }

    fn fill(&mut self) -> Result<bool, Stop> {
        loop {
            match self.source.read(&mut self.chunk) {
                Ok(count) => {
                    self.next = 0;
                    self.filled = count;
                    return Ok(count > 0);
                }
                Err(error) if error.kind() == io::ErrorKind::Interrupted => {}
                Err(_) => return Err(Stop::ReadFailed),
            }
        }
    }

    /// Drops a byte order mark at the start.
    fn skip_mark(&mut self) -> Result<(), Stop> {
        let mut front = Vec::new();
        while front.len() < 3 && (self.next < self.filled || self.fill()?) {
            front.push(self.chunk[self.next]);
            self.next += 1;
        }
        if front != [0xef, 0xbb, 0xbf] {
            let rest = self.chunk[self.next..self.filled].to_vec();
            front.extend(rest);
            self.filled = front.len();
            self.next = 0;
            self.chunk.resize(self.filled.max(1 << 16), 0);
            self.chunk[..front.len()].copy_from_slice(&front);
        }
        Ok(())
    }

    /// The line on which the last record begins.
    pub fn line(&self) -> u64 {
        self.line
    }

    /// Reads the first record, and whether it is the header.
    pub fn read_header(&mut self) -> Result<bool, Stop> {
        self.skip_mark()?;
        self.read()?;
        Ok(self.ends.len() == COLUMNS && (0..COLUMNS).all(|k| self.column(k) == HEADER[k].as_bytes()))
    }

    /// The row that the last record spells, or the first thing wrong with it.
    pub fn row(&self, masters: usize, ports: usize) -> Spelled<Row> {
        row_of(self.ends.len(), |place| self.column(place), self.line, masters, ports)
    }

    fn column(&self, place: usize) -> &[u8] {
        let start = if place == 0 { 0 } else { self.ends[place - 1] };
        &self.bytes[start..self.ends[place]]
    }

    /// Reads the next record.
    pub fn read(&mut self) -> Result<(), Stop> {
        self.bytes.clear();
        self.ends.clear();
        let mut at = At::RecordStart;
        let mut taken = 0;
        loop {
            if self.next == self.filled && !self.fill()? {
                if at == At::RecordStart {
                    return Err(Stop::End);
                }
                self.ends.push(self.bytes.len());
                return Ok(());
            }
            let byte = self.chunk[self.next];
            self.next += 1;
            let is_end = byte == b'\n' || byte == b'\r';
            if at == At::RecordStart {
                if is_end {
                    self.feeds += u64::from(byte == b'\n');
                    continue;
                }
                self.line = 1 + self.feeds;
                at = At::FieldStart;
            }
            self.feeds += u64::from(byte == b'\n');
            taken += 1;
            if taken > MAX_ROW && !(is_end && at != At::Quoted) {
                return Err(Stop::TooLong);
            }
            at = match (at, byte) {
                (At::FieldStart, b'"') => At::Quoted,
                (At::Quoted, b'"') => At::QuoteEnd,
                (At::QuoteEnd, b'"') | (At::Quoted, _) => {
                    self.bytes.push(byte);
                    At::Quoted
                }
                (_, b',') => {
                    self.ends.push(self.bytes.len());
                    At::FieldStart
                }
                _ if is_end => {
                    self.ends.push(self.bytes.len());
                    return Ok(());
                }
                _ => {
                    self.bytes.push(byte);
                    At::Field
                }
            };
        }
    }
}

/// What a reader of whole lines asks for (expert.rs).
#[allow(dead_code)]
impl<R: Read> Records<R> {
    pub fn chunk(&self) -> &[u8] {
        &self.chunk
    }

    /// The bytes that were read and not taken, and where they begin.
    pub fn at_hand(&self) -> (usize, &[u8]) {
        (self.next, &self.chunk[self.next..self.filled])
    }

    /// Takes the ends of lines at hand.
    pub fn skip_line_ends(&mut self) {
        while self.next < self.filled && matches!(self.chunk[self.next], b'\n' | b'\r') {
            self.feeds += u64::from(self.chunk[self.next] == b'\n');
            self.next += 1;
        }
    }

    /// Takes a line of this number of bytes, and the byte that ends it.
    pub fn take_line(&mut self, length: usize) {
        self.line = 1 + self.feeds;
        self.next += length + 1;
        self.feeds += u64::from(self.chunk[self.next - 1] == b'\n');
    }

    pub fn row_of_line(&self, line: &[u8], masters: usize, ports: usize) -> Spelled<Row> {
        let columns: Vec<&[u8]> = line.split(|byte| *byte == b',').collect();
        row_of(columns.len(), |place| columns[place], self.line, masters, ports)
    }
}
