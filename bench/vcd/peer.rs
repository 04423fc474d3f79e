//! The yardstick: a plain Rust program, std alone and nothing proved, that makes captures of dumps as `docs/reference/captures.md` says. Its
//! arguments are those of `tlvcd`. It takes SYSTEM for one that `bench/vcd/run` made; the dump is streamed.
use std::collections::HashMap;
use std::env;
use std::error::Error;
use std::fmt::Write as _;
use std::fs::{self, File};
use std::io::{self, Read, Write};

mod system;

use system::System;

const CHUNK: usize = 65_536;
const HEADER: &str = "time,link,channel,opcode,param,size,source,address,mask,data,denied,corrupt\n";
const A: [&str; 9] = ["a_valid", "a_ready", "a_opcode", "a_param", "a_size", "a_source", "a_address", "a_mask", "a_data"];
const D: [&str; 8] = ["d_valid", "d_ready", "d_opcode", "d_size", "d_source", "d_denied", "d_corrupt", "d_data"];

type Outcome<T> = Result<T, Box<dyn Error>>;

// ---- the words of a dump

/// The words of a stream, one after the other.
struct Words<R> {
    reader: R,
    chunk: Vec<u8>,
    next: usize,
    filled: usize,
    line: u64,
    word: Vec<u8>,
}

impl<R: Read> Words<R> {
    fn new(reader: R) -> Words<R> {
        Words { reader, chunk: vec![0; CHUNK], next: 0, filled: 0, line: 1, word: Vec::new() }
    }

    /// Reads the next word; false at the end.
    fn read(&mut self) -> io::Result<bool> {
        self.word.clear();
        loop {
            while self.next < self.filled {
                let byte = self.chunk[self.next];
                self.next += 1;
                if byte > b' ' {
                    self.word.push(byte);
                    continue;
                }
                self.line += u64::from(byte == b'\n');
                if !self.word.is_empty() {
                    return Ok(true);
                }
            }
            self.filled = self.reader.read(&mut self.chunk)?;
            self.next = 0;
            if self.filled == 0 {
                return Ok(false);
            }
        }
    }
}

/// A signal that a dump declares: its identifier, how many bits it has, and the indices of these.
struct Var {
    code: Vec<u8>,
    width: usize,
    span: Option<(usize, usize)>,
}

/// A range of bits: `[7:0]` or `[3]`.
fn range_of(text: &str) -> Option<(usize, usize)> {
    let inside = text.strip_prefix('[')?.strip_suffix(']')?;
    let (left, right) = inside.split_once(':').unwrap_or((inside, inside));
    Some((left.parse().ok()?, right.parse().ok()?))
}

/// The signals of a header, by name.
fn read_header<R: Read>(words: &mut Words<R>) -> Outcome<HashMap<String, Var>> {
    let mut vars = HashMap::new();
    let mut scopes: Vec<String> = Vec::new();
    let mut command: Vec<String> = Vec::new();
    while words.read()? {
        let word = String::from_utf8(words.word.clone())?;
        if word != "$end" {
            command.push(word);
            continue;
        }
        match command.iter().map(String::as_str).collect::<Vec<_>>().as_slice() {
            ["$scope", _, name] => scopes.push(name.to_string()),
            ["$upscope"] => drop(scopes.pop()),
            ["$var", _, width, code, name, rest @ ..] => {
                let name = format!("{}.{name}", scopes.join("."));
                let span = rest.first().and_then(|text| range_of(text));
                vars.insert(name, Var { code: code.as_bytes().to_vec(), width: width.parse()?, span });
            }
            ["$enddefinitions"] => return Ok(vars),
            _ => {}
        }
        command.clear();
    }
    Err("cut in its header".into())
}

// ---- the values that are kept

/// A kept value, and what it was before the time of its last change.
struct Slot {
    width: usize,
    now: Vec<u8>,
    before: Vec<u8>,
    since: u64,
}

impl Slot {
    fn new(width: usize, digit: u8) -> Slot {
        Slot { width, now: vec![digit; width], before: Vec::with_capacity(width), since: 0 }
    }

    fn change(&mut self, times: u64, digits: &[u8]) {
        if self.since != times {
            std::mem::swap(&mut self.now, &mut self.before);
            self.since = times;
        }
        let fill = if matches!(digits[0], b'0' | b'1') { b'0' } else { digits[0] };
        self.now.clear();
        self.now.resize(self.width - digits.len(), fill);
        self.now.extend_from_slice(digits);
    }
}

/// Some bits of a kept value.
struct Tap {
    slot: usize,
    from: usize,
    to: usize,
}

/// What is kept, by identifier, and how many times have begun.
struct Values {
    slots: Vec<Slot>,
    codes: HashMap<Vec<u8>, (usize, Option<usize>)>,
    times: u64,
}

impl Values {
    fn new(vars: &HashMap<String, Var>) -> Values {
        let codes = vars.values().map(|var| (var.code.clone(), (var.width, None))).collect();
        Values { slots: Vec::new(), codes, times: 1 }
    }

    /// Keeps the bits that a name means.
    fn tap(&mut self, vars: &HashMap<String, Var>, name: &str, bits: usize) -> Outcome<Tap> {
        if name == "0" || name == "1" {
            self.slots.push(Slot::new(bits, b'0'));
            self.slots.last_mut().unwrap().now[bits - 1] = name.as_bytes()[0];
            return Ok(Tap { slot: self.slots.len() - 1, from: 0, to: bits });
        }
        let at = name.rfind('[').unwrap_or(name.len());
        let (var, from, to) = match (vars.get(name), vars.get(&name[..at]), range_of(&name[at..])) {
            (Some(var), ..) => (var, 0, var.width),
            (None, Some(var), Some((left, right))) => {
                let first = var.span.map_or(0, |span| span.0);
                (var, first.abs_diff(left), first.abs_diff(right) + 1)
            }
            _ => return Err(format!("no signal {name}").into()),
        };
        let Values { slots, codes, .. } = self;
        let slot = &mut codes.get_mut(&var.code).unwrap().1;
        let slot = *slot.get_or_insert_with(|| {
            slots.push(Slot::new(var.width, b'x'));
            slots.len() - 1
        });
        Ok(Tap { slot, from, to })
    }

    fn before(&self, tap: &Tap) -> &[u8] {
        let slot = &self.slots[tap.slot];
        let digits = if slot.since == self.times { &slot.before } else { &slot.now };
        &digits[tap.from..tap.to]
    }

    fn now(&self, tap: &Tap) -> &[u8] {
        &self.slots[tap.slot].now[tap.from..tap.to]
    }
}

// ---- the rows

/// A channel of a link.
struct Channel {
    link: String,
    is_ask: bool,
    taps: Vec<Tap>,
}

struct Sampler {
    clock: Tap,
    reset: Option<(Tap, bool)>,
    channels: Vec<Channel>,
    values: Values,
    time: Option<u64>,
}

fn number(name: &str, bits: &[u8]) -> Outcome<u64> {
    bits.iter().try_fold(0, |number, digit| match digit {
        b'0' => Ok(number << 1),
        b'1' => Ok(number << 1 | 1),
        _ => Err(format!("{name} is unknown").into()),
    })
}

/// Appends the hexadecimal digits of bits; the first has fewer if they are no multiple of four.
fn push_hex(text: &mut String, bits: &[u8]) {
    let (first, rest) = bits.split_at(bits.len() % 4);
    for bits in std::iter::once(first).filter(|bits| !bits.is_empty()).chain(rest.chunks(4)) {
        match number("", bits) {
            Ok(digit) => text.push(char::from_digit(digit as u32, 16).unwrap()),
            Err(_) => text.push('x'),
        }
    }
}

impl Channel {
    fn push_row(&self, text: &mut String, time: u64, values: &Values) -> Outcome<()> {
        let names = if self.is_ask { A.as_slice() } else { D.as_slice() };
        let bits = |at: usize| values.before(&self.taps[at]);
        let cell = |at: usize| number(names[at], bits(at));
        if self.is_ask {
            let (opcode, param, size, source, address) = (cell(2)?, cell(3)?, cell(4)?, cell(5)?, cell(6)?);
            cell(7)?;
            write!(text, "{time},{},A,{opcode},{param},{size},{source},{address:x},", self.link)?;
            push_hex(text, bits(7));
            text.push(',');
            push_hex(text, bits(8));
            text.push_str(",,\n");
        } else {
            let (opcode, size, source, denied, corrupt) = (cell(2)?, cell(3)?, cell(4)?, cell(5)?, cell(6)?);
            write!(text, "{time},{},D,{opcode},,{size},{source},,,", self.link)?;
            push_hex(text, bits(7));
            writeln!(text, ",{denied},{corrupt}")?;
        }
        Ok(())
    }
}

impl Sampler {
    /// Appends the rows of the present time.
    fn push_rows(&self, text: &mut String) -> Outcome<()> {
        let Some(time) = self.time else { return Ok(()) };
        let values = &self.values;
        let is_active = self.reset.as_ref().is_some_and(|(tap, is_low)| values.before(tap) == if *is_low { b"0" } else { b"1" });
        if values.before(&self.clock) != b"0" || values.now(&self.clock) != b"1" || is_active {
            return Ok(());
        }
        for channel in &self.channels {
            if values.before(&channel.taps[0]) == b"1" && values.before(&channel.taps[1]) == b"1" {
                channel.push_row(text, time, values)?;
            }
        }
        Ok(())
    }

    fn begin(&mut self, text: &mut String, time: u64) -> Outcome<()> {
        if self.time != Some(time) {
            self.push_rows(text)?;
            self.values.times += 1;
            self.time = Some(time);
        }
        Ok(())
    }

    fn change(&mut self, code: &[u8], digits: &[u8]) -> Outcome<()> {
        let &(width, slot) = self.values.codes.get(code).ok_or("no such identifier")?;
        if digits.len() > width {
            return Err("value wider than its signal".into());
        }
        if let Some(slot) = slot {
            self.values.slots[slot].change(self.values.times, digits);
        }
        Ok(())
    }
}

/// The channels in the order in which their beats cross.
fn channels_of(values: &mut Values, vars: &HashMap<String, Var>, system: &System) -> Outcome<Vec<Channel>> {
    let masters = || system.masters.iter().enumerate().map(|(n, link)| (format!("m{n}"), link));
    let ports = || system.ports.iter().enumerate().map(|(n, link)| (format!("p{n}"), link));
    let asks = masters().chain(ports()).map(|(name, link)| (name, link, true));
    let replies = ports().chain(masters()).map(|(name, link)| (name, link, false));
    let mut channels = Vec::new();
    for (link, keys, is_ask) in asks.chain(replies).filter(|(_, keys, _)| keys.is_given()) {
        let names = if is_ask { A.as_slice() } else { D.as_slice() };
        let taps = names.iter().map(|name| values.tap(vars, &keys.name_of(name), width_of(name)));
        channels.push(Channel { link, is_ask, taps: taps.collect::<Outcome<_>>()? });
    }
    Ok(channels)
}

/// How many bits a constant has.
fn width_of(name: &str) -> usize {
    match name {
        "a_data" | "d_data" | "a_address" => 64,
        "a_source" | "d_source" => 16,
        "a_valid" | "a_ready" | "d_valid" | "d_ready" | "d_denied" | "d_corrupt" => 1,
        _ => 8,
    }
}

/// Reads the body of a dump to its end, and writes the rows.
fn read_body<R: Read>(words: &mut Words<R>, sampler: &mut Sampler, writer: &mut impl Write) -> Outcome<()> {
    let mut text = String::from(HEADER);
    let mut digits = Vec::new();
    while words.read()? {
        match words.word.as_slice() {
            [b'0' | b'1' | b'x' | b'z' | b'X' | b'Z', code @ ..] => sampler.change(code, &words.word[..1])?,
            [b'b' | b'B', value @ ..] => {
                if value.is_empty() || !value.iter().all(|digit| b"01xzXZ".contains(digit)) {
                    return Err("bad value".into());
                }
                digits.clear();
                digits.extend_from_slice(value);
                words.read()?;
                sampler.change(&words.word, &digits)?;
            }
            [b'#', time @ ..] => {
                let time = std::str::from_utf8(time)?.parse()?;
                if sampler.time.is_some_and(|last| time < last) {
                    return Err("time falls".into());
                }
                sampler.begin(&mut text, time)?;
                if text.len() >= CHUNK / 2 {
                    writer.write_all(text.as_bytes())?;
                    text.clear();
                }
            }
            [b'r' | b'R' | b's' | b'S', ..] => drop(words.read()?),
            b"$comment" => while words.read()? && words.word != b"$end" {},
            b"$end" | b"$dumpvars" | b"$dumpall" | b"$dumpon" | b"$dumpoff" => {}
            _ => return Err("not a dump".into()),
        }
    }
    sampler.push_rows(&mut text)?;
    Ok(writer.write_all(text.as_bytes())?)
}

fn main() -> Outcome<()> {
    let words: Vec<String> = env::args().skip(1).collect();
    let system = System::read(&fs::read_to_string(&words[0])?);
    let reader: Box<dyn Read> = match words.get(1) {
        Some(name) => Box::new(File::open(name)?),
        None => Box::new(io::stdin()),
    };
    let mut words = Words::new(reader);
    let vars = read_header(&mut words)?;
    let mut values = Values::new(&vars);
    let clock = values.tap(&vars, &system.clock, 1)?;
    let reset = match &system.reset {
        Some(name) => Some((values.tap(&vars, name, 1)?, system.is_low)),
        None => None,
    };
    let channels = channels_of(&mut values, &vars, &system)?;
    let mut sampler = Sampler { clock, reset, channels, values, time: None };
    read_body(&mut words, &mut sampler, &mut io::stdout().lock()).map_err(|error| format!("line {}: {error}", words.line).into())
}
