//! The yardstick: a plain Rust program, std alone and nothing proved, that does what `tlx` does with the scripts that
//! `run` makes. It reads the script from standard input and writes the trace. What is public the peer of `bench/threads`
//! uses again.
use std::fmt::Write as _;
use std::io::{self, Read, Write as _};

/// The largest size of a message, as log2 of its bytes.
pub const MAX_SIZE: u32 = 8;

#[derive(Clone, Copy, PartialEq)]
pub enum Kind {
    Ram,
    Rom,
    Regs,
    ClearRegs,
    NoDevice,
}

pub struct Bank {
    pub kind: Kind,
    pub base: u64,
    pub bytes: Vec<u8>,
}

#[derive(Clone, Copy, PartialEq)]
pub enum Op {
    Get,
    PutFull,
    PutPart,
    Arith(u8),
    Logic(u8),
    Hint(u8),
}

pub const NAMES: [(&str, Op); 14] = [
    ("get", Op::Get),
    ("putfull", Op::PutFull),
    ("putpart", Op::PutPart),
    ("min", Op::Arith(0)),
    ("max", Op::Arith(1)),
    ("minu", Op::Arith(2)),
    ("maxu", Op::Arith(3)),
    ("add", Op::Arith(4)),
    ("xor", Op::Logic(0)),
    ("or", Op::Logic(1)),
    ("and", Op::Logic(2)),
    ("swap", Op::Logic(3)),
    ("prefetchr", Op::Hint(0)),
    ("prefetchw", Op::Hint(1)),
];

pub struct Ask {
    pub op: Op,
    pub name: &'static str,
    pub size: u32,
    pub source: u16,
    pub address: u64,
    pub bytes: Vec<Option<u8>>,
}

struct Entry {
    ask: Ask,
    denied: bool,
    shown: Vec<u8>,
    port: usize,
    index: usize,
}

pub fn number(word: &str) -> Option<u64> {
    match word.strip_prefix("0x") {
        Some(digits) => u64::from_str_radix(digits, 16).ok(),
        None => word.parse().ok(),
    }
}

pub fn data(word: &str) -> Option<Vec<Option<u8>>> {
    word.as_bytes()
        .chunks(2)
        .map(|pair| match pair {
            b"--" => Some(None),
            _ => u8::from_str_radix(std::str::from_utf8(pair).ok()?, 16).ok().map(Some),
        })
        .collect()
}

pub fn ask_of(line: &str, sources: u16) -> Option<Ask> {
    let mut words = line.split_ascii_whitespace();
    let source: u16 = words.next()?.parse().ok()?;
    let name = words.next()?;
    let &(name, op) = NAMES.iter().find(|(known, _)| *known == name)?;
    let address = number(words.next()?)?;
    let size: u32 = words.next()?.parse().ok()?;
    let carries = !matches!(op, Op::Get | Op::Hint(_));
    let bytes = if carries { data(words.next()?)? } else { Vec::new() };
    let lawful = source < sources
        && size <= MAX_SIZE
        && words.next().is_none()
        && (!carries || bytes.len() == 1 << size)
        && (op == Op::PutPart || bytes.iter().all(Option::is_some));
    lawful.then_some(Ask { op, name, size, source, address, bytes })
}

pub fn supports(kind: Kind, op: Op, size: u32) -> bool {
    let word = size == 2 || size == 3;
    match (kind, op) {
        (Kind::Ram, Op::Arith(_) | Op::Logic(_)) => word,
        (Kind::Ram, _) => true,
        (Kind::Rom, Op::Get | Op::Hint(_)) => true,
        (Kind::Regs | Kind::ClearRegs, Op::Get | Op::PutFull) => word,
        _ => false,
    }
}

pub fn word_of(bytes: &[u8]) -> u64 {
    let mut word = [0; 8];
    word[..bytes.len()].copy_from_slice(bytes);
    u64::from_le_bytes(word)
}

pub fn signed_of(bytes: &[u8]) -> i64 {
    let shift = 64 - 8 * bytes.len() as u32;
    ((word_of(bytes) << shift) as i64) >> shift
}

/// Where the window of a legal request begins in the bank's bytes.
pub fn window_of(bank: &Bank, op: Op, size: u32, address: u64) -> Option<usize> {
    let width = 1u64 << size;
    let length = bank.bytes.len() as u64;
    let legal = supports(bank.kind, op, size)
        && address % width == 0
        && bank.base <= address
        && width <= length
        && address - bank.base <= length - width;
    legal.then(|| (address - bank.base) as usize)
}

/// What an operation makes of its window; the operand is zero if a byte is not given.
pub fn change(kind: Kind, op: Op, window: &mut [u8], operand: &[u8], is_given: impl Fn(usize) -> bool) {
    match op {
        Op::Get | Op::Hint(_) => {}
        Op::PutFull if kind == Kind::ClearRegs => {
            for (byte, ones) in window.iter_mut().zip(operand) {
                *byte &= !ones;
            }
        }
        Op::PutFull | Op::PutPart => {
            for (k, (byte, new)) in window.iter_mut().zip(operand).enumerate() {
                if is_given(k) {
                    *byte = *new;
                }
            }
        }
        Op::Arith(4) => {
            let sum = word_of(window).wrapping_add(word_of(operand)).to_le_bytes();
            window.copy_from_slice(&sum[..operand.len()]);
        }
        Op::Arith(which) => {
            let takes = match which {
                0 => signed_of(operand) < signed_of(window),
                1 => signed_of(window) < signed_of(operand),
                2 => word_of(operand) < word_of(window),
                _ => word_of(window) < word_of(operand),
            };
            if takes {
                window.copy_from_slice(operand);
            }
        }
        Op::Logic(which) => {
            for (byte, x) in window.iter_mut().zip(operand) {
                *byte = match which {
                    0 => *byte ^ x,
                    1 => *byte | x,
                    2 => *byte & x,
                    _ => *x,
                };
            }
        }
    }
}

fn serve(bank: &mut Bank, ask: &Ask) -> (bool, Vec<u8>) {
    let width = 1usize << ask.size;
    let shows = shows_bytes(ask.op);
    let Some(start) = window_of(bank, ask.op, ask.size, ask.address) else {
        return (true, if shows { vec![0; width] } else { Vec::new() });
    };
    let window = &mut bank.bytes[start..start + width];
    let shown = if shows { window.to_vec() } else { Vec::new() };
    let operand: Vec<u8> = ask.bytes.iter().map(|byte| byte.unwrap_or(0)).collect();
    change(bank.kind, ask.op, window, &operand, |k| ask.bytes[k].is_some());
    (false, shown)
}

/// Whether the reply carries bytes.
pub fn shows_bytes(op: Op) -> bool {
    !matches!(op, Op::PutFull | Op::PutPart | Op::Hint(_))
}

/// The name of the reply to an operation, as a trace has it.
pub fn reply_name(op: Op) -> &'static str {
    match op {
        Op::PutFull | Op::PutPart => " -> AccessAck",
        Op::Hint(_) => " -> HintAck",
        _ => " -> AccessAckData",
    }
}

/// The port that holds all bytes of a request, else the error port after the banks.
pub fn port_of(banks: &[Bank], size: u32, address: u64) -> usize {
    let width = 1u64 << size;
    let holds = |bank: &Bank| {
        let length = bank.bytes.len() as u64;
        bank.base <= address && width <= length && address - bank.base <= length - width
    };
    banks.iter().position(holds).unwrap_or(banks.len())
}

pub fn push_data(text: &mut String, bytes: impl Iterator<Item = Option<u8>>) {
    for (k, byte) in bytes.enumerate() {
        if k == 0 {
            text.push(' ');
        }
        match byte {
            Some(byte) => write!(text, "{byte:02x}").unwrap(),
            None => text.push_str("--"),
        }
    }
}

/// What a script says: how many slots there are, what the ports hold at reset, and each master's sources and operations.
pub struct Script<'a> {
    pub slots: usize,
    pub banks: Vec<Bank>,
    pub masters: Vec<(u16, Vec<&'a str>)>,
}

/// Reads a script that has each key in a line of its own.
pub fn read_script(script: &str) -> Script<'_> {
    let mut slots = 0;
    let mut banks: Vec<Bank> = Vec::new();
    let mut masters: Vec<(u16, Vec<&str>)> = Vec::new();
    for line in script.lines().map(str::trim) {
        if let Some(count) = line.strip_prefix("slots = ") {
            slots = count.parse().unwrap();
        } else if line == "[[port]]" {
            banks.push(Bank { kind: Kind::NoDevice, base: 0, bytes: Vec::new() });
        } else if line == "[[master]]" {
            masters.push((0, Vec::new()));
        } else if let Some(kind) = line.strip_prefix("kind = ") {
            banks.last_mut().unwrap().kind = match kind {
                "\"ram\"" => Kind::Ram,
                "\"rom\"" => Kind::Rom,
                "\"regs\"" => Kind::Regs,
                _ => Kind::ClearRegs,
            };
        } else if let Some(base) = line.strip_prefix("base = ") {
            banks.last_mut().unwrap().base = number(base).unwrap();
        } else if let Some(length) = line.strip_prefix("length = ") {
            banks.last_mut().unwrap().bytes = vec![0; length.parse().unwrap()];
        } else if let Some(sources) = line.strip_prefix("sources = ") {
            masters.last_mut().unwrap().0 = sources.parse().unwrap();
        } else if let Some(reset) = line.strip_prefix("reset = ") {
            let given = data(reset.trim_matches('"')).unwrap();
            for (byte, given) in banks.last_mut().unwrap().bytes.iter_mut().zip(given) {
                *byte = given.unwrap();
            }
        } else if line.starts_with("ops = [") || line.starts_with('"') {
            let code = line.split('#').next().unwrap();
            masters.last_mut().unwrap().1.extend(code.split('"').skip(1).step_by(2));
        }
    }
    Script { slots, banks, masters }
}

fn main() {
    let mut script = String::new();
    io::stdin().read_to_string(&mut script).unwrap();
    let Script { mut banks, masters, .. } = read_script(&script);
    let ports = banks.len();
    banks.push(Bank { kind: Kind::NoDevice, base: 0, bytes: Vec::new() });
    let mut served = vec![0; ports + 1];
    let mut traces: Vec<Vec<Entry>> = Vec::new();
    for (sources, lines) in masters {
        let mut trace = Vec::with_capacity(lines.len());
        for line in lines.into_iter().filter(|line| *line != "wait") {
            let ask = ask_of(line, sources).unwrap();
            let port = port_of(&banks[..ports], ask.size, ask.address);
            let (denied, shown) = serve(&mut banks[port], &ask);
            trace.push(Entry { ask, denied, shown, port, index: served[port] });
            served[port] += 1;
        }
        traces.push(trace);
    }
    let mut text = String::new();
    for (master, trace) in traces.iter().enumerate() {
        for entry in trace {
            let ask = &entry.ask;
            write!(text, "m{master} s{} {} 0x{:x} {}", ask.source, ask.name, ask.address, ask.size).unwrap();
            push_data(&mut text, ask.bytes.iter().copied());
            text.push_str(reply_name(ask.op));
            if entry.denied {
                text.push_str(" denied");
            }
            push_data(&mut text, entry.shown.iter().copied().map(Some));
            writeln!(text, " p{} #{}", entry.port, entry.index).unwrap();
        }
    }
    io::stdout().write_all(text.as_bytes()).unwrap();
}
