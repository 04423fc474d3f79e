//! The yardstick: a plain Rust program, std alone and nothing proved, that judges captured traces as `docs/reference/captures.md` says.
//! Its arguments are those of `tlcheck`. It takes SYSTEM for a script that `bench/serial` could have made, and the capture is
//! streamed: rows of one time are kept, and of each link what is under way.
use std::env;
use std::fmt::Write as _;
use std::fs::File;
use std::io::{self, Read, Write};
use std::process::ExitCode;

#[path = "../given.rs"]
mod given;
#[path = "../serial/peer.rs"]
#[allow(dead_code)]
mod plain;
#[cfg_attr(expert, path = "expert.rs")]
mod rows;

use given::{Given, MAX_BYTES};
use plain::{Bank, Kind, MAX_SIZE, NAMES, Op, Script};
use rows::{Fields, LANES, Records, Row, Side, Stop};

// ---- the judge

#[derive(Clone, Copy, PartialEq)]
enum Links {
    Both,
    Masters,
    Ports,
}

/// A request, with the bytes that are given.
#[derive(Clone)]
struct Ask {
    fields: Fields,
    op: Op,
    beats: usize,
    bytes: [u8; MAX_BYTES],
    given: Given,
}

#[derive(Clone, PartialEq)]
struct Reply {
    denied: bool,
    bytes: Vec<u8>,
}

/// A request in flight at a link: what is known of its replies, and its place in its port's list.
struct Flight {
    ask: Ask,
    port: usize,
    ended: bool,
    crossed: bool,
    expected: Option<Reply>,
    given: Option<Reply>,
    place: u64,
}

/// What is under way at a link: the source of a request, and a reply.
#[derive(Default)]
struct UnderWay {
    ask: Option<u16>,
    reply: Option<(Fields, usize, Vec<u8>)>,
}

struct Judge {
    links: Links,
    at_reply: bool,
    trace: bool,
    banks: Vec<Bank>,
    served: Vec<u64>,
    starts: Vec<u16>,
    counts: Vec<u16>,
    masters: Vec<UnderWay>,
    ports: Vec<UnderWay>,
    /// The requests in flight at masters' links, and at ports', by wide source.
    own: Vec<Option<Flight>>,
    wide: Vec<Option<Flight>>,
    rows: u64,
    requests: u64,
    answered: u64,
    text: String,
}

fn op_of(opcode: u8, param: u8) -> Option<Op> {
    let op = match opcode {
        0 => Op::PutFull,
        1 => Op::PutPart,
        2 => Op::Arith(param),
        3 => Op::Logic(param),
        4 => Op::Get,
        5 => Op::Hint(param),
        _ => return None,
    };
    let most = [0, 0, 4, 3, 0, 1][opcode as usize];
    (param <= most).then_some(op)
}

fn reply_opcode(op: Op) -> u8 {
    match op {
        Op::PutFull | Op::PutPart => 0,
        Op::Hint(_) => 2,
        _ => 1,
    }
}

fn carries(op: Op) -> bool {
    !matches!(op, Op::Get | Op::Hint(_))
}

fn beat_count(carries: bool, size: u8) -> usize {
    if carries { ((1usize << size) / LANES).max(1) } else { 1 }
}

/// The first active lane, and how many there are.
fn active(address: u64, size: u8) -> (usize, usize) {
    let low = address - address % (1 << size);
    ((low % LANES as u64) as usize, (1usize << size).min(LANES))
}

fn active_mask(address: u64, size: u8) -> u8 {
    let (first, count) = active(address, size);
    (((1u32 << count) - 1) << first) as u8
}

fn reply_text(op: Op, reply: &Reply) -> String {
    let mut text = plain::reply_name(op)[4..].to_string();
    if reply.denied {
        text.push_str(" denied");
    }
    plain::push_data(&mut text, reply.bytes.iter().copied().map(Some));
    text
}

type Judged<T> = Result<T, String>;

fn fault<T>(text: &str) -> Judged<T> {
    Err(text.to_string())
}

impl Judge {
    fn new(script: Script, links: Links, at_reply: bool, trace: bool) -> Judge {
        let mut banks = script.banks;
        let ports = banks.len();
        banks.push(Bank { kind: Kind::NoDevice, base: 0, bytes: Vec::new() });
        let (mut starts, mut counts, mut end) = (Vec::new(), Vec::new(), 0u16);
        for (sources, _) in &script.masters {
            let size = sources.next_power_of_two();
            let start = end.next_multiple_of(size);
            end = start + size;
            starts.push(start);
            counts.push(*sources);
        }
        Judge {
            links,
            at_reply,
            trace,
            served: vec![0; ports + 1],
            banks,
            masters: starts.iter().map(|_| UnderWay::default()).collect(),
            ports: (0..ports).map(|_| UnderWay::default()).collect(),
            starts,
            counts,
            own: (0..end).map(|_| None).collect(),
            wide: (0..end).map(|_| None).collect(),
            rows: 0,
            requests: 0,
            answered: 0,
            text: String::new(),
        }
    }

    fn error_port(&self) -> usize {
        self.banks.len() - 1
    }

    /// The wide source of a source at a link, if the link has it.
    fn widen(&self, row: &Row) -> Option<u16> {
        let source = row.fields.source;
        match row.side {
            Side::Master => (source < self.counts[row.number]).then(|| self.starts[row.number] + source),
            Side::Port => self.owner(source).map(|_| source),
        }
    }

    /// The master that has a wide source, and its own source.
    fn owner(&self, wide: u16) -> Option<(usize, u16)> {
        let has = |m: &usize| self.starts[*m] <= wide && wide - self.starts[*m] < self.counts[*m];
        (0..self.starts.len()).find(has).map(|m| (m, wide - self.starts[m]))
    }

    fn flights(&mut self, side: Side) -> &mut Vec<Option<Flight>> {
        match side {
            Side::Master => &mut self.own,
            Side::Port => &mut self.wide,
        }
    }

    fn under_way(&mut self, row: &Row) -> &mut UnderWay {
        match row.side {
            Side::Master => &mut self.masters[row.number],
            Side::Port => &mut self.ports[row.number],
        }
    }

    fn is_watched(&self, side: Side) -> bool {
        match side {
            Side::Master => self.links != Links::Ports,
            Side::Port => self.links != Links::Masters,
        }
    }

    /// Whether this side's requests to a port make the port's list.
    fn is_listed(&self, side: Side, port: usize) -> bool {
        side == Side::Port || self.links == Links::Masters || port == self.error_port()
    }

    /// Serves a request as the next of its port's list.
    fn enlist(&mut self, side: Side, wide: u16) {
        let flight = match side {
            Side::Master => self.own[wide as usize].as_mut().unwrap(),
            Side::Port => self.wide[wide as usize].as_mut().unwrap(),
        };
        let bank = &mut self.banks[flight.port];
        let Fields { size, address, .. } = flight.ask.fields;
        let width = 1usize << size;
        let shows = plain::shows_bytes(flight.ask.op);
        flight.expected = Some(match plain::window_of(bank, flight.ask.op, u32::from(size), address) {
            None => Reply { denied: true, bytes: if shows { vec![0; width] } else { Vec::new() } },
            Some(start) => {
                let window = &mut bank.bytes[start..start + width];
                let bytes = if shows { window.to_vec() } else { Vec::new() };
                let given = flight.ask.given;
                let operand = &flight.ask.bytes[..if carries(flight.ask.op) { width } else { 0 }];
                plain::change(bank.kind, flight.ask.op, window, operand, |k| given.has(k));
                Reply { denied: false, bytes }
            }
        });
        flight.place = self.served[flight.port];
        self.served[flight.port] += 1;
    }

    fn judge(&mut self, row: &Row) -> Judged<()> {
        if row.is_ask { self.judge_ask(row) } else { self.judge_reply(row) }
    }

    fn judge_ask(&mut self, row: &Row) -> Judged<()> {
        let f = row.fields;
        let begun = self.under_way(row).ask;
        let op = match begun {
            None => {
                let Some(op) = op_of(f.opcode, f.param) else {
                    return fault("unknown opcode");
                };
                if u32::from(f.size) > MAX_SIZE {
                    return fault("size out of range");
                }
                op
            }
            Some(wide) => {
                let first = &self.flights(row.side)[wide as usize].as_ref().unwrap().ask;
                let g = first.fields;
                if (f.opcode, f.param, f.size, f.source, f.address) != (g.opcode, g.param, g.size, g.source, g.address) {
                    return fault("field changed");
                }
                first.op
            }
        };
        let all = active_mask(f.address, f.size);
        let is_lawful = if op == Op::PutPart { f.mask & all == f.mask } else { f.mask == all };
        if !is_lawful {
            return fault("wrong mask");
        }
        if carries(op) && f.mask & !row.known != 0 {
            return fault("unknown data");
        }
        let wide = match begun {
            Some(wide) => wide,
            None => self.begin(row, op)?,
        };
        let flight = self.flights(row.side)[wide as usize].as_mut().unwrap();
        let (first, count) = active(f.address, f.size);
        for k in 0..if carries(op) { count } else { 0 } {
            if f.mask >> (first + k) & 1 == 1 {
                let place = LANES * flight.ask.beats + k;
                flight.ask.bytes[place] = row.lanes[first + k];
                flight.ask.given.add(place);
            }
        }
        flight.ask.beats += 1;
        let is_last = flight.ask.beats == beat_count(carries(op), f.size);
        flight.ended = is_last;
        self.under_way(row).ask = (!is_last).then_some(wide);
        if is_last { self.end_ask(row.side, wide) } else { Ok(()) }
    }

    /// Begins a request.
    fn begin(&mut self, row: &Row, op: Op) -> Judged<u16> {
        let Some(wide) = self.widen(row) else {
            return fault("no such source");
        };
        if self.flights(row.side)[wide as usize].is_some() {
            return fault("source in flight");
        }
        let ports = self.error_port();
        let port = plain::port_of(&self.banks[..ports], u32::from(row.fields.size), row.fields.address);
        if row.side == Side::Port && port != row.number {
            return fault("not this port's address");
        }
        let ask = Ask { fields: row.fields, op, beats: 0, bytes: [0; MAX_BYTES], given: Given::NONE };
        let flight = Flight { ask, port, ended: false, crossed: false, expected: None, given: None, place: 0 };
        self.flights(row.side)[wide as usize] = Some(flight);
        Ok(wide)
    }

    fn end_ask(&mut self, side: Side, wide: u16) -> Judged<()> {
        let flight = self.flights(side)[wide as usize].as_ref().unwrap();
        let (port, ask) = (flight.port, flight.ask.clone());
        if side == Side::Port && self.links == Links::Both {
            let Some(sent) = self.own[wide as usize].as_mut().filter(|sent| sent.ended && !sent.crossed) else {
                return fault("no master sent this request");
            };
            let (a, b) = (sent.ask.fields, ask.fields);
            let same = (a.opcode, a.param, a.size, a.address) == (b.opcode, b.param, b.size, b.address)
                && sent.ask.given == ask.given
                && sent.ask.bytes == ask.bytes;
            if !same {
                return fault("no master sent this request");
            }
            sent.crossed = true;
        }
        if side == Side::Master || self.links == Links::Ports {
            self.requests += 1;
        }
        if !self.at_reply && self.is_listed(side, port) {
            self.enlist(side, wide);
        }
        Ok(())
    }

    fn judge_reply(&mut self, row: &Row) -> Judged<()> {
        let f = row.fields;
        let begun = self.under_way(row).reply.take();
        match &begun {
            None if f.opcode > 2 => return fault("unknown opcode"),
            None if u32::from(f.size) > MAX_SIZE => return fault("size out of range"),
            Some((g, ..)) if (f.opcode, f.size, f.source, f.denied) != (g.opcode, g.size, g.source, g.denied) => {
                return fault("field changed");
            }
            _ => {}
        }
        if f.corrupt && !(f.denied && f.opcode == 1) {
            return fault("wrong corrupt flag");
        }
        let Some(wide) = self.widen(row) else {
            return fault("no such source");
        };
        let number = row.number;
        let flight = match &self.flights(row.side)[wide as usize] {
            Some(flight) if row.side == Side::Master || flight.port == number => flight,
            _ => return fault("reply without request"),
        };
        if !flight.ended {
            return fault("reply before its request ended");
        }
        if f.size != flight.ask.fields.size {
            return fault("size of another request");
        }
        if f.opcode != reply_opcode(flight.ask.op) {
            return fault("opcode of another operation");
        }
        let (first, count) = active(flight.ask.fields.address, f.size);
        let port = flight.port;
        let is_first = begun.is_none();
        let (_, beats, mut bytes) = begun.unwrap_or((f, 0, Vec::new()));
        if f.opcode == 1 {
            let mask = (((1u32 << count) - 1) << first) as u8;
            if !f.denied && mask & !row.known != 0 {
                return fault("unknown data");
            }
            let lanes = &row.lanes[first..first + count];
            bytes.extend(lanes.iter().map(|byte| if f.denied { 0 } else { *byte }));
        }
        if is_first && self.at_reply && self.is_listed(row.side, port) {
            self.enlist(row.side, wide);
        }
        if beats + 1 < beat_count(f.opcode == 1, f.size) {
            self.under_way(row).reply = Some((f, beats + 1, bytes));
            return Ok(());
        }
        self.end_reply(row.side, wide, Reply { denied: f.denied, bytes })
    }

    fn end_reply(&mut self, side: Side, wide: u16, reply: Reply) -> Judged<()> {
        let mut flight = self.flights(side)[wide as usize].take().unwrap();
        if self.is_listed(side, flight.port) {
            let expected = flight.expected.as_ref().unwrap();
            if *expected != reply {
                let op = flight.ask.op;
                let (expected, captured) = (reply_text(op, expected), reply_text(op, &reply));
                return Err(format!("wrong reply: expected {expected}, captured {captured}"));
            }
        } else if flight.given.as_ref() != Some(&reply) {
            return fault("the port gave no such reply");
        }
        if side == Side::Port && self.links == Links::Both {
            let sent = self.own[wide as usize].as_mut().unwrap();
            sent.given = Some(reply);
            sent.place = flight.place;
            return Ok(());
        }
        self.answered += 1;
        if self.trace {
            flight.given = Some(reply);
            self.push_entry(wide, &flight);
        }
        Ok(())
    }

    fn push_entry(&mut self, wide: u16, flight: &Flight) {
        let (master, source) = self.owner(wide).unwrap();
        let op = flight.ask.op;
        let (name, _) = NAMES.iter().find(|(_, known)| *known == op).unwrap();
        let Fields { size, address, .. } = flight.ask.fields;
        let text = &mut self.text;
        write!(text, "m{master} s{source} {name} 0x{address:x} {size}").unwrap();
        let count = if carries(op) { 1usize << size } else { 0 };
        let (bytes, given) = (&flight.ask.bytes, flight.ask.given);
        plain::push_data(text, (0..count).map(|k| given.has(k).then_some(bytes[k])));
        let reply = reply_text(op, flight.given.as_ref().unwrap());
        writeln!(text, " -> {reply} p{} #{}", flight.port, flight.place).unwrap();
    }

    /// Judges the rows of one time, in crossing order.
    fn judge_all(&mut self, moment: &[Row]) -> Result<(), String> {
        for row in moment {
            if !self.is_watched(row.side) {
                continue;
            }
            if let Err(why) = self.judge(row) {
                let side = if row.side == Side::Master { 'm' } else { 'p' };
                let channel = if row.is_ask { 'A' } else { 'D' };
                let (line, time, number) = (row.line, row.time, row.number);
                return Err(format!("unlawful: line {line}, time {time}, {side}{number} {channel}: {why}"));
            }
        }
        Ok(())
    }
}

// ---- the program

/// How a capture ends: judged, no capture, or not read.
enum Verdict {
    Lawful,
    Unlawful(String),
    NoCapture(u64, &'static str),
    ReadFailed,
}

/// Puts a row among those of its time, which are judged first if it is of a later one.
fn take_row(judge: &mut Judge, moment: &mut Vec<Row>, last: &mut u64, row: Row) -> Result<(), Verdict> {
    if row.time < *last {
        return Err(Verdict::NoCapture(row.line, "time falls"));
    }
    if row.time > *last {
        judge.judge_all(moment).map_err(Verdict::Unlawful)?;
        moment.clear();
        *last = row.time;
    }
    let behind = moment.iter().rposition(|other| other.place() <= row.place()).map_or(0, |place| place + 1);
    if behind > 0 && moment[behind - 1].place() == row.place() {
        return Err(Verdict::NoCapture(row.line, "two beats at one time"));
    }
    moment.insert(behind, row);
    judge.rows += 1;
    Ok(())
}

fn check<R: Read>(judge: &mut Judge, source: R, out: &mut impl io::Write) -> Verdict {
    let mut records = Records::new(source);
    match records.read_header() {
        Ok(true) => {}
        Err(Stop::ReadFailed) => return Verdict::ReadFailed,
        _ => return Verdict::NoCapture(records.line(), "wrong header"),
    }
    let (masters, ports) = (judge.masters.len(), judge.ports.len());
    let (mut moment, mut last) = (Vec::new(), 0);
    loop {
        let row = match records.read() {
            Ok(()) => records.row(masters, ports),
            Err(Stop::End) => break,
            Err(Stop::TooLong) => Err("row too long"),
            Err(Stop::ReadFailed) => return Verdict::ReadFailed,
        };
        let row = match row {
            Ok(row) => row,
            Err(kind) => return Verdict::NoCapture(records.line(), kind),
        };
        if let Err(verdict) = take_row(judge, &mut moment, &mut last, row) {
            return verdict;
        }
        if judge.text.len() > 1 << 16 {
            out.write_all(judge.text.as_bytes()).unwrap();
            judge.text.clear();
        }
    }
    judge.judge_all(&moment).map_or_else(Verdict::Unlawful, |()| Verdict::Lawful)
}

fn main() -> ExitCode {
    let (mut links, mut at_reply, mut trace, mut files) = (Links::Both, false, false, Vec::new());
    let mut words = env::args().skip(1);
    while let Some(word) = words.next() {
        match word.as_str() {
            "--trace" => trace = true,
            "--order" => at_reply = words.next().as_deref() == Some("reply"),
            "--links" => match words.next().as_deref() {
                Some("masters") => links = Links::Masters,
                Some("ports") => links = Links::Ports,
                _ => links = Links::Both,
            },
            _ => files.push(word),
        }
    }
    let script = std::fs::read_to_string(&files[0]).unwrap();
    let mut judge = Judge::new(plain::read_script(&script), links, at_reply, trace);
    let mut out = io::stdout().lock();
    let verdict = match files.get(1).map(String::as_str) {
        None | Some("-") => check(&mut judge, io::stdin().lock(), &mut out),
        Some(path) => match File::open(path) {
            Ok(file) => check(&mut judge, file, &mut out),
            Err(_) => Verdict::ReadFailed,
        },
    };
    out.write_all(judge.text.as_bytes()).unwrap();
    match verdict {
        Verdict::Lawful => {
            let Judge { rows, requests, answered, .. } = judge;
            writeln!(out, "lawful: {rows} rows, {requests} requests, {answered} answered").unwrap();
            ExitCode::SUCCESS
        }
        Verdict::Unlawful(line) => {
            writeln!(out, "{line}").unwrap();
            ExitCode::from(3)
        }
        Verdict::NoCapture(line, kind) => {
            eprintln!("capture: line {line}: {kind}");
            ExitCode::from(1)
        }
        Verdict::ReadFailed => {
            eprintln!("read failed");
            ExitCode::from(5)
        }
    }
}
