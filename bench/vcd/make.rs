//! Writes a dump of at least BYTES bytes: a clock, a reset, the links of two masters and two ports, and other signals up to SIGNALS in
//! all. `make BYTES SIGNALS`; which values change at an edge comes of a generator of random numbers. SYSTEM is in `system.toml`.
//!
//! `make BYTES SIGNALS lawful` writes traffic that is lawful: both masters put and get words at both ports.
use std::env;
use std::io::{self, BufWriter, Write};

/// The signals of a link, with how many bits each has.
const LINK: [(&str, u32); 17] = [
    ("a_valid", 1), ("a_ready", 1), ("a_opcode", 3), ("a_param", 3), ("a_size", 4), ("a_source", 8), ("a_address", 32), ("a_mask", 8),
    ("a_data", 64), ("d_valid", 1), ("d_ready", 1), ("d_opcode", 3), ("d_size", 4), ("d_source", 8), ("d_data", 64), ("d_denied", 1),
    ("d_corrupt", 1),
];
const LINKS: [&str; 4] = ["m0", "m1", "p0", "p1"];

struct Dice(u64);

impl Dice {
    fn roll(&mut self, sides: u64) -> u64 {
        self.0 = self.0.wrapping_mul(6364136223846793005).wrapping_add(1442695040888963407);
        (self.0 >> 33) % sides
    }

    fn bits(&mut self) -> u64 {
        self.roll(1 << 31) << 33 ^ self.roll(1 << 31) << 2 ^ self.roll(4)
    }
}

/// The identifier of a signal by its number.
fn code(mut number: usize) -> String {
    let mut code = String::new();
    loop {
        code.push((b'!' + (number % 94) as u8) as char);
        number /= 94;
        if number == 0 {
            return code;
        }
    }
}

/// A signal's change to random bits of which the upper ones may be zeros, as simulators leave them out.
fn write_change(out: &mut impl Write, dice: &mut Dice, code: &str, width: u32) -> io::Result<u64> {
    if width == 1 {
        writeln!(out, "{}{code}", dice.roll(2))?;
        return Ok(2 + code.len() as u64);
    }
    let short = dice.roll(u64::from(width));
    let value = format!("{:b}", dice.bits() >> (64 - width) >> short);
    writeln!(out, "b{value} {code}")?;
    Ok(3 + value.len() as u64 + code.len() as u64)
}

/// A request: its master, port, source, word of the port, and what is put there, if it is no get.
#[derive(Clone, Copy)]
struct Request {
    master: usize,
    port: usize,
    source: u64,
    word: u64,
    put: Option<u64>,
    answer: u64,
}

/// The signals of both masters and both ports while requests cross them: at the master's link, at the port's, and back, one edge after
/// the other.
struct Traffic {
    words: [[u64; 8]; 2],
    asked: Vec<Request>,
    served: Vec<Request>,
    answered: Vec<Request>,
    turns: [u64; 2],
    shown: Vec<Option<u64>>,
}

impl Traffic {
    fn new() -> Traffic {
        let shown = vec![None; LINKS.len() * LINK.len()];
        Traffic { words: [[0; 8]; 2], asked: vec![], served: vec![], answered: vec![], turns: [0; 2], shown }
    }

    /// Shows a value of a signal, if it is another than before.
    fn show(&mut self, out: &mut impl Write, vars: &[(String, u32)], link: usize, name: &str, value: u64) -> io::Result<u64> {
        let place = LINK.len() * link + LINK.iter().position(|(other, _)| *other == name).unwrap();
        if self.shown[place] == Some(value) {
            return Ok(0);
        }
        self.shown[place] = Some(value);
        let (code, width) = &vars[place];
        if *width == 1 {
            writeln!(out, "{value}{code}")?;
            return Ok(2 + code.len() as u64);
        }
        let text = format!("b{value:b} {code}\n");
        out.write_all(text.as_bytes())?;
        Ok(text.len() as u64)
    }

    /// Shows a request at a link, or none.
    fn show_ask(&mut self, out: &mut impl Write, vars: &[(String, u32)], link: usize, ask: Option<(Request, u64)>) -> io::Result<u64> {
        let mut written = self.show(out, vars, link, "a_valid", u64::from(ask.is_some()))?;
        if let Some((request, source)) = ask {
            let address = 0x1000 * (request.port as u64 + 1) + 8 * request.word;
            let (opcode, data) = request.put.map_or((4, None), |word| (0, Some(word)));
            for (name, value) in [("a_opcode", opcode), ("a_source", source), ("a_address", address)] {
                written += self.show(out, vars, link, name, value)?;
            }
            if let Some(word) = data {
                written += self.show(out, vars, link, "a_data", word)?;
            }
        }
        Ok(written)
    }

    /// Shows a reply at a link, or none.
    fn show_reply(&mut self, out: &mut impl Write, vars: &[(String, u32)], link: usize, reply: Option<(Request, u64)>) -> io::Result<u64> {
        let mut written = self.show(out, vars, link, "d_valid", u64::from(reply.is_some()))?;
        if let Some((request, source)) = reply {
            let opcode = u64::from(request.put.is_none());
            for (name, value) in [("d_opcode", opcode), ("d_source", source), ("d_data", request.answer)] {
                written += self.show(out, vars, link, name, value)?;
            }
        }
        Ok(written)
    }

    /// The values that never change.
    fn begin(&mut self, out: &mut impl Write, vars: &[(String, u32)]) -> io::Result<()> {
        for link in 0..LINKS.len() {
            for (name, _) in LINK {
                let value = match name {
                    "a_ready" | "d_ready" => 1,
                    "a_size" | "d_size" => 3,
                    "a_mask" => 0xff,
                    _ => 0,
                };
                self.show(out, vars, link, name, value)?;
            }
        }
        Ok(())
    }

    /// What each link shows after the next edge: in half of all edges a master asks for something, and each at another port.
    fn step(&mut self, out: &mut impl Write, vars: &[(String, u32)], dice: &mut Dice) -> io::Result<u64> {
        let of = |list: &[Request], master: bool, number: usize| {
            list.iter().find(|one| number == if master { one.master } else { one.port }).copied()
        };
        let turned = dice.roll(2) as usize;
        let mut asks = vec![];
        for master in 0..2 {
            if dice.roll(4) > 0 {
                continue;
            }
            let (port, word) = (master ^ turned, dice.roll(8));
            let put = if dice.roll(2) == 0 { Some(dice.bits()) } else { None };
            let source = self.turns[master] % 16;
            self.turns[master] += 1;
            asks.push(Request { master, port, source, word, put, answer: 0 });
        }
        let answered = std::mem::take(&mut self.answered);
        let mut served = std::mem::take(&mut self.served);
        let asked = std::mem::replace(&mut self.asked, asks);
        for request in &mut served {
            let word = &mut self.words[request.port][request.word as usize];
            match request.put {
                Some(put) => *word = put,
                None => request.answer = *word,
            }
        }
        let mut written = 0;
        for master in 0..2 {
            let ask = of(&self.asked.clone(), true, master).map(|request| (request, request.source));
            written += self.show_ask(out, vars, master, ask)?;
            let reply = of(&answered, true, master).map(|request| (request, request.source));
            written += self.show_reply(out, vars, master, reply)?;
        }
        for port in 0..2 {
            let ask = of(&asked, false, port).map(|request| (request, request.source + 16 * request.master as u64));
            written += self.show_ask(out, vars, 2 + port, ask)?;
            let reply = of(&served, false, port).map(|request| (request, request.source + 16 * request.master as u64));
            written += self.show_reply(out, vars, 2 + port, reply)?;
        }
        self.answered = served;
        self.served = asked;
        Ok(written)
    }
}

fn main() -> io::Result<()> {
    let is_lawful = env::args().nth(3).is_some_and(|word| word == "lawful");
    let words: Vec<u64> = env::args().skip(1).take(2).map(|word| word.parse().unwrap()).collect();
    let (bytes, signals) = (words[0], words[1] as usize);
    let mut traffic = Traffic::new();
    let mut out = BufWriter::with_capacity(1 << 20, io::stdout().lock());
    let mut dice = Dice(1);
    let mut vars: Vec<(String, u32)> = Vec::new();
    write!(out, "$timescale 1ns $end\n$scope module tb $end\n$var wire 1 {} clk $end\n$var wire 1 {} reset $end\n", code(0), code(1))?;
    for link in LINKS {
        writeln!(out, "$scope module {link} $end")?;
        for (name, width) in LINK {
            vars.push((code(vars.len() + 2), width));
            let range = if width > 1 { format!(" [{}:0]", width - 1) } else { String::new() };
            writeln!(out, "$var wire {width} {} {name}{range} $end", vars[vars.len() - 1].0)?;
        }
        writeln!(out, "$upscope $end")?;
    }
    while vars.len() + 2 < signals {
        let width = 1 + (vars.len() as u32 * 7) % 32;
        vars.push((code(vars.len() + 2), width));
        let range = if width > 1 { format!(" [{}:0]", width - 1) } else { String::new() };
        writeln!(out, "$var reg {width} {} n{}{range} $end", vars[vars.len() - 1].0, vars.len())?;
    }
    write!(out, "$upscope $end\n$enddefinitions $end\n#0\n$dumpvars\n0{}\n0{}\n", code(0), code(1))?;
    let links = LINKS.len() * LINK.len();
    if is_lawful {
        traffic.begin(&mut out, &vars)?;
    }
    let free = if is_lawful { links } else { 0 };
    for (code, width) in &vars[free..] {
        write_change(&mut out, &mut dice, code, *width)?;
    }
    writeln!(out, "$end")?;
    let (mut written, mut time) = (0, 0);
    while written < bytes {
        time += 5;
        write!(out, "#{time}\n1!\n")?;
        if is_lawful {
            written += traffic.step(&mut out, &vars, &mut dice)?;
        }
        // an eighth of the signals, or of those that are no link's, change at an edge
        let others = &vars[free..];
        for _ in 0..others.len() / 8 {
            let (code, width) = &others[dice.roll(others.len() as u64) as usize];
            written += write_change(&mut out, &mut dice, code, *width)?;
        }
        time += 5;
        write!(out, "#{time}\n0!\n")?;
        written += 20;
    }
    out.flush()
}
