//! Prints how many nanoseconds a plain memory over words takes to serve the same requests, in rows of the form that
//! `measure` prints.

use std::hint::black_box;
use std::time::Instant;

const TURNS: u64 = 2_000_000;
/// The most bytes of a message.
const MAX_BYTES: usize = 256;
/// The size of such a message.
const MAX_SIZE: u8 = 8;

#[derive(Clone, Copy)]
enum Arith {
    Min,
    Add,
}

#[derive(Clone, Copy)]
enum Op {
    PutFull,
    PutPartial,
    Arithmetic(Arith),
    Xor,
    Get,
    Intent,
}

struct List<T> {
    items: [T; MAX_BYTES],
    len: usize,
}

struct Ask {
    op: Op,
    size: u8,
    source: u16,
    address: u64,
    bytes: List<Option<u8>>,
}

struct Reply {
    data: bool,
    size: u8,
    source: u16,
    denied: bool,
    bytes: List<u8>,
}

struct Bank {
    base: u64,
    len: u64,
    words: Vec<u64>,
}

fn no_bytes() -> List<u8> {
    List { items: [0; MAX_BYTES], len: 0 }
}

/// The bytes that are given, and a mask of them.
fn gathered(given: &[Option<u8>]) -> (u64, u64) {
    let (mut bytes, mut mask) = (0u64, 0u64);
    for (k, byte) in given.iter().enumerate() {
        if let Some(byte) = byte {
            bytes |= u64::from(*byte) << (8 * k);
            mask |= 0xff << (8 * k);
        }
    }
    (bytes, mask)
}

impl Bank {
    fn is_legal(&self, ask: &Ask) -> bool {
        let width = 1u64 << ask.size;
        let supported = match ask.op {
            Op::Arithmetic(_) | Op::Xor => ask.size == 2 || ask.size == 3,
            _ => ask.size <= MAX_SIZE,
        };
        supported
            && ask.address % width == 0
            && self.base <= ask.address
            && width <= self.len
            && ask.address - self.base <= self.len - width
    }

    fn serve(&mut self, ask: &Ask) -> Reply {
        let data = matches!(ask.op, Op::Get | Op::Arithmetic(_) | Op::Xor);
        let mut reply = Reply {
            data,
            size: ask.size,
            source: ask.source,
            denied: true,
            bytes: no_bytes(),
        };
        let width = 1usize << ask.size;
        if !self.is_legal(ask) {
            reply.bytes.len = if data { width } else { 0 };
            return reply;
        }
        reply.denied = false;
        let start = (ask.address - self.base / 8 * 8) as usize;
        let (first, shift) = (start / 8, 8 * (start % 8));
        let given = &ask.bytes.items[..ask.bytes.len];
        if width < 8 {
            let all = (1u64 << (8 * width)) - 1;
            let word = &mut self.words[first];
            let old = *word >> shift & all;
            if data {
                reply.bytes.items[..8].copy_from_slice(&old.to_le_bytes());
                reply.bytes.len = width;
            }
            let new = new_cell(ask.op, old, given, width);
            *word = *word & !(all << shift) | new << shift;
            return reply;
        }
        for k in 0..width / 8 {
            let word = &mut self.words[first + k];
            if data {
                reply.bytes.items[8 * k..8 * k + 8].copy_from_slice(&word.to_le_bytes());
                reply.bytes.len += 8;
            }
            if !matches!(ask.op, Op::Get | Op::Intent) {
                *word = new_cell(ask.op, *word, &given[8 * k..8 * k + 8], 8);
            }
        }
        reply
    }
}

fn signed(cell: u64, width: usize) -> i64 {
    let up = 64 - 8 * width;
    ((cell << up) as i64) >> up
}

fn new_cell(op: Op, old: u64, given: &[Option<u8>], width: usize) -> u64 {
    match op {
        Op::Get | Op::Intent => old,
        Op::PutFull | Op::PutPartial => {
            let (bytes, mask) = gathered(given);
            old & !mask | bytes
        }
        Op::Xor => old ^ gathered(given).0,
        Op::Arithmetic(Arith::Add) => old.wrapping_add(gathered(given).0) & (u64::MAX >> (64 - 8 * width)),
        Op::Arithmetic(Arith::Min) => {
            let operand = gathered(given).0;
            if signed(operand, width) < signed(old, width) { operand } else { old }
        }
    }
}

#[inline(never)]
fn served(bank: &mut Bank, ask: &Ask) -> Reply {
    bank.serve(ask)
}

fn time(bank: &mut Bank, name: &str, op: Op, size: u8, holes: bool) {
    let ask = |source, address| {
        let mut items = [Some(7); MAX_BYTES];
        for k in (1..MAX_BYTES).step_by(2).filter(|_| holes) {
            items[k] = None;
        }
        let len = if matches!(op, Op::Get | Op::Intent) { 0 } else { 1 << size };
        Ask { op, size, source, address, bytes: List { items, len } }
    };
    let (one, two) = (ask(1, 0x1000), ask(2, 0x1100));
    let mut seen = 0usize;
    let start = Instant::now();
    for _ in 0..TURNS {
        for ask in [&one, &two] {
            let reply = served(bank, black_box(ask));
            black_box((&reply.bytes.items, reply.data, reply.size, reply.source, reply.denied));
            seen = seen.wrapping_add(reply.bytes.len);
        }
    }
    println!("{name} plain {size} {} {seen}", start.elapsed().as_nanos());
}

fn main() {
    let mut bank = Bank { base: 0x1000, len: 1024, words: vec![0x0909_0909_0909_0909; 128] };
    for size in [0, 2, 3, 6, 7, 8] {
        time(&mut bank, "get", Op::Get, size, false);
        time(&mut bank, "put", Op::PutFull, size, false);
        time(&mut bank, "holes", Op::PutPartial, size, true);
    }
    for size in [2, 3] {
        time(&mut bank, "add", Op::Arithmetic(Arith::Add), size, false);
        time(&mut bank, "min", Op::Arithmetic(Arith::Min), size, false);
        time(&mut bank, "xor", Op::Xor, size, false);
    }
    let _ = Op::Intent;
}
