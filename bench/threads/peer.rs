//! The yardstick of runs by threads: a plain Rust program, std alone and nothing proved, of the design of `tlx`. Each
//! master and each port is a thread; requests go through a table of slots with one atomic word each; a port's memory
//! and journal are under one lock; bells are bounded channels, and who waits for one looks and yields some times
//! before it sleeps. It reads a script from standard input and writes the traces and the account. It keeps journals,
//! and does not audit them. Its arguments: none.
use std::cell::UnsafeCell;
use std::fmt::Write as _;
use std::io::{self, Read, Write as _};
use std::sync::Mutex;
use std::sync::atomic::AtomicU64;
use std::sync::atomic::Ordering::{Acquire, Relaxed, Release};
use std::sync::mpsc::{Receiver, SyncSender, TryRecvError, sync_channel};
use std::thread;

#[path = "../given.rs"]
mod given;
#[path = "../serial/peer.rs"]
#[allow(dead_code)]
mod plain;

use given::{Given, MAX_BYTES};
use plain::{Bank, Kind, Op, Script};

/// How often a thread looks at its bell before it sleeps.
const LOOKS: u32 = 32;

/// The most rings that a port owes masters before it gives them.
const MAX_OWED: usize = 16;

/// A request, with the bytes that are given.
#[derive(Clone, Copy)]
struct Ask {
    op: Op,
    name: &'static str,
    size: u32,
    source: u16,
    address: u64,
    length: usize,
    bytes: [u8; MAX_BYTES],
    given: Given,
}

#[derive(Clone, Copy)]
struct Reply {
    denied: bool,
    length: usize,
    bytes: [u8; MAX_BYTES],
}

struct Entry {
    ask: Ask,
    reply: Reply,
    port: usize,
    index: usize,
}

enum Job {
    Wait,
    Send(Ask),
}

/// What a bell says.
#[derive(Clone, Copy, PartialEq)]
enum Ring {
    Look,
    Stop,
}

// ---- the slots

const FREE: u64 = 0;
const FILLING: u64 = 1;
const POSTED: u64 = 2;
const SERVING: u64 = 3;
const ANSWERED: u64 = 4;
const TAKING: u64 = 5;

fn word(phase: u64, master: usize, port: usize) -> u64 {
    phase | (master as u64) << 3 | (port as u64) << 11
}

/// What a slot holds: a request, and the place and the bytes of its reply.
struct Record {
    ask: Ask,
    index: usize,
    reply: Reply,
}

/// A record belongs to whoever brought its word to the phase that it is in.
struct Slot {
    word: AtomicU64,
    record: UnsafeCell<Record>,
}

unsafe impl Sync for Slot {}

impl Slot {
    fn new() -> Slot {
        let reply = Reply { denied: false, length: 0, bytes: [0; MAX_BYTES] };
        Slot { word: AtomicU64::new(FREE), record: UnsafeCell::new(Record { ask: NO_ASK, index: 0, reply }) }
    }

    fn moves(&self, from: u64, to: u64) -> bool {
        self.word.load(Relaxed) == from && self.word.compare_exchange(from, to, Acquire, Relaxed).is_ok()
    }
}

const NO_ASK: Ask =
    Ask { op: Op::Get, name: "get", size: 0, source: 0, address: 0, length: 0, bytes: [0; MAX_BYTES], given: Given::NONE };

// ---- the bells

struct Listener {
    bell: Receiver<Ring>,
    heard: usize,
}

impl Listener {
    fn look(&self) -> Option<Ring> {
        match self.bell.try_recv() {
            Ok(ring) => Some(ring),
            Err(TryRecvError::Empty) => None,
            Err(TryRecvError::Disconnected) => Some(Ring::Stop),
        }
    }

    fn hear(&mut self) -> Ring {
        self.heard += 1;
        for _ in 0..LOOKS {
            if let Some(ring) = self.look() {
                return ring;
            }
            thread::yield_now();
        }
        self.bell.recv().unwrap_or(Ring::Stop)
    }
}

// ---- a port

/// A port's memory, and all that it has served.
struct Book {
    bank: Bank,
    journal: Vec<(Ask, Reply)>,
}

fn serve(bank: &mut Bank, ask: &Ask) -> Reply {
    let width = 1usize << ask.size;
    let length = if plain::shows_bytes(ask.op) { width } else { 0 };
    let mut bytes = [0; MAX_BYTES];
    let Some(start) = plain::window_of(bank, ask.op, ask.size, ask.address) else {
        return Reply { denied: true, length, bytes };
    };
    let window = &mut bank.bytes[start..start + width];
    bytes[..length].copy_from_slice(&window[..length]);
    plain::change(bank.kind, ask.op, window, &ask.bytes[..ask.length], |k| ask.given.has(k));
    Reply { denied: false, length, bytes }
}

/// Serves one request that is posted to the port, and answers whose it was.
fn step(book: &Mutex<Book>, slots: &[Slot], port: usize) -> Option<usize> {
    let mut book = book.lock().unwrap();
    let Book { bank, journal } = &mut *book;
    for slot in slots {
        let posted = slot.word.load(Relaxed);
        if posted & 7 != POSTED || (posted >> 11) as usize != port {
            continue;
        }
        let owner = (posted >> 3 & 0xff) as usize;
        if !slot.moves(posted, word(SERVING, owner, port)) {
            continue;
        }
        let record = unsafe { &mut *slot.record.get() };
        record.reply = serve(bank, &record.ask);
        record.index = journal.len();
        journal.push((record.ask, record.reply));
        slot.word.store(word(ANSWERED, owner, port), Release);
        return Some(owner);
    }
    None
}

/// Serves a request at each ring. It gives the rings that it owes once it has nothing else to do, or owes many.
fn run_port(book: &Mutex<Book>, slots: &[Slot], port: usize, mut bell: Listener, masters: Vec<SyncSender<Ring>>) {
    let mut owed: Vec<usize> = Vec::with_capacity(MAX_OWED);
    loop {
        let at_once = if owed.len() < MAX_OWED { bell.look() } else { None };
        let ring = at_once.unwrap_or_else(|| {
            for master in owed.drain(..) {
                let _ = masters[master].send(Ring::Look);
            }
            bell.hear()
        });
        if ring == Ring::Stop {
            return;
        }
        owed.extend(step(book, slots, port));
    }
}

// ---- a master

struct Master<'a> {
    number: usize,
    /// Its first wide source.
    start: u16,
    /// Where it begins to look for a free slot.
    first: usize,
    slots: &'a [Slot],
    banks: &'a [Bank],
    /// For each source the slot and the port of the request that is out.
    out: Vec<Option<(usize, usize)>>,
    /// The sources that a request is out for, a bit each.
    busy: [u64; 4],
    count: usize,
    trace: Vec<Entry>,
}

impl Master<'_> {
    fn claim(&self) -> Option<usize> {
        let filling = word(FILLING, self.number, 0);
        (self.first..self.slots.len()).chain(0..self.first).find(|&slot| self.slots[slot].moves(FREE, filling))
    }

    /// Posts a request, and answers its port.
    fn issue(&mut self, ask: &Ask) -> Option<usize> {
        let source = ask.source as usize;
        if self.out[source].is_some() {
            return None;
        }
        let slot = self.claim()?;
        let port = plain::port_of(self.banks, ask.size, ask.address);
        let record = unsafe { &mut *self.slots[slot].record.get() };
        record.ask = *ask;
        record.ask.source += self.start;
        self.slots[slot].word.store(word(POSTED, self.number, port), Release);
        self.out[source] = Some((slot, port));
        self.busy[source / 64] |= 1 << (source % 64);
        self.count += 1;
        Some(port)
    }

    /// Collects the reply to what is out for a source, if it is there.
    fn poll(&mut self, source: usize) {
        let Some((slot, port)) = self.out[source] else {
            return;
        };
        if !self.slots[slot].moves(word(ANSWERED, self.number, port), word(TAKING, self.number, port)) {
            return;
        }
        let record = unsafe { &*self.slots[slot].record.get() };
        let mut ask = record.ask;
        ask.source = source as u16;
        self.trace.push(Entry { ask, reply: record.reply, port, index: record.index });
        self.slots[slot].word.store(FREE, Release);
        self.out[source] = None;
        self.busy[source / 64] &= !(1 << (source % 64));
        self.count -= 1;
    }

    /// Looks once at each source that a request is out for, the lowest first.
    fn look_at_all(&mut self) {
        for word in 0..self.busy.len() {
            let mut left = self.busy[word];
            while left != 0 {
                self.poll(64 * word + left.trailing_zeros() as usize);
                left &= left - 1;
            }
        }
    }

    /// Waits for the ring of a reply that is not collected yet: each reply has one.
    fn wait(&self, bell: &mut Listener) {
        while bell.heard <= self.trace.len() {
            bell.hear();
        }
    }

    fn collect_all(&mut self, bell: &mut Listener) {
        self.look_at_all();
        while self.count > 0 {
            self.wait(bell);
            self.look_at_all();
        }
    }

    fn run(mut self, jobs: &[Job], mut bell: Listener, ports: Vec<SyncSender<Ring>>) -> Vec<Entry> {
        for job in jobs {
            let Job::Send(ask) = job else {
                self.collect_all(&mut bell);
                continue;
            };
            let port = loop {
                if let Some(port) = self.issue(ask) {
                    break port;
                }
                if self.count > 0 {
                    self.wait(&mut bell);
                } else {
                    thread::yield_now();
                }
                self.look_at_all();
            };
            let _ = ports[port].send(Ring::Look);
        }
        self.collect_all(&mut bell);
        self.trace
    }
}

// ---- the run

fn job_of(line: &str, sources: u16) -> Job {
    if line == "wait" {
        return Job::Wait;
    }
    let plain::Ask { op, name, size, source, address, bytes: written } = plain::ask_of(line, sources).unwrap();
    let mut ask = Ask { op, name, size, source, address, length: written.len(), ..NO_ASK };
    for (k, byte) in written.into_iter().enumerate() {
        if let Some(byte) = byte {
            ask.bytes[k] = byte;
            ask.given.add(k);
        }
    }
    Job::Send(ask)
}

fn bells(rooms: impl Iterator<Item = usize>) -> (Vec<SyncSender<Ring>>, Vec<Listener>) {
    rooms
        .map(|room| {
            let (ringer, bell) = sync_channel(room.max(1));
            (ringer, Listener { bell, heard: 0 })
        })
        .unzip()
}

fn push_traces(text: &mut String, traces: &[Vec<Entry>]) {
    for (master, trace) in traces.iter().enumerate() {
        for Entry { ask, reply, port, index } in trace {
            write!(text, "m{master} s{} {} 0x{:x} {}", ask.source, ask.name, ask.address, ask.size).unwrap();
            let given = |k: usize| ask.given.has(k).then_some(ask.bytes[k]);
            plain::push_data(text, (0..ask.length).map(given));
            text.push_str(plain::reply_name(ask.op));
            if reply.denied {
                text.push_str(" denied");
            }
            plain::push_data(text, reply.bytes[..reply.length].iter().copied().map(Some));
            writeln!(text, " p{port} #{index}").unwrap();
        }
    }
}

fn main() {
    let mut script = String::new();
    io::stdin().read_to_string(&mut script).unwrap();
    let Script { slots, banks, masters } = plain::read_script(&script);
    let jobs: Vec<Vec<Job>> =
        masters.iter().map(|(sources, lines)| lines.iter().map(|line| job_of(line, *sources)).collect()).collect();
    let slots: Vec<Slot> = (0..slots).map(|_| Slot::new()).collect();
    let mut posts = vec![0; banks.len() + 1];
    for job in jobs.iter().flatten() {
        if let Job::Send(ask) = job {
            posts[plain::port_of(&banks, ask.size, ask.address)] += 1;
        }
    }
    let books: Vec<Mutex<Book>> = banks
        .iter()
        .map(|bank| Bank { kind: bank.kind, base: bank.base, bytes: bank.bytes.clone() })
        .chain([Bank { kind: Kind::NoDevice, base: 0, bytes: Vec::new() }])
        .zip(&posts)
        .map(|(bank, &room)| Mutex::new(Book { bank, journal: Vec::with_capacity(room) }))
        .collect();
    let (port_ringers, port_bells) = bells(posts.iter().map(|posts| posts + 1));
    let (master_ringers, master_bells) = bells(jobs.iter().map(Vec::len));
    let traces: Vec<Vec<Entry>> = thread::scope(|scope| {
        for (port, bell) in port_bells.into_iter().enumerate() {
            let (book, slots, masters) = (&books[port], &slots[..], master_ringers.clone());
            scope.spawn(move || run_port(book, slots, port, bell, masters));
        }
        let mut start = 0;
        let mut running = Vec::new();
        for (number, bell) in master_bells.into_iter().enumerate() {
            let sources = masters[number].0;
            let block = sources.next_power_of_two();
            start = (start as u16).next_multiple_of(block);
            let master = Master {
                number,
                start,
                first: number * slots.len() / masters.len(),
                slots: &slots,
                banks: &banks,
                out: vec![None; sources as usize],
                busy: [0; 4],
                count: 0,
                trace: Vec::with_capacity(jobs[number].len()),
            };
            start += block;
            let (jobs, ports) = (&jobs[number], port_ringers.clone());
            running.push(scope.spawn(move || master.run(jobs, bell, ports)));
        }
        let traces = running.into_iter().map(|master| master.join().unwrap()).collect();
        for bell in &port_ringers {
            let _ = bell.send(Ring::Stop);
        }
        traces
    });
    let served: usize = books.iter().map(|book| book.lock().unwrap().journal.len()).sum();
    assert_eq!(served, posts.iter().sum());
    let mut text = String::new();
    push_traces(&mut text, &traces);
    let free = slots.iter().filter(|slot| slot.word.load(Relaxed) == FREE).count();
    writeln!(text, "free {free} held {}", slots.len() - free).unwrap();
    io::stdout().write_all(text.as_bytes()).unwrap();
}
