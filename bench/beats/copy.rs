//! Prints how many nanoseconds a plain copy of the same beats takes, in rows of the form that `measure` prints.
//!
//! A copy makes a value of the size that packing answers: a count, and room for the most beats.

use std::hint::black_box;
use std::time::Instant;

const TURNS: u64 = 1_000_000;
/// Room for the most beats; the script writes what the limit on sizes makes of it.
const MAX_BEATS: usize = 32;

#[derive(Clone, Copy, Default)]
#[repr(C)]
struct ABeat {
    opcode: u8,
    param: u8,
    size: u8,
    source: u16,
    address: u64,
    mask: u8,
    lanes: [u8; 8],
}

#[derive(Clone, Copy, Default)]
#[repr(C)]
struct DBeat {
    opcode: u8,
    size: u8,
    source: u16,
    denied: bool,
    corrupt: bool,
    lanes: [u8; 8],
}

struct Beats<B> {
    items: [B; MAX_BEATS],
    len: usize,
}

#[inline(never)]
fn copied<B: Copy + Default>(beats: &[B]) -> Beats<B> {
    let mut items = [B::default(); MAX_BEATS];
    items[..beats.len()].copy_from_slice(beats);
    Beats {
        items,
        len: beats.len(),
    }
}

fn time<B: Copy + Default>(name: &str) {
    for (size, count) in [(2, 1), (6, 8), (8, 32)] {
        let beats = [B::default(); MAX_BEATS];
        let (first, second) = (beats, beats);
        let mut seen = 0usize;
        let start = Instant::now();
        for _ in 0..TURNS {
            let one = copied(&black_box(&first)[..count]);
            seen = seen.wrapping_add(black_box(&one.items).len() + one.len);
            let two = copied(&black_box(&second)[..count]);
            seen = seen.wrapping_add(black_box(&two.items).len() + two.len);
        }
        println!("{name} copy {size} {} {seen}", start.elapsed().as_nanos());
    }
}

fn main() {
    time::<ABeat>("request");
    time::<DBeat>("reply");
}
