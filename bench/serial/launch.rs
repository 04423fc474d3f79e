//! Runs two programs on one script by turns, and prints the least time and the peak memory of each.
//!
//! Usage: launch SCRIPT ROUNDS TLX PEER. What they print goes to SCRIPT.0 and SCRIPT.1. A process begins with the peak
//! memory of the one that starts it, so that a launcher has to be small: below some 2 MiB nothing is seen.

use std::env;
use std::fs::File;
use std::io;
use std::process::{Command, exit};
use std::time::Instant;

/// What Linux tells of a child that ended: its two times, and its peak memory in KiB among what is not read here.
#[repr(C)]
struct Usage {
    times: [i64; 4],
    peak: i64,
    others: [i64; 13],
}

unsafe extern "C" {
    fn wait4(pid: i32, status: *mut i32, options: i32, usage: *mut Usage) -> i32;
}

/// Seconds and peak memory of one run. Only the first program gets the option to run on one thread: its peer has no other way.
fn run(script: &str, place: usize, program: &str) -> io::Result<(f64, i64)> {
    let mut command = Command::new(program);
    if place == 0 {
        command.arg("--serial");
    }
    command.stdin(File::open(script)?);
    command.stdout(File::create(format!("{script}.{place}"))?);
    let began = Instant::now();
    let child = command.spawn()?;
    let mut status = 0;
    let mut usage = Usage { times: [0; 4], peak: 0, others: [0; 13] };
    // the child is waited for once, and nothing else of it is used
    let waited = unsafe { wait4(child.id() as i32, &mut status, 0, &mut usage) };
    let took = began.elapsed().as_secs_f64();
    if waited < 0 || status != 0 {
        eprintln!("{program} ended with status {status}");
        exit(1);
    }
    Ok((took, usage.peak))
}

fn main() -> io::Result<()> {
    let words: Vec<String> = env::args().collect();
    let [_, script, rounds, programs @ ..] = words.as_slice() else {
        eprintln!("usage: launch SCRIPT ROUNDS TLX PEER");
        exit(2);
    };
    let mut least = vec![f64::INFINITY; programs.len()];
    let mut peak = vec![0; programs.len()];
    for _ in 0..rounds.parse().unwrap_or(1) {
        for (place, program) in programs.iter().enumerate() {
            let (took, memory) = run(script, place, program)?;
            least[place] = least[place].min(took);
            peak[place] = peak[place].max(memory);
        }
    }
    for (took, memory) in least.iter().zip(&peak) {
        println!("{took} {memory}");
    }
    Ok(())
}
