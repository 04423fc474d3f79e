//! Prints how many nanoseconds one round trip over bounded channels between two sleeping threads takes, with as many
//! pairs of threads at once as the first argument says.
use std::sync::mpsc::sync_channel;
use std::thread;
use std::time::Instant;

const TRIPS: u64 = 100_000;

fn trips() {
    let (ask, asked) = sync_channel::<u64>(1);
    let (reply, replied) = sync_channel::<u64>(1);
    let port = thread::spawn(move || {
        while let Ok(n) = asked.recv() {
            if reply.send(n + 1).is_err() {
                return;
            }
        }
    });
    for n in 0..TRIPS {
        ask.send(n).unwrap();
        assert_eq!(replied.recv().unwrap(), n + 1);
    }
    drop(ask);
    port.join().unwrap();
}

fn main() {
    let pairs: usize = std::env::args().nth(1).unwrap().parse().unwrap();
    let start = Instant::now();
    let threads: Vec<_> = (0..pairs).map(|_| thread::spawn(trips)).collect();
    for thread in threads {
        thread.join().unwrap();
    }
    println!("{}", start.elapsed().as_nanos() as f64 / TRIPS as f64);
}
