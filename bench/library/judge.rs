
// ---- the judge alone, timed; this is appended to bench/check/peer.rs, whose own main is another function then

/// A beat as `struct tlx_beat` of include/tlx.h has it.
#[repr(C)]
struct Beat {
    line: u64,
    time: u64,
    number: u64,
    address: u64,
    mask: u64,
    known: u64,
    source: u16,
    side: u8,
    channel: u8,
    opcode: u8,
    param: u8,
    size: u8,
    denied: u8,
    corrupt: u8,
    lanes: [u8; 64],
}

fn beat_of(row: &Row) -> Beat {
    let Fields { opcode, param, size, source, address, mask, denied, corrupt } = row.fields;
    let mut lanes = [0; 64];
    lanes[..LANES].copy_from_slice(&row.lanes);
    Beat {
        line: row.line,
        time: row.time,
        number: row.number as u64,
        address,
        mask: u64::from(mask),
        known: u64::from(row.known),
        source,
        side: u8::from(row.side == Side::Port),
        channel: u8::from(!row.is_ask),
        opcode,
        param,
        size,
        denied: u8::from(denied),
        corrupt: u8::from(corrupt),
        lanes,
    }
}

/// Reads the rows of a capture, which has one beat at a time, and writes them as beats of C one after another; then prints how many
/// nanoseconds a beat takes to judge, in each of a number of rounds.
fn main() {
    let files: Vec<String> = env::args().skip(1).collect();
    let script = std::fs::read_to_string(&files[0]).unwrap();
    let judge = || Judge::new(plain::read_script(&script), Links::Both, false, false);
    let (masters, ports) = (judge().masters.len(), judge().ports.len());
    let mut records = Records::new(File::open(&files[1]).unwrap());
    records.read_header().ok().unwrap();
    let mut rows = Vec::new();
    while let Ok(()) = records.read() {
        rows.push(records.row(masters, ports).unwrap());
    }
    let mut beats = File::create(&files[2]).unwrap();
    for row in &rows {
        let beat = beat_of(row);
        // SAFETY: a beat is plain data, and what pads it is written as it lies there
        beats.write_all(unsafe { std::slice::from_raw_parts((&raw const beat).cast::<u8>(), size_of::<Beat>()) }).unwrap();
    }
    for _ in 0..files[3].parse().unwrap() {
        let mut judge = judge();
        let start = std::time::Instant::now();
        for row in &rows {
            assert!(judge.judge(row).is_ok());
        }
        let took = start.elapsed().as_nanos() as f64 / rows.len() as f64;
        println!("judge plain - {took:.1} {}", judge.answered);
    }
}
