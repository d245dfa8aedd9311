//! One sheet timed on both sides, its answers compared.

use crate::figures::median;
use compare::Expected;
use oracle::judge::Prepared;
use std::hint::black_box;
use std::time::{Duration, Instant};
use tirvouez::{SCRATCH, room};

/// Records of one page.
pub const PAGE: usize = 4096;
/// Room for so many records: few, a page, all (no report has more).
const ROOMS: [usize; 3] = [512, PAGE, 32_768];
/// The Rust is not called more often than `FEW` times on a sheet once it has had this long.
const LONG: Duration = Duration::from_secs(1);
const FEW: usize = 3;

/// In µs.
#[derive(Clone, Copy)]
pub struct Times {
    pub best: f64,
    pub median: f64,
}

impl Times {
    fn of(times: &[Duration]) -> Self {
        let mut us: Vec<f64> = times.iter().map(|time| time.as_nanos() as f64 / 1000.0).collect();
        us.sort_by(f64::total_cmp);
        Self { best: us[0], median: median(&us) }
    }
}

/// What is known of a sheet.
pub struct Sample {
    pub label: String,
    pub bytes: usize,
    pub records: usize,
    /// None for the sheets that the Rust does not judge.
    pub rust: Option<Times>,
    /// With room for 512 records, for 4,096, for all.
    pub port: [Times; 3],
}

impl Sample {
    /// The port's best time, with room for a page, by the Rust's.
    pub fn ratio(&self) -> Option<f64> {
        self.rust.map(|rust| self.port[1].best / rust.best)
    }
}

/// The buffers of all calls.
pub struct Bench {
    runs: usize,
    scratch: Vec<u8>,
    out: Vec<u8>,
}

impl Bench {
    pub fn new(runs: usize) -> Self {
        Self { runs, scratch: vec![0; SCRATCH], out: vec![0; room(ROOMS[2])] }
    }

    /// One call. Scratch and buffer are full of old bytes before, which is not timed; the call clears the scratch, which is.
    fn call(&mut self, sheet: &[u8], records: usize) -> (Duration, &[u8]) {
        let out = &mut self.out[..room(records)];
        out.fill(0x5A);
        self.scratch.fill(0xA5);
        let start = Instant::now();
        let bytes = black_box(tirvouez::check(black_box(sheet), black_box(&mut self.scratch), 0, black_box(out)));
        (start.elapsed(), &self.out[..bytes])
    }

    /// Times a sheet on both sides: in each run the Rust, then the port with room for a page, then the port with room for few records and
    /// for all, these two in changing order.
    pub fn sheet(&mut self, label: String, sheet: &[u8]) -> Result<Sample, String> {
        let wanted = Wanted::of(sheet, self);
        let rust = Prepared::of(sheet);
        let mut judged = Vec::new();
        let mut port = [const { Vec::new() }; 3];
        for run in 0..self.runs {
            if let Some(rust) = rust.as_ref().filter(|_| judged.len() < FEW || judged.iter().sum::<Duration>() < LONG) {
                let (time, records) = rust.time();
                wanted.same_total(records).map_err(|fault| format!("{label}: {fault}"))?;
                judged.push(time);
            }
            for which in if run % 2 == 0 { [1, 0, 2] } else { [1, 2, 0] } {
                let (time, written) = self.call(sheet, ROOMS[which]);
                wanted.same(which, written).map_err(|fault| format!("{label}: {fault}"))?;
                port[which].push(time);
                if self.scratch.iter().any(|&byte| byte != 0) {
                    return Err(format!("{label}: the scratch is not cleared"));
                }
            }
        }
        let rust = rust.map(|_| Times::of(&judged));
        Ok(Sample { label, bytes: sheet.len(), records: wanted.records, rust, port: port.map(|times| Times::of(&times)) })
    }
}

/// What the calls have to write.
struct Wanted {
    records: usize,
    written: [Vec<u8>; 3],
}

impl Wanted {
    /// By the Rust; by a first call for the sheets that it does not judge.
    fn of(sheet: &[u8], bench: &mut Bench) -> Self {
        if let Some(expected) = Expected::of(sheet) {
            return Self { records: expected.records.len(), written: ROOMS.map(|records| expected.written(0, room(records))) };
        }
        let written = ROOMS.map(|records| bench.call(sheet, records).1.to_vec());
        let total = &written[0][8..12];
        Self { records: u32::from_le_bytes([total[0], total[1], total[2], total[3]]) as usize, written }
    }

    fn same(&self, which: usize, written: &[u8]) -> Result<(), String> {
        let wanted = &self.written[which];
        if wanted[0] != 0 {
            return Err("a sheet that is refused".to_string());
        }
        if wanted.len() != written.len() {
            return Err(format!("DIFFERS: {} bytes written, not {}", written.len(), wanted.len()));
        }
        match (0..wanted.len()).find(|&at| wanted[at] != written[at]) {
            Some(at) => Err(format!("DIFFERS: byte {at} is {}, not {}", written[at], wanted[at])),
            None => Ok(()),
        }
    }

    fn same_total(&self, records: usize) -> Result<(), String> {
        if records == self.records { Ok(()) } else { Err(format!("DIFFERS: the Rust has {records} records, then {}", self.records)) }
    }
}
