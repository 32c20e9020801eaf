//! Frames a second on one long day.

use std::{hint::black_box, time::WallInstant};

use crate::{
    added::Replay,
    replay::whole,
    text::{line_bytes, Bytes},
};

/// Digits and newline of a record.
const LOG_LINE: usize = 33;

/// The machine may be busy, so the best of these counts.
const RUNS: usize = 7;

pub(crate) fn measure(day: &[u8]) {
    let lines: Vec<Option<Bytes>> = day
        .split_inclusive(|&b| b == b'\n')
        .map(line_bytes)
        .collect();
    let frames = lines.len().saturating_sub(1);
    let printed = report("with text", frames, || whole(day).len() / LOG_LINE);
    let counted = report("without text", frames, || {
        let mut replay = Replay::new(u64::MAX);
        let mut records = Vec::new();
        let mut count = 0;
        for bytes in &lines {
            replay.bytes(*bytes, &mut records);
            count += black_box(&records).len();
            records.clear();
        }
        count
    });
    println!("records: {printed} printed, {counted} counted");
}

/// Runs several times, prints the best and gives the records of a run.
fn report(name: &str, frames: usize, run: impl Fn() -> usize) -> usize {
    let mut records = 0;
    let mut best = f64::INFINITY;
    let clock = Clock::start();
    for _ in 0..RUNS {
        let start = clock.seconds();
        records = run();
        best = best.min(clock.seconds() - start);
    }
    let speed = frames as f64 / best;
    println!(
        "{name}: {frames} frames in {best:.3} s of {}, {speed:.0} frames a second, best of {RUNS}",
        clock.name()
    );
    records
}

/// Processor time where the system tells it, as other programs may run beside; else wall time.
struct Clock {
    wall: WallInstant,
    processor: bool,
}

impl Clock {
    fn start() -> Self {
        Self {
            wall: WallInstant::now(),
            processor: processor_seconds().is_some(),
        }
    }

    fn name(&self) -> &str {
        if self.processor {
            "processor time"
        } else {
            "wall time"
        }
    }

    fn seconds(&self) -> f64 {
        processor_seconds().unwrap_or_else(|| self.wall.elapsed().as_secs_f64())
    }
}

/// The first number there is the nanoseconds that this thread has run.
fn processor_seconds() -> Option<f64> {
    let told = std::fs::read_to_string("/proc/self/schedstat").ok()?;
    let nanoseconds: f64 = told.split(' ').next()?.parse().ok()?;
    (nanoseconds > 0.0).then_some(nanoseconds / 1e9)
}
