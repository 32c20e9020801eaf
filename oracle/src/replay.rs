//! A day's text to its log's text.

use std::io::{ErrorKind, Read, Write};

use crate::{
    added::Replay,
    stop,
    text::{push_line, Lines, Record},
};

const CHUNK: usize = 1 << 16;

/// Runs a day that comes in pieces; gives the frames used.
pub(crate) fn stream(mut day: impl Read, mut log: impl Write, budget: u64) -> u64 {
    let mut run = Run::new(budget);
    let mut chunk = vec![0; CHUNK];
    let mut put = |text: &mut Vec<u8>| {
        if let Err(e) = log.write_all(text).and_then(|()| log.flush()) {
            stop(format!("cannot write standard output: {e}"));
        }
        text.clear();
    };
    while !run.replay.has_ended() {
        match day.read(&mut chunk) {
            Ok(0) => break,
            Ok(n) => run.feed(&chunk[..n]),
            Err(e) if e.kind() == ErrorKind::Interrupted => {}
            Err(e) => stop(format!("cannot read standard input: {e}")),
        }
        put(&mut run.log);
    }
    let (mut rest, used) = run.finish();
    put(&mut rest);
    used
}

/// The log of a whole day.
pub(crate) fn whole(day: &[u8]) -> Vec<u8> {
    let mut run = Run::new(u64::MAX);
    run.feed(day);
    run.finish().0
}

struct Run {
    replay: Replay,
    lines: Lines,
    records: Vec<Record>,
    log: Vec<u8>,
}

impl Run {
    fn new(budget: u64) -> Self {
        Self {
            replay: Replay::new(budget),
            lines: Lines::default(),
            records: Vec::new(),
            log: Vec::new(),
        }
    }

    fn feed(&mut self, chunk: &[u8]) {
        let Self {
            replay,
            lines,
            records,
            log,
        } = self;
        lines.feed(chunk, |line| {
            replay.line(line, records);
            push_records(records, log);
        });
    }

    /// The last of the log, and the frames used.
    fn finish(self) -> (Vec<u8>, u64) {
        let Self {
            mut replay,
            lines,
            mut records,
            mut log,
        } = self;
        lines.finish(|line| replay.line(line, &mut records));
        replay.finish(&mut records);
        push_records(&mut records, &mut log);
        (log, replay.used)
    }
}

pub(crate) fn push_records(records: &mut Vec<Record>, log: &mut Vec<u8>) {
    for record in records.drain(..) {
        push_line(&record.write(), log);
    }
}
