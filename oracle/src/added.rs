//! Everything that the description adds to the Rust: refusals, the end of waiters at close, a
//! background success after close, the interrupt's count, the field for an idle one's age, serials,
//! line numbers and the budget. README.md lists it.

use std::time::Duration;

use crate::{
    harness::{Harness, Held, Seat, Waiting},
    text::{kind, line_bytes, record, Bytes, Frame, Options, Record, CLOSED_BY_POOL},
};

pub(crate) const MALFORMED: u8 = 2;
const BEFORE_THE_CLOCK: u8 = 3;
const POOL_CLOSED: u8 = 4;
const NUMBERS_USED_UP: u8 = 5;
const REQUEST_NOT_NEW: u8 = 6;
const QUEUE_FULL: u8 = 7;
const WRONG_STATE: u8 = 8;
const SECOND_TIME: u8 = 9;
const OPTIONS: u8 = 10;
const NOT_WAITING: u8 = 11;
const ALREADY_PINNED: u8 = 12;

pub(crate) const QUEUE: usize = 256;
const LARGEST: u32 = 64;
const DEFAULT_MAXIMUM: u32 = 10;
const DEFAULT_MAX_CONNECTING: u32 = 2;
const LAST_NEXT_CONNECTION: u32 = 4_294_967_168;

/// The Rust fills in the same defaults; here they serve the test of the range alone.
fn options_refusal(options: &Options) -> Option<u8> {
    let or = |given: u32, default: u32| if given == 0 { default } else { given };
    let maximum = or(options.maximum, DEFAULT_MAXIMUM);
    let max_connecting = or(options.max_connecting, DEFAULT_MAX_CONNECTING);
    let inside = maximum <= LARGEST && options.minimum <= maximum && max_connecting <= LARGEST;
    (!inside).then_some(OPTIONS)
}

/// What a closed record with reason idle says: the time that the Rust's idle test measured, which the
/// Rust's own event has no field for.
pub(crate) fn age(measured: Duration) -> u32 {
    u32::try_from(measured.as_millis()).unwrap_or(u32::MAX)
}

/// A pool of the Rust behind the description's refusals.
pub(crate) struct Pool {
    pub(crate) harness: Harness,
    pub(crate) clock: u64,
    pub(crate) last_request: u32,
    pub(crate) closed: bool,
    serial: u32,
}

impl Pool {
    pub(crate) fn make(options: &Options) -> Result<Self, u8> {
        match options_refusal(options) {
            Some(refusal) => Err(refusal),
            None => Ok(Self {
                harness: Harness::make(options),
                clock: 0,
                last_request: 0,
                closed: false,
                serial: 0,
            }),
        }
    }

    /// Lays the records of an accepted event behind `records`, or says why it is refused.
    pub(crate) fn event(&mut self, frame: &Frame, records: &mut Vec<Record>) -> Result<(), u8> {
        if let Some(refusal) = self.refusal(frame) {
            return Err(refusal);
        }
        let first = records.len();
        self.harness.event(frame, records);
        match frame.kind {
            // Only a clear interrupts, and it comes first.
            kind::CLEAR
                if records
                    .get(first)
                    .is_some_and(|r| r.kind == record::INTERRUPT) =>
            {
                records[first].other = self.harness.lent_count() as u32;
            }
            // The Rust still holds its queue when it says that the pool is closed.
            kind::CLOSE => {
                let said = records[first..]
                    .iter()
                    .position(|r| r.kind == record::POOL_CLOSED);
                records[first + said.expect("the worker has ended")..].rotate_left(1);
            }
            // The Rust's own answer would stand in a file that is not given.
            kind::SUCCEEDED_IN_BACKGROUND if self.closed => records.push(Record {
                kind: record::CLOSED,
                reason: CLOSED_BY_POOL,
                id: frame.id,
                ..Default::default()
            }),
            _ => {}
        }
        for record in &mut records[first..] {
            record.serial = self.serial;
            self.serial = self.serial.wrapping_add(1);
        }
        self.clock = frame.now;
        self.closed |= frame.kind == kind::CLOSE;
        if matches!(frame.kind, kind::CHECK_OUT | kind::WARM) {
            self.last_request = frame.id;
        }
        Ok(())
    }

    pub(crate) fn refusal(&self, frame: &Frame) -> Option<u8> {
        if frame.now < self.clock {
            return Some(BEFORE_THE_CLOCK);
        }
        let names_connection = names_connection(frame.kind);
        if self.closed && !names_connection {
            return Some(POOL_CLOSED);
        }
        if !self.closed && frame.kind != kind::CLOSE {
            let next_connection = self.harness.last_connection.wrapping_add(1);
            let last_clear = frame.kind == kind::CLEAR && self.harness.generation() == u32::MAX;
            if next_connection > LAST_NEXT_CONNECTION || last_clear {
                return Some(NUMBERS_USED_UP);
            }
        }
        match frame.kind {
            kind::CHECK_OUT | kind::WARM => self.request_refusal(frame.id),
            kind::ABANDON => self.abandon_refusal(frame.id),
            _ if names_connection => self.connection_refusal(frame),
            _ => None,
        }
    }

    fn request_refusal(&self, request: u32) -> Option<u8> {
        if request <= self.last_request {
            Some(REQUEST_NOT_NEW)
        } else if self.harness.waiting.len() >= QUEUE {
            Some(QUEUE_FULL)
        } else {
            None
        }
    }

    fn abandon_refusal(&self, request: u32) -> Option<u8> {
        let waits = |w: &Waiting| w.request == request && !w.is_abandoned();
        (!self.harness.waiting.iter().any(waits)).then_some(NOT_WAITING)
    }

    fn connection_refusal(&self, frame: &Frame) -> Option<u8> {
        let Some(Seat { held, touched, .. }) = self.harness.seat(frame.id) else {
            return Some(WRONG_STATE);
        };
        if frame.kind == kind::PIN && held.is_pinned() {
            return Some(ALREADY_PINNED);
        }
        if !fits(frame.kind, held) {
            return Some(WRONG_STATE);
        }
        let timed = matches!(frame.kind, kind::CHECK_IN | kind::SUCCEEDED_IN_BACKGROUND);
        if timed && (frame.second > frame.now || frame.second < *touched) {
            return Some(SECOND_TIME);
        }
        None
    }
}

pub(crate) fn names_connection(kind: u8) -> bool {
    matches!(
        kind,
        kind::CHECK_IN | kind::SUCCEEDED..=kind::FAILED | kind::PIN..=kind::TAKE
    )
}

/// Whether a connection is in a state that the kind needs.
pub(crate) fn fits(kind: u8, held: &Held) -> bool {
    match kind {
        kind::CHECK_IN => !held.is_pending(),
        kind::SUCCEEDED => matches!(held, Held::PendingForRequest { .. }),
        kind::SUCCEEDED_IN_BACKGROUND => matches!(held, Held::PendingInBackground { .. }),
        kind::FAILED => held.is_pending(),
        kind::PIN => matches!(held, Held::Lent(_)),
        kind::RETURN => matches!(held, Held::PinnedInUse { .. }),
        kind::TAKE => held.is_pinned(),
        _ => false,
    }
}

/// The run of a day, line by line.
pub(crate) struct Replay {
    pub(crate) pool: Option<Pool>,
    /// Lines read, modulo 2^32.
    line: u32,
    budget: u64,
    pub(crate) used: u64,
    ended: bool,
}

impl Replay {
    pub(crate) fn new(budget: u64) -> Self {
        Self {
            pool: None,
            line: 0,
            budget,
            used: 0,
            ended: false,
        }
    }

    /// Nothing that follows can change the log.
    pub(crate) fn has_ended(&self) -> bool {
        self.ended || (self.line > 0 && self.used == self.budget)
    }

    /// Takes one line, with its newline if it has one.
    pub(crate) fn line(&mut self, line: &[u8], records: &mut Vec<Record>) {
        self.bytes(line_bytes(line), records);
    }

    /// Takes the bytes of one line; nothing where the line is malformed.
    pub(crate) fn bytes(&mut self, bytes: Option<Bytes>, records: &mut Vec<Record>) {
        if self.has_ended() {
            return;
        }
        self.line = self.line.wrapping_add(1);
        let answer = match &mut self.pool {
            None => {
                let made = bytes
                    .and_then(|bytes| Options::read(&bytes))
                    .ok_or(MALFORMED)
                    .and_then(|options| Pool::make(&options));
                made.map(|pool| self.pool = Some(pool))
            }
            Some(pool) => {
                self.used += 1;
                bytes
                    .and_then(|bytes| Frame::read(&bytes))
                    .ok_or(MALFORMED)
                    .and_then(|frame| pool.event(&frame, records))
            }
        };
        if let Err(refusal) = answer {
            self.ended = self.pool.is_none();
            records.push(Record {
                kind: record::REFUSED,
                reason: refusal,
                id: self.line,
                ..Default::default()
            });
        }
    }

    /// The text is over; no first line at all counts as a malformed one.
    pub(crate) fn finish(&mut self, records: &mut Vec<Record>) {
        if self.pool.is_none() && !self.ended {
            self.bytes(None, records);
        }
    }
}
