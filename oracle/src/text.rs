//! Days and logs as text: lines, options, frames and records.

/// A frame or an options line, before it is read.
pub(crate) type Bytes = [u8; 24];

const DIGITS: &[u8; 16] = b"0123456789abcdef";

const NO_DIGIT: u8 = 255;

const VALUES: [u8; 256] = {
    let mut values = [NO_DIGIT; 256];
    let mut i = 0;
    while i < 16 {
        values[DIGITS[i] as usize] = i as u8;
        i += 1;
    }
    values
};

/// The bytes of a line that is 48 lower-case digits and a newline.
pub(crate) fn line_bytes(line: &[u8]) -> Option<Bytes> {
    let line: &[u8; 49] = line.try_into().ok()?;
    if line[48] != b'\n' {
        return None;
    }
    let mut bytes = [0; 24];
    let mut bad = 0;
    for (byte, pair) in bytes.iter_mut().zip(line.chunks_exact(2)) {
        let (high, low) = (VALUES[pair[0] as usize], VALUES[pair[1] as usize]);
        bad |= high | low;
        *byte = high << 4 | low & 15;
    }
    (bad & 0xf0 == 0).then_some(bytes)
}

pub(crate) fn push_line(bytes: &[u8], text: &mut Vec<u8>) {
    for byte in bytes {
        text.push(DIGITS[usize::from(byte >> 4)]);
        text.push(DIGITS[usize::from(byte & 15)]);
    }
    text.push(b'\n');
}

fn number4(bytes: &Bytes, at: usize) -> u32 {
    u32::from_be_bytes(bytes[at..at + 4].try_into().unwrap())
}

fn number8(bytes: &Bytes, at: usize) -> u64 {
    u64::from_be_bytes(bytes[at..at + 8].try_into().unwrap())
}

/// Options as the first line gives them, a 0 still standing for the default.
#[derive(Clone, Copy, Debug)]
pub(crate) struct Options {
    pub(crate) maximum: u32,
    pub(crate) minimum: u32,
    pub(crate) max_connecting: u32,
    pub(crate) idle_limit: u64,
}

impl Options {
    /// Nothing where a byte that must be 0 is not.
    pub(crate) fn read(bytes: &Bytes) -> Option<Self> {
        (number4(bytes, 0) == 0).then(|| Self {
            maximum: number4(bytes, 4),
            minimum: number4(bytes, 8),
            max_connecting: number4(bytes, 12),
            idle_limit: number8(bytes, 16),
        })
    }

    pub(crate) fn write(&self) -> Bytes {
        let mut bytes = [0; 24];
        bytes[4..8].copy_from_slice(&self.maximum.to_be_bytes());
        bytes[8..12].copy_from_slice(&self.minimum.to_be_bytes());
        bytes[12..16].copy_from_slice(&self.max_connecting.to_be_bytes());
        bytes[16..24].copy_from_slice(&self.idle_limit.to_be_bytes());
        bytes
    }
}

pub(crate) mod kind {
    pub(crate) const CHECK_OUT: u8 = 1;
    pub(crate) const WARM: u8 = 2;
    pub(crate) const ABANDON: u8 = 3;
    pub(crate) const CHECK_IN: u8 = 4;
    pub(crate) const CLEAR: u8 = 5;
    pub(crate) const READY: u8 = 6;
    pub(crate) const SUCCEEDED: u8 = 7;
    pub(crate) const SUCCEEDED_IN_BACKGROUND: u8 = 8;
    pub(crate) const FAILED: u8 = 9;
    pub(crate) const MAINTENANCE: u8 = 10;
    pub(crate) const FILL: u8 = 11;
    pub(crate) const PIN: u8 = 12;
    pub(crate) const RETURN: u8 = 13;
    pub(crate) const TAKE: u8 = 14;
    pub(crate) const CLOSE: u8 = 15;
}

pub(crate) const ERRORED: u8 = 1;
pub(crate) const EXECUTING: u8 = 2;
pub(crate) const NETWORK_TIMEOUT: u8 = 1;

#[derive(Clone, Copy, Debug, Default, PartialEq, Eq)]
pub(crate) struct Frame {
    pub(crate) kind: u8,
    pub(crate) flags: u8,
    pub(crate) id: u32,
    pub(crate) now: u64,
    pub(crate) second: u64,
}

impl Frame {
    /// Nothing where the kind is unknown, an unused field is not 0, or a cause is 0.
    pub(crate) fn read(bytes: &Bytes) -> Option<Self> {
        let frame = Self::unchecked(bytes);
        let highest_flags = match frame.kind {
            kind::CHECK_IN => ERRORED | EXECUTING,
            kind::CLEAR => NETWORK_TIMEOUT,
            _ => 0,
        };
        let takes_id = match frame.kind {
            kind::CHECK_OUT..=kind::CHECK_IN => true,
            kind::CLEAR => frame.id != 0,
            kind::SUCCEEDED..=kind::FAILED | kind::PIN..=kind::TAKE => true,
            kind::READY | kind::MAINTENANCE | kind::FILL | kind::CLOSE => frame.id == 0,
            0 | 16..=255 => return None,
        };
        let takes_second = matches!(frame.kind, kind::CHECK_IN | kind::SUCCEEDED_IN_BACKGROUND);
        let formed = bytes[2] == 0
            && bytes[3] == 0
            && frame.flags <= highest_flags
            && takes_id
            && (takes_second || frame.second == 0);
        formed.then_some(frame)
    }

    /// The fields, whatever they hold.
    pub(crate) fn unchecked(bytes: &Bytes) -> Self {
        Self {
            kind: bytes[0],
            flags: bytes[1],
            id: number4(bytes, 4),
            now: number8(bytes, 8),
            second: number8(bytes, 16),
        }
    }

    pub(crate) fn write(&self) -> Bytes {
        let mut bytes = [0; 24];
        bytes[0] = self.kind;
        bytes[1] = self.flags;
        bytes[4..8].copy_from_slice(&self.id.to_be_bytes());
        bytes[8..16].copy_from_slice(&self.now.to_be_bytes());
        bytes[16..24].copy_from_slice(&self.second.to_be_bytes());
        bytes
    }
}

pub(crate) mod record {
    pub(crate) const CREATED: u8 = 1;
    pub(crate) const CONNECTION_READY: u8 = 2;
    pub(crate) const CHECKED_IN: u8 = 3;
    pub(crate) const CLOSED: u8 = 4;
    pub(crate) const POOL_READY: u8 = 5;
    pub(crate) const POOL_CLEARED: u8 = 6;
    pub(crate) const POOL_CLOSED: u8 = 7;
    pub(crate) const INTERRUPT: u8 = 8;
    pub(crate) const POOLED: u8 = 16;
    pub(crate) const ESTABLISHING: u8 = 17;
    pub(crate) const WARMED: u8 = 18;
    pub(crate) const CLEARED: u8 = 19;
    pub(crate) const GONE: u8 = 20;
    pub(crate) const UNHEARD: u8 = 21;
    pub(crate) const REFUSED: u8 = 32;
}

pub(crate) const CLOSED_BY_POOL: u8 = 5;

#[derive(Clone, Copy, Debug, Default, PartialEq, Eq)]
pub(crate) struct Record {
    pub(crate) kind: u8,
    pub(crate) reason: u8,
    pub(crate) serial: u32,
    pub(crate) id: u32,
    pub(crate) other: u32,
}

impl Record {
    pub(crate) fn write(&self) -> [u8; 16] {
        let mut bytes = [0; 16];
        bytes[0] = self.kind;
        bytes[1] = self.reason;
        bytes[4..8].copy_from_slice(&self.serial.to_be_bytes());
        bytes[8..12].copy_from_slice(&self.id.to_be_bytes());
        bytes[12..16].copy_from_slice(&self.other.to_be_bytes());
        bytes
    }
}

/// Cuts a stream into lines, each with its newline; only the last may lack one.
#[derive(Default)]
pub(crate) struct Lines {
    unfinished: Vec<u8>,
}

impl Lines {
    /// A line of this length or more is malformed, so no more of it is kept.
    const ENOUGH: usize = 50;

    pub(crate) fn feed(&mut self, mut chunk: &[u8], mut line: impl FnMut(&[u8])) {
        while let Some(end) = chunk.iter().position(|&byte| byte == b'\n') {
            let (head, rest) = chunk.split_at(end + 1);
            if self.unfinished.is_empty() {
                line(head);
            } else {
                self.keep(head);
                line(&self.unfinished);
                self.unfinished.clear();
            }
            chunk = rest;
        }
        self.keep(chunk);
    }

    pub(crate) fn finish(self, mut line: impl FnMut(&[u8])) {
        if !self.unfinished.is_empty() {
            line(&self.unfinished);
        }
    }

    fn keep(&mut self, part: &[u8]) {
        let room = Self::ENOUGH.saturating_sub(self.unfinished.len());
        self.unfinished.extend(&part[..part.len().min(room)]);
    }
}
