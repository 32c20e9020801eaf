//! Makes a day small that shows something: fewer lines, as long as it still shows it.

use crate::{
    added::{names_connection, Replay},
    text::{kind, line_bytes, push_line, record, Frame},
};

type Lines = Vec<Vec<u8>>;

/// A program under test may be slow to start, so the tries are counted.
const TRIES: usize = 4000;

/// Removes lines, many at a time and then fewer, and whole connections with the request they were
/// created for, as long as the day still shows what it did.
pub(crate) fn shrink(day: Vec<u8>, mut shows: impl FnMut(&[u8]) -> bool) -> Vec<u8> {
    let mut tries = 0;
    let mut still = |lines: &Lines| {
        tries += 1;
        tries <= TRIES && shows(&lines.concat())
    };
    let mut lines: Lines = day
        .split_inclusive(|&b| b == b'\n')
        .map(<[u8]>::to_vec)
        .collect();
    let mut size = lines.len().max(1);
    loop {
        let removed = remove_lines(&mut lines, size, &mut still);
        let forgot = size == 1 && forget_connections(&mut lines, &mut still);
        if size == 1 && !removed && !forgot {
            return lines.concat();
        }
        size = size.div_ceil(2);
    }
}

fn remove_lines(lines: &mut Lines, size: usize, still: &mut impl FnMut(&Lines) -> bool) -> bool {
    let mut removed = false;
    // From the end: what comes after the difference goes first.
    let mut end = lines.len();
    while end > 0 {
        let at = end.saturating_sub(size);
        let rest = [&lines[..at], &lines[end..]].concat();
        if still(&rest) {
            *lines = rest;
            removed = true;
        }
        end = at;
    }
    removed
}

fn forget_connections(lines: &mut Lines, still: &mut impl FnMut(&Lines) -> bool) -> bool {
    let mut forgot = false;
    for birth in births(lines).iter().rev() {
        let rest = without(lines, birth);
        if still(&rest) {
            *lines = rest;
            forgot = true;
        }
    }
    forgot
}

/// The creation of a connection.
struct Birth {
    line: usize,
    connection: u32,
    request: Option<u32>,
}

fn births(lines: &Lines) -> Vec<Birth> {
    let mut replay = Replay::new(u64::MAX);
    let mut records = Vec::new();
    let mut births = Vec::new();
    for (line, bytes) in lines.iter().enumerate() {
        records.clear();
        replay.line(bytes, &mut records);
        for (at, created) in records.iter().enumerate() {
            if created.kind != record::CREATED {
                continue;
            }
            let reply = records
                .get(at + 1)
                .filter(|reply| matches!(reply.kind, record::ESTABLISHING | record::UNHEARD));
            births.push(Birth {
                line,
                connection: created.id,
                request: reply.map(|reply| reply.id),
            });
        }
    }
    births
}

/// The day without a connection: its request, or else the event that created it, and every line that
/// names it are gone; later connections have an id one lower.
fn without(lines: &Lines, birth: &Birth) -> Lines {
    let mut rest = Lines::new();
    for (number, line) in lines.iter().enumerate() {
        let Some(mut frame) = line_bytes(line).and_then(|bytes| Frame::read(&bytes)) else {
            rest.push(line.clone());
            continue;
        };
        let gone = match birth.request {
            Some(request) => {
                matches!(frame.kind, kind::CHECK_OUT..=kind::ABANDON) && frame.id == request
            }
            None => number == birth.line,
        };
        if gone || names_connection(frame.kind) && frame.id == birth.connection {
            continue;
        }
        if names_connection(frame.kind) && frame.id > birth.connection {
            frame.id -= 1;
        }
        let mut text = Vec::new();
        push_line(&frame.write(), &mut text);
        rest.push(text);
    }
    rest
}
