//! Stored days: short lines for people, with the oracle's records under each. days/README.md has
//! the form.

use std::{
    collections::HashSet,
    io::{self, BufRead},
};

use crate::{
    added::{Pool, Replay},
    generate::{parted, Source},
    put,
    shrink::shrink,
    stop,
    text::{kind, line_bytes, push_line, record, Frame, Lines, Options, Record},
};

/// What is printed under a line of a stored day.
#[derive(Clone, Copy)]
enum Told {
    Records,
    /// The worker's own counts: total, pending, available, waiting.
    Counts,
}

/// Stored days on standard input with the answers, if any, replaced by the oracle's.
pub(crate) fn answers() {
    stored(Told::Records);
}

/// Stored days on standard input, under each frame the worker's counts in place of the answers.
pub(crate) fn counts() {
    stored(Told::Counts);
}

fn stored(told: Told) {
    let mut day: Option<Answering> = None;
    for (number, line) in io::stdin().lock().lines().enumerate() {
        let line = line.unwrap_or_else(|e| stop(format!("cannot read standard input: {e}")));
        let words = line.trim();
        if words.starts_with("= ") {
            continue;
        }
        let bytes = match words.split_once(' ') {
            _ if words.is_empty() || words.starts_with('#') => Vec::new(),
            Some(("day", _)) => {
                finish(day.replace(Answering::new(told)));
                Vec::new()
            }
            _ => bytes_of(words).unwrap_or_else(|| stop(format!("line {}: {line}", number + 1))),
        };
        if bytes.is_empty() {
            // An empty line stands between days, so the day before it has ended.
            if words.is_empty() {
                finish(day.take());
            }
            put(format!("{line}\n").as_bytes());
            continue;
        }
        put(format!("{words}\n").as_bytes());
        match &mut day {
            Some(day) => day.feed(&bytes),
            None => stop(format!("line {}: no day has begun", number + 1)),
        }
    }
    finish(day);
}

fn finish(day: Option<Answering>) {
    if let Some(day) = day {
        day.finish();
    }
}

/// Prints the days with their answers.
pub(crate) fn print(source: Source) {
    for (name, day) in source {
        print_day(&name, &day);
    }
}

pub(crate) fn print_day(name: &str, day: &[u8]) {
    put(format!("day {name}\n").as_bytes());
    let mut answering = Answering::new(Told::Records);
    for (number, line) in day.split_inclusive(|&b| b == b'\n').enumerate() {
        put(format!("{}\n", words_of(line, number == 0)).as_bytes());
        answering.feed(line);
    }
    answering.finish();
    put(b"\n");
}

/// A day whose records, or counts, are printed as they come.
struct Answering {
    told: Told,
    replay: Replay,
    lines: Lines,
    records: Vec<Record>,
}

impl Answering {
    fn new(told: Told) -> Self {
        Self {
            told,
            replay: Replay::new(u64::MAX),
            lines: Lines::default(),
            records: Vec::new(),
        }
    }

    fn feed(&mut self, bytes: &[u8]) {
        let Self {
            told,
            replay,
            lines,
            records,
        } = self;
        lines.feed(bytes, |line| {
            replay.line(line, records);
            tell(*told, replay, records);
        });
    }

    fn finish(self) {
        let Self {
            told,
            mut replay,
            lines,
            mut records,
        } = self;
        lines.finish(|line| {
            replay.line(line, &mut records);
            tell(told, &replay, &mut records);
        });
        replay.finish(&mut records);
        if let Told::Records = told {
            print_records(&mut records);
        }
    }
}

fn tell(told: Told, replay: &Replay, records: &mut Vec<Record>) {
    match (told, &replay.pool) {
        (Told::Records, _) => print_records(records),
        // The options alone give a pool that has not run.
        (Told::Counts, Some(pool)) if replay.used > 0 => print_counts(pool),
        (Told::Counts, _) => {}
    }
}

fn print_counts(pool: &Pool) {
    let told = match pool.harness.counts() {
        Some(c) => format!("{} {} {} {}", c.total, c.pending, c.available, c.waiting),
        None => "closed".to_string(),
    };
    put(format!("  = {told}\n").as_bytes());
}

fn print_records(records: &mut Vec<Record>) {
    for record in records.drain(..) {
        let fields = [
            record.kind.into(),
            record.reason.into(),
            record.id.into(),
            record.other.into(),
        ];
        put(format!("  = {}\n", numbers(&fields)).as_bytes());
    }
}

/// Numbers with the zeros at the end left out, save the first.
fn numbers(fields: &[u64]) -> String {
    let used = fields
        .iter()
        .rposition(|&n| n != 0)
        .map_or(1, |last| last + 1);
    let words: Vec<String> = fields[..used].iter().map(u64::to_string).collect();
    words.join(" ")
}

fn words_of(line: &[u8], first: bool) -> String {
    let options = line_bytes(line)
        .filter(|_| first)
        .and_then(|bytes| Options::read(&bytes));
    if let Some(o) = options {
        let fields = [
            o.maximum.into(),
            o.minimum.into(),
            o.max_connecting.into(),
            o.idle_limit,
        ];
        return format!("options {}", numbers(&fields));
    }
    match line_bytes(line).map(|bytes| (bytes, Frame::unchecked(&bytes))) {
        Some((bytes, f)) if !first && f.write() == bytes => {
            numbers(&[f.kind.into(), f.flags.into(), f.id.into(), f.now, f.second])
        }
        _ => format!("raw \"{}\"", line.escape_ascii()),
    }
}

/// The bytes that a stored line stands for.
fn bytes_of(words: &str) -> Option<Vec<u8>> {
    if let Some(quoted) = words.strip_prefix("raw ") {
        return unescape(quoted.strip_prefix('"')?.strip_suffix('"')?);
    }
    let mut text = Vec::new();
    if let Some(fields) = words.strip_prefix("options") {
        let [maximum, minimum, max_connecting, idle_limit] = fields_of(fields)?;
        let options = Options {
            maximum: maximum.try_into().ok()?,
            minimum: minimum.try_into().ok()?,
            max_connecting: max_connecting.try_into().ok()?,
            idle_limit,
        };
        push_line(&options.write(), &mut text);
    } else {
        let [kind, flags, id, now, second] = fields_of(words)?;
        let frame = Frame {
            kind: kind.try_into().ok()?,
            flags: flags.try_into().ok()?,
            id: id.try_into().ok()?,
            now,
            second,
        };
        push_line(&frame.write(), &mut text);
    }
    Some(text)
}

fn fields_of<const N: usize>(words: &str) -> Option<[u64; N]> {
    let mut fields = [0; N];
    for (at, word) in words.split_whitespace().enumerate() {
        *fields.get_mut(at)? = word.parse().ok()?;
    }
    Some(fields)
}

fn unescape(text: &str) -> Option<Vec<u8>> {
    let mut bytes = Vec::new();
    let mut rest = text.bytes();
    while let Some(byte) = rest.next() {
        if byte != b'\\' {
            bytes.push(byte);
            continue;
        }
        bytes.push(match rest.next()? {
            b'n' => b'\n',
            b'r' => b'\r',
            b't' => b'\t',
            b'x' => {
                let digits = [rest.next()?, rest.next()?];
                u8::from_str_radix(std::str::from_utf8(&digits).ok()?, 16).ok()?
            }
            other => other,
        });
    }
    Some(bytes)
}

/// What an event showed: its kind and flags, the pool's state before it, and the records it gave, like
/// ones in a row told once and the first few only.
#[derive(Clone, PartialEq, Eq, Hash)]
struct Feature {
    kind: u8,
    flags: u8,
    state: &'static str,
    records: Vec<(u8, u8)>,
}

impl Feature {
    fn name(&self) -> String {
        let flags = if self.flags == 0 {
            String::new()
        } else {
            format!(" with flags {}", self.flags)
        };
        let records: Vec<String> = self
            .records
            .iter()
            .map(|&(kind, reason)| {
                if reason == 0 {
                    kind.to_string()
                } else {
                    format!("{kind}/{reason}")
                }
            })
            .collect();
        let records = if records.is_empty() {
            "nothing".to_string()
        } else {
            records.join(" ")
        };
        format!(
            "kind {}{flags} in {} gives {records}",
            self.kind, self.state
        )
    }
}

/// Of many generated days those that show something new, each made small and its events parted; short
/// days first.
pub(crate) fn choose(count: u64, seed: u64) {
    let mut days: Vec<(String, Vec<u8>)> = Source::seeded(count, seed).collect();
    days.sort_by_key(|(_, day)| day.len());
    let mut known = HashSet::new();
    for (name, day) in days {
        let new = features(&day)
            .into_iter()
            .find(|feature| !known.contains(feature));
        if let Some(new) = new {
            let day = shrink(day, |day| features(day).contains(&new));
            known.extend(features(&day));
            print_day(
                &format!("{} ({name}, made small)", new.name()),
                &parted(&day),
            );
        }
    }
}

fn features(day: &[u8]) -> Vec<Feature> {
    let mut replay = Replay::new(u64::MAX);
    let mut records = Vec::new();
    let mut features = Vec::new();
    let mut state = "New";
    let mut lines = day.split_inclusive(|&b| b == b'\n');
    replay.line(lines.next().unwrap_or_default(), &mut records);
    for line in lines {
        records.clear();
        replay.line(line, &mut records);
        if replay.has_ended() {
            break;
        }
        // All malformed lines count as one.
        let frame = line_bytes(line)
            .and_then(|bytes| Frame::read(&bytes))
            .unwrap_or_default();
        let mut told: Vec<(u8, u8)> = records.iter().map(|r| (r.kind, r.reason)).collect();
        told.dedup();
        told.truncate(6);
        features.push(Feature {
            kind: frame.kind,
            flags: frame.flags,
            state,
            records: told,
        });
        let accepted = records.first().is_none_or(|r| r.kind != record::REFUSED);
        state = match frame.kind {
            kind::READY if accepted => "Ready",
            kind::CLEAR if accepted => "Paused",
            kind::CLOSE if accepted => "Closed",
            _ => state,
        };
    }
    features
}
