//! Days made by a seed, and every day of tiny pools. Both run the oracle while they choose, so that
//! most events name a connection or a request that is in the right state.

use crate::{
    added::{fits, names_connection, Pool, Replay, QUEUE},
    text::{kind, push_line, Frame, Options, Record},
};

/// The same day with a bad frame behind every line but the first.
pub(crate) fn parted(day: &[u8]) -> Vec<u8> {
    let mut text = Vec::new();
    for (number, line) in day.split_inclusive(|&b| b == b'\n').enumerate() {
        text.extend(line);
        if number > 0 && line.ends_with(b"\n") && line != PARTING {
            text.extend(PARTING);
        }
    }
    text
}

/// Where a campaign gets its days from.
pub(crate) enum Source {
    Seeded { seed: u64, next: u64, end: u64 },
    Exhaustive(Exhaustive),
}

impl Source {
    pub(crate) fn seeded(count: u64, seed: u64) -> Self {
        Source::Seeded {
            seed,
            next: 0,
            end: count,
        }
    }

    pub(crate) fn exhaustive(depth: u64) -> Self {
        Source::Exhaustive(Exhaustive::new(depth as usize))
    }
}

/// A name and the text of a day.
impl Iterator for Source {
    type Item = (String, Vec<u8>);

    fn next(&mut self) -> Option<Self::Item> {
        match self {
            Source::Seeded { next, end, .. } if next == end => None,
            Source::Seeded { seed, next, .. } => {
                let name = format!("seed {seed} day {next}");
                *next += 1;
                Some((name, seeded_day(*seed, *next - 1)))
            }
            Source::Exhaustive(days) => days.next(),
        }
    }
}

/// SplitMix64.
pub(crate) struct Random {
    state: u64,
}

impl Random {
    pub(crate) fn new(seed: u64, stream: u64) -> Self {
        let mut random = Self { state: seed };
        random.state = random.next() ^ stream.wrapping_mul(0xd134_2543_de82_ef95);
        random
    }

    fn next(&mut self) -> u64 {
        self.state = self.state.wrapping_add(0x9e37_79b9_7f4a_7c15);
        let mut z = self.state;
        z = (z ^ (z >> 30)).wrapping_mul(0xbf58_476d_1ce4_e5b9);
        z = (z ^ (z >> 27)).wrapping_mul(0x94d0_49bb_1331_11eb);
        z ^ (z >> 31)
    }

    /// 0 to `bound` - 1.
    fn below(&mut self, bound: u64) -> u64 {
        self.next() % bound
    }

    fn one_in(&mut self, n: u64) -> bool {
        self.below(n) == 0
    }

    fn pick<T: Copy>(&mut self, from: &[T]) -> T {
        from[self.below(from.len() as u64) as usize]
    }
}

/// How a seeded day behaves throughout.
struct Temper {
    weights: [u64; 16],
    length: u64,
    /// One event in so many is wrong on purpose.
    wrong: u64,
    /// One line in so many is damaged; 0 for none.
    damaged: u64,
    /// The day's step in time, beside jumps over the idle limit.
    step: u64,
    /// Some steps are about as long as the largest age that a record can say.
    long: bool,
    /// A bad frame follows every event, so that the log shows which event gave which records.
    parted: bool,
}

const LARGEST_AGE: u64 = u32::MAX as u64;

/// The bad frame that parts events: its refusal is all it does.
const PARTING: &[u8] = b"000000000000000000000000000000000000000000000000\n";

/// Weights by kind for days of different character: mixed, crowded, background, pins, clears, calm.
const CHARACTERS: [[u64; 16]; 6] = [
    [0, 30, 6, 4, 30, 4, 8, 20, 10, 5, 10, 2, 4, 4, 4, 1],
    [0, 80, 10, 6, 6, 0, 2, 4, 4, 1, 1, 1, 1, 1, 1, 0],
    [0, 16, 10, 4, 16, 2, 6, 14, 24, 6, 24, 2, 1, 1, 1, 0],
    [0, 20, 2, 2, 20, 3, 5, 20, 4, 3, 4, 1, 20, 14, 12, 1],
    [0, 24, 4, 6, 20, 14, 18, 16, 8, 6, 8, 2, 2, 2, 2, 1],
    [0, 30, 2, 1, 40, 1, 4, 30, 4, 1, 6, 0, 0, 0, 0, 0],
];

fn seeded_day(seed: u64, index: u64) -> Vec<u8> {
    let mut random = Random::new(seed, index);
    let character = random.below(CHARACTERS.len() as u64) as usize;
    let mut weights = CHARACTERS[character];
    for weight in &mut weights {
        *weight *= random.below(4) + 1;
    }
    let temper = Temper {
        weights,
        length: match random.below(100) {
            0 => 700 + random.below(600),
            1..=9 => 100 + random.below(200),
            _ => 5 + random.below(60),
        },
        wrong: random.pick(&[8, 30, 30, 1000]),
        damaged: random.pick(&[0, 0, 0, 0, 0, 0, 0, 0, 6, 40]),
        step: random.pick(&[1, 1, 2, 3, 10, 100]),
        long: index % 16 == 15,
        parted: random.one_in(2),
    };
    let options = options(&mut random);
    let mut day = Day::start();
    let mut line = options.write();
    if random.one_in(100) {
        let at = random.below(24) as usize;
        line[at] = line[at].wrapping_add(1 + random.below(255) as u8);
    }
    day.line(&line);
    if random.one_in(150) {
        let bytes = std::mem::take(&mut day.text);
        day = Day::start();
        day.raw(&damage(&bytes, &mut random));
    }
    if random.one_in(60) {
        day.clock_jump = u64::MAX - random.below(2 * options.idle_limit.min(1000) + 50);
    }
    if random.one_in(60) {
        day.request_jump = u32::MAX - random.below(20) as u32;
    }
    for _ in 0..temper.length {
        // Little is left to see once the pool is closed, or was never made.
        if day.pool().is_none_or(|pool| pool.closed) && random.one_in(16) {
            break;
        }
        let frame = day.choose(&mut random, &temper, &options);
        let mut bytes = frame.write();
        if temper.damaged != 0 && random.one_in(temper.damaged * 2) {
            let at = random.pick(&[0, 0, 1, 1, 2, 3, 4, 7, 16, 23]);
            bytes[at] = bytes[at].wrapping_add(1 + random.below(255) as u8);
        }
        if temper.damaged != 0 && random.one_in(temper.damaged) {
            let mut text = Vec::new();
            push_line(&bytes, &mut text);
            day.raw(&damage(&text, &mut random));
        } else {
            day.line(&bytes);
        }
        if temper.parted {
            day.raw(PARTING);
        }
    }
    if temper.damaged != 0 && random.one_in(3) {
        let cut = 1 + random.below(49) as usize;
        day.text.truncate(day.text.len().saturating_sub(cut));
    }
    day.text
}

fn options(random: &mut Random) -> Options {
    let maximum = random.pick(&[0, 1, 1, 2, 2, 3, 4, 5, 7, 10, 63, 64, 64]);
    let filled = if maximum == 0 { 10 } else { u64::from(maximum) };
    let minimum = match random.below(6) {
        0..=2 => 0,
        3 => filled,
        _ => random.below(filled + 1),
    } as u32;
    let mut options = Options {
        maximum,
        minimum,
        max_connecting: random.pick(&[0, 0, 1, 1, 2, 3, 5, 63, 64]),
        idle_limit: random.pick(&[0, 0, 0, 1, 2, 3, 5, 20, 100, 1000, u64::MAX - 1, u64::MAX]),
    };
    // Few days may end at their options.
    match random.below(400) {
        0 => options.maximum = 65 + random.below(3) as u32,
        1 => options.minimum = filled as u32 + 1 + random.below(3) as u32,
        2 => options.max_connecting = random.pick(&[65, 256, u32::MAX]),
        _ => {}
    }
    options
}

/// A line that is no longer what it was.
fn damage(line: &[u8], random: &mut Random) -> Vec<u8> {
    let mut line = line.to_vec();
    let digits = line.len() - 1;
    let at = random.below(digits as u64) as usize;
    match random.below(12) {
        0 => line[at] = random.pick(b"ABCDEFGgx .-+\t\r\0\x7f\x80\xff"),
        1 => line.truncate(at),
        2 => drop(line.remove(at)),
        3 => line.insert(at, b'0'),
        4 => line.insert(digits, b'\r'),
        5 => line.insert(at, b'\n'),
        6 => line = b"\n".to_vec(),
        7 => {
            let more = random.pick(&[1, 2, 48, 49, 50, 1000]);
            line.splice(digits..digits, std::iter::repeat_n(b'0', more));
        }
        8 => line.splice(0..0, *b"0x").for_each(drop),
        9 => line[digits] = random.pick(b" \r0\0"),
        10 => line.push(b' '),
        _ => line[at] = line[at].to_ascii_uppercase(),
    }
    line
}

/// A day in the making, with the oracle's pool beside it.
struct Day {
    text: Vec<u8>,
    replay: Replay,
    records: Vec<Record>,
    clock_jump: u64,
    request_jump: u32,
}

impl Day {
    fn start() -> Self {
        Self {
            text: Vec::new(),
            replay: Replay::new(u64::MAX),
            records: Vec::new(),
            clock_jump: 0,
            request_jump: 0,
        }
    }

    fn pool(&self) -> Option<&Pool> {
        self.replay.pool.as_ref()
    }

    fn line(&mut self, bytes: &[u8; 24]) {
        push_line(bytes, &mut self.text);
        self.replay.bytes(Some(*bytes), &mut self.records);
        self.records.clear();
    }

    /// The pool beside the day stays as it was. Where damage happened to do nothing it falls behind,
    /// and later events are refused more often, no more.
    fn raw(&mut self, line: &[u8]) {
        self.text.extend(line);
    }

    fn choose(&mut self, random: &mut Random, temper: &Temper, options: &Options) -> Frame {
        let Some(pool) = self.pool() else {
            return Frame {
                kind: random.below(17) as u8,
                ..Frame::default()
            };
        };
        let mut frame = Frame::default();
        let wrong = random.one_in(temper.wrong);
        frame.kind = self.choose_kind(pool, random, temper, wrong);
        frame.now = if wrong && random.one_in(4) {
            pool.clock.wrapping_sub(random.below(5))
        } else {
            self.choose_time(pool, random, temper, options)
        };
        let seats: Vec<(u32, u64)> = pool
            .harness
            .seats
            .iter()
            .filter(|seat| fits(frame.kind, &seat.held))
            .map(|seat| (seat.connection, seat.touched))
            .collect();
        let (seat, touched) = match seats.as_slice() {
            [] => (
                random.below(u64::from(pool.harness.last_connection) + 2) as u32,
                0,
            ),
            seats => random.pick(seats),
        };
        let waiting = &pool.harness.waiting;
        match frame.kind {
            kind::CHECK_OUT | kind::WARM => {
                let step = if random.one_in(20) {
                    1 + random.below(5)
                } else {
                    1
                };
                let last = pool.last_request.max(self.request_jump);
                frame.id = last.saturating_add(step as u32);
            }
            kind::ABANDON if !waiting.is_empty() => {
                frame.id = waiting[random.below(waiting.len() as u64) as usize].request;
            }
            kind::ABANDON => frame.id = random.below(u64::from(pool.last_request) + 2) as u32,
            kind::CLEAR => {
                frame.id = random.pick(&[1, 2, 7, 255, u32::MAX]);
                frame.flags = random.below(2) as u8;
            }
            kind::READY | kind::MAINTENANCE | kind::FILL | kind::CLOSE => {}
            _ => frame.id = seat,
        }
        if matches!(frame.kind, kind::CHECK_IN | kind::SUCCEEDED_IN_BACKGROUND) {
            let span = frame.now.saturating_sub(touched);
            frame.second = match random.below(4) {
                0 => touched,
                1 => frame.now,
                _ => touched + random.below(span.saturating_add(1)),
            };
        }
        if frame.kind == kind::CHECK_IN && random.one_in(3) {
            frame.flags = random.below(4) as u8;
        }
        if wrong {
            match random.below(5) {
                0 => frame.id = random.pick(&[0, 1, 2, u32::MAX, pool.harness.last_connection]),
                1 => frame.id = pool.last_request,
                2 => frame.second = random.pick(&[0, 1, frame.now.wrapping_add(1), u64::MAX]),
                3 => frame.flags = random.below(6) as u8,
                _ => {}
            }
        }
        self.clock_jump = 0;
        if random.one_in(8) {
            self.request_jump = 0;
        }
        frame
    }

    fn choose_kind(&self, pool: &Pool, random: &mut Random, temper: &Temper, wrong: bool) -> u8 {
        if pool.harness.last_connection == 0 && pool.harness.waiting.is_empty() && random.one_in(3)
        {
            return kind::READY;
        }
        let possible = |kind: u8| match kind {
            kind::ABANDON => !pool.harness.waiting.is_empty(),
            _ if names_connection(kind) => pool.harness.seats.iter().any(|s| fits(kind, &s.held)),
            // Some events after a close are tried although they are refused.
            _ => !pool.closed || matches!(kind, kind::CHECK_OUT | kind::MAINTENANCE),
        };
        let weight = |kind: u8| {
            let weight = temper.weights[usize::from(kind)];
            // A crowded queue stays crowded for a while.
            let full = pool.harness.waiting.len() >= QUEUE;
            match kind {
                _ if wrong => weight + 1,
                _ if !possible(kind) => 0,
                kind::CHECK_OUT | kind::WARM if full => weight / 16 + 1,
                _ => weight,
            }
        };
        let all: u64 = (1..=15).map(weight).sum();
        if all == 0 {
            return kind::CLOSE;
        }
        let mut left = random.below(all);
        for kind in 1..=15 {
            let weight = weight(kind);
            if left < weight {
                return kind;
            }
            left -= weight;
        }
        unreachable!("the weights add up")
    }

    fn choose_time(
        &self,
        pool: &Pool,
        random: &mut Random,
        temper: &Temper,
        options: &Options,
    ) -> u64 {
        let start = pool.clock.max(self.clock_jump);
        if temper.long && random.one_in(12) {
            return start.saturating_add(LARGEST_AGE - 2 + random.below(5));
        }
        let idle = options.idle_limit.min(100_000);
        let step = match random.below(40) {
            0 => idle,
            1 => idle.saturating_sub(1),
            2 => idle + 1,
            3 => random.below(2 * idle + 1),
            4..=15 => 0,
            _ => random.below(temper.step + 1),
        };
        start.saturating_add(step)
    }
}

/// Every sequence of events for tiny pools: accepted ones up to the depth, then every event of the
/// alphabet that is refused there. A refused event changes nothing, so no sequence is missed.
pub(crate) struct Exhaustive {
    depth: usize,
    options: Vec<Options>,
    /// Days of the options at hand that have not been given out, and unfinished beginnings.
    open: Vec<Vec<Frame>>,
    at: Option<Options>,
    count: u64,
}

impl Exhaustive {
    fn new(depth: usize) -> Self {
        let tiny = |maximum, minimum, max_connecting, idle_limit| Options {
            maximum,
            minimum,
            max_connecting,
            idle_limit,
        };
        Self {
            depth,
            options: vec![
                tiny(2, 2, 1, 2),
                tiny(2, 1, 2, 0),
                tiny(2, 0, 1, 2),
                tiny(1, 1, 1, 0),
                tiny(1, 0, 1, 1),
            ],
            open: Vec::new(),
            at: None,
            count: 0,
        }
    }

    fn next(&mut self) -> Option<(String, Vec<u8>)> {
        loop {
            let Some(frames) = self.open.pop() else {
                self.at = Some(self.options.pop()?);
                self.open.push(Vec::new());
                continue;
            };
            let options = self.at.expect("options are at hand");
            let mut day = Day::start();
            day.line(&options.write());
            for frame in &frames {
                day.line(&frame.write());
                day.raw(PARTING);
            }
            let Some(pool) = day.pool() else {
                unreachable!("tiny options are in range");
            };
            let refused = |frame: &Frame| pool.refusal(frame).is_some();
            let (refused, accepted): (Vec<Frame>, Vec<Frame>) =
                alphabet(pool).into_iter().partition(refused);
            if frames.len() < self.depth && !accepted.is_empty() {
                for frame in accepted {
                    let mut longer = frames.clone();
                    longer.push(frame);
                    self.open.push(longer);
                }
                continue;
            }
            for frame in refused {
                day.line(&frame.write());
            }
            self.count += 1;
            return Some((format!("exhaustive day {}", self.count), day.text));
        }
    }
}

/// One event of each kind for each connection and request that it could name, one step later.
fn alphabet(pool: &Pool) -> Vec<Frame> {
    let now = pool.clock + 1;
    let of = |kind: u8, id: u32| Frame {
        kind,
        id,
        now,
        ..Frame::default()
    };
    let mut frames = vec![
        of(kind::READY, 0),
        of(kind::CHECK_OUT, pool.last_request + 1),
        of(kind::WARM, pool.last_request + 1),
        of(kind::CLEAR, 3),
        Frame {
            flags: 1,
            ..of(kind::CLEAR, 4)
        },
        of(kind::MAINTENANCE, 0),
        of(kind::FILL, 0),
        of(kind::CLOSE, 0),
    ];
    for request in 1..=pool.last_request {
        frames.push(of(kind::ABANDON, request));
    }
    for connection in 1..=pool.harness.last_connection {
        let touched = pool.harness.seat(connection).map_or(0, |seat| seat.touched);
        for kind in [7, 9, 12, 13, 14] {
            frames.push(of(kind, connection));
        }
        for second in [touched, now] {
            frames.push(Frame {
                second,
                ..of(kind::CHECK_IN, connection)
            });
            frames.push(Frame {
                second,
                ..of(kind::SUCCEEDED_IN_BACKGROUND, connection)
            });
        }
        for flags in 1..=3 {
            frames.push(Frame {
                flags,
                second: now,
                ..of(kind::CHECK_IN, connection)
            });
        }
    }
    frames
}

/// One day with so many frames, nearly all accepted, that never closes.
pub(crate) fn long_day(frames: u64, seed: u64) -> Vec<u8> {
    let mut random = Random::new(seed, 0);
    let temper = Temper {
        weights: [0, 320, 10, 6, 340, 1, 8, 300, 40, 6, 40, 4, 20, 20, 20, 0],
        length: frames,
        wrong: u64::MAX,
        damaged: 0,
        step: 3,
        long: false,
        parted: false,
    };
    let options = Options {
        maximum: 64,
        minimum: 8,
        max_connecting: 4,
        idle_limit: 100,
    };
    let mut day = Day::start();
    day.line(&options.write());
    for _ in 0..temper.length {
        let frame = day.choose(&mut random, &temper, &options);
        day.line(&frame.write());
    }
    day.text
}
