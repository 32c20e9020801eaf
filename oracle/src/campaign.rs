//! A program against the oracle over many days; the first difference is made small.

use std::{
    io::{BufRead, BufReader, Read, Write},
    process::{exit, Child, ChildStdin, ChildStdout, Command, Stdio},
    time::WallInstant,
};

use crate::{generate::Source, put, replay::whole, shrink::shrink, stop, stored::print_day};

/// The program under test: one process a day, or one for all days.
pub(crate) struct Subject {
    words: Vec<String>,
    many: Option<Many>,
}

struct Many {
    days: ChildStdin,
    logs: BufReader<ChildStdout>,
}

impl Subject {
    pub(crate) fn new(program: &[&str], many: bool) -> Self {
        let mut subject = Self {
            words: program.iter().map(|word| word.to_string()).collect(),
            many: None,
        };
        if many {
            let (_, days, logs) = subject.spawn();
            subject.many = Some(Many {
                days,
                logs: BufReader::new(logs),
            });
        }
        subject
    }

    fn name(&self) -> String {
        self.words.join(" ")
    }

    fn spawn(&self) -> (Child, ChildStdin, ChildStdout) {
        let spawned = Command::new(&self.words[0])
            .args(&self.words[1..])
            .stdin(Stdio::piped())
            .stdout(Stdio::piped())
            .spawn();
        let mut child =
            spawned.unwrap_or_else(|e| stop(format!("cannot run {}: {e}", self.name())));
        let (days, logs) = (child.stdin.take(), child.stdout.take());
        (
            child,
            days.expect("it is piped"),
            logs.expect("it is piped"),
        )
    }

    fn differs(&mut self, day: &[u8]) -> bool {
        self.log(day) != whole(day)
    }

    fn log(&mut self, day: &[u8]) -> Vec<u8> {
        let answer = match &mut self.many {
            Some(many) => many.log(day),
            None => self.log_of_one(day),
        };
        answer.unwrap_or_else(|e| stop(format!("{}: {e}", self.name())))
    }

    fn log_of_one(&self, day: &[u8]) -> std::io::Result<Vec<u8>> {
        let (mut child, mut days, mut logs) = self.spawn();
        let mut log = Vec::new();
        std::thread::scope(|scope| {
            // A short day fits into the pipe; a long one is written while the log is read.
            if day.len() <= 4096 {
                // A program may end before it has read everything, after bad options say.
                let _ = days.write_all(day);
                drop(days);
            } else {
                scope.spawn(move || days.write_all(day));
            }
            logs.read_to_end(&mut log)
        })?;
        let status = child.wait()?;
        if !status.success() {
            log.extend(format!("({status})\n").bytes());
        }
        Ok(log)
    }
}

impl Many {
    /// A day and a log travel as their length on a line, then their bytes.
    fn log(&mut self, day: &[u8]) -> std::io::Result<Vec<u8>> {
        let mut message = format!("{}\n", day.len()).into_bytes();
        message.extend(day);
        self.days.write_all(&message)?;
        let mut length = String::new();
        self.logs.read_line(&mut length)?;
        let length = length
            .trim_end()
            .parse()
            .map_err(|_| std::io::Error::other(format!("no log's length, but {length:?}")))?;
        let mut log = vec![0; length];
        self.logs.read_exact(&mut log)?;
        Ok(log)
    }
}

/// Days looked through behind the first that differs, for a shorter one.
const FURTHER: usize = 300;

pub(crate) fn run(mut source: Source, mut subject: Subject) {
    let start = WallInstant::now();
    let (mut days, mut lines) = (0u64, 0u64);
    while let Some((name, day)) = source.next() {
        if subject.differs(&day) {
            report(name, day, source, subject);
        }
        days += 1;
        lines += day.iter().filter(|&&b| b == b'\n').count() as u64;
    }
    let seconds = start.elapsed().as_secs_f64();
    put(format!("{days} days, {lines} lines, no difference, {seconds:.1} s\n").as_bytes());
}

/// Prints the first day that differs by name, and the shortest of those found, made small.
fn report(first: String, day: Vec<u8>, source: Source, mut subject: Subject) -> ! {
    let further = source.take(FURTHER).filter(|(_, day)| subject.differs(day));
    let mut differing: Vec<(String, Vec<u8>)> = further.collect();
    differing.insert(0, (first, day));
    put(format!("{} differs on {}", subject.name(), differing[0].0).as_bytes());
    put(format!(
        ", and on {} of the next {FURTHER} days\n",
        differing.len() - 1
    )
    .as_bytes());
    let shortest = differing.into_iter().min_by_key(|(_, day)| day.len());
    let (name, day) = shortest.expect("there is the first one");
    let day = shrink(day, |day| subject.differs(day));
    put(format!("{name}, made small:\n").as_bytes());
    put(&day);
    put(b"\nits log by the oracle:\n");
    put(&whole(&day));
    put(b"its log by the program:\n");
    put(&subject.log(&day));
    put(b"as a stored day, with the oracle's answers:\n");
    print_day(&name, &day);
    exit(1)
}
