//! The oracle: the driver's own pool worker, run on a day. See README.md.

#[path = "../stand_ins/error.rs"]
#[allow(dead_code)]
mod error;
#[path = "../stand_ins/event.rs"]
#[allow(dead_code)]
mod event;
#[path = "../stand_ins/rest.rs"]
#[allow(dead_code)]
mod rest;
#[path = "../stand_ins/runtime.rs"]
mod runtime;
#[path = "../stand_ins/sdam.rs"]
mod sdam;

// Module `cmap`: the driver's files, unedited, with the stand-ins of `stand_ins/cmap` among them.
include!(concat!(env!("OUT_DIR"), "/driver/tree.rs"));

mod added;
mod campaign;
mod generate;
mod harness;
mod replay;
mod script;
mod shrink;
mod speed;
mod stored;
mod text;

use std::{
    env,
    fmt::Display,
    io::{self, Write},
    process::exit,
};

use rest::{bson, client, options, serde_util, ServerType};

const USAGE: &str = "\
usage: oracle [--budget N] [--used]            a day on standard input, its log on standard output
       oracle answers                          stored days on standard input, their answers filled in
       oracle counts                           stored days on standard input, the worker's counts after each frame
       oracle choose N SEED                    of N generated days those that show something new
       oracle generate N SEED                  N generated days in stored form, answered
       oracle exhaust DEPTH                    every day of tiny pools up to DEPTH, in stored form
       oracle campaign [--many] N SEED PROGRAM..      generated days, PROGRAM against the oracle
       oracle campaign [--many] --exhaust DEPTH PROGRAM..
       oracle long FRAMES SEED                 one long day, nearly all of it accepted
       oracle speed FRAMES SEED                frames a second on that day, with text and without
       oracle speed FILE                       the same on a day in a file";

fn main() {
    let arguments: Vec<String> = env::args().skip(1).collect();
    let words: Vec<&str> = arguments.iter().map(String::as_str).collect();
    match words.as_slice() {
        ["answers"] => stored::answers(),
        ["counts"] => stored::counts(),
        ["choose", n, seed] => stored::choose(number(n), number(seed)),
        ["generate", n, seed] => stored::print(generate::Source::seeded(number(n), number(seed))),
        ["exhaust", depth] => stored::print(generate::Source::exhaustive(number(depth))),
        ["campaign", rest @ ..] => campaign(rest),
        ["long", frames, seed] => put(&generate::long_day(number(frames), number(seed))),
        ["speed", frames, seed] => {
            speed::measure(&generate::long_day(number(frames), number(seed)))
        }
        ["speed", file] => speed::measure(&read(file)),
        options => replay(options),
    }
}

fn replay(mut words: &[&str]) {
    let (mut budget, mut used) = (u64::MAX, false);
    loop {
        words = match words {
            [] => break,
            ["--budget", n, rest @ ..] => {
                budget = number(n);
                rest
            }
            ["--used", rest @ ..] => {
                used = true;
                rest
            }
            _ => usage(),
        };
    }
    let frames = replay::stream(io::stdin().lock(), io::stdout().lock(), budget);
    if used {
        eprintln!("frames used: {frames}");
    }
}

fn campaign(mut words: &[&str]) {
    let many = words.first() == Some(&"--many");
    if many {
        words = &words[1..];
    }
    let (source, program) = match words {
        ["--exhaust", depth, program @ ..] => {
            (generate::Source::exhaustive(number(depth)), program)
        }
        [n, seed, program @ ..] => (generate::Source::seeded(number(n), number(seed)), program),
        _ => usage(),
    };
    if program.is_empty() {
        usage();
    }
    campaign::run(source, campaign::Subject::new(program, many));
}

fn read(file: &str) -> Vec<u8> {
    std::fs::read(file).unwrap_or_else(|e| stop(format!("cannot read {file}: {e}")))
}

fn number(word: &str) -> u64 {
    word.parse().unwrap_or_else(|_| usage())
}

fn usage() -> ! {
    eprintln!("{USAGE}");
    exit(2)
}

fn stop(message: impl Display) -> ! {
    eprintln!("oracle: {message}");
    exit(1)
}

/// Writes to standard output and stops where that fails.
fn put(bytes: &[u8]) {
    if let Err(e) = io::stdout().write_all(bytes) {
        stop(format!("cannot write standard output: {e}"));
    }
}
