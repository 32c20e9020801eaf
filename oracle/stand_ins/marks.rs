//! Which marked places of a marked copy were reached, and one condition turned round if asked; only a
//! measuring build has this module.

use std::{
    env,
    fs::OpenOptions,
    io::Write,
    sync::{
        atomic::{AtomicBool, Ordering},
        OnceLock,
    },
};

const PLACES: usize = 4096;

static REACHED: [AtomicBool; PLACES] = [const { AtomicBool::new(false) }; PLACES];

/// The condition that ORACLE_TURNED names.
static TURNED: OnceLock<Option<usize>> = OnceLock::new();

/// Appends the place's number, the first time, to the file that ORACLE_MARKS names.
pub(crate) fn hit(place: usize) {
    if REACHED[place].swap(true, Ordering::Relaxed) {
        return;
    }
    let Ok(name) = env::var("ORACLE_MARKS") else {
        return;
    };
    let file = OpenOptions::new().append(true).create(true).open(&name);
    if let Err(e) = file.and_then(|mut file| writeln!(file, "{place}")) {
        crate::stop(format!("cannot write {name}: {e}"));
    }
}

/// A condition: one place for true, the next for false.
pub(crate) fn both(place: usize, condition: bool) -> bool {
    hit(place + usize::from(!condition));
    let turned = TURNED.get_or_init(|| env::var("ORACLE_TURNED").ok()?.parse().ok());
    condition != (*turned == Some(place))
}

pub(crate) fn some<T>(place: usize, option: Option<T>) -> Option<T> {
    hit(place + usize::from(option.is_none()));
    option
}
