//! What the worker's own fields held when it last waited.

use std::cell::Cell;

#[derive(Clone, Copy, Debug, PartialEq, Eq)]
pub struct Counts {
    pub total: u32,
    pub pending: u32,
    pub available: usize,
    pub waiting: usize,
}

thread_local! {
    static NOTED: Cell<Option<Counts>> = const { Cell::new(None) };
}

pub fn script_note(counts: Counts) {
    NOTED.with(|noted| noted.set(Some(counts)));
}

pub fn script_noted() -> Option<Counts> {
    NOTED.with(Cell::get)
}
