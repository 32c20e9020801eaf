//! An interval that ticks when the script says so.

use std::{
    cell::Cell,
    future::{poll_fn, Future},
    task::Poll,
    time::Duration,
};

thread_local! {
    static TICK_DUE: Cell<bool> = const { Cell::new(false) };
}

/// The next poll of an interval gives one tick.
pub fn script_tick() {
    TICK_DUE.with(|due| due.set(true));
}

pub struct Interval;

pub fn interval(_period: Duration) -> Interval {
    Interval
}

impl Interval {
    pub fn tick(&mut self) -> impl Future<Output = ()> + '_ {
        poll_fn(|_| {
            if TICK_DUE.with(|due| due.replace(false)) {
                Poll::Ready(())
            } else {
                Poll::Pending
            }
        })
    }
}
