//! Between the stand-ins and the harness: what they see, in order, and what the day makes them do.

use std::{
    cell::{Cell, RefCell},
    rc::Rc,
    time::{last_measured, Duration},
};

use crate::{
    cmap::establish::door::Answer,
    event::cmap::{CmapEvent, ConnectionClosedReason},
    runtime::Run,
};

/// Something the Rust did that a log can show.
pub(crate) enum Seen {
    Created(u32),
    Ready(u32),
    CheckedIn(u32),
    /// Closed as idle it has just been tested for that, and `measured` is how long it was available.
    Closed {
        connection: u32,
        reason: ConnectionClosedReason,
        measured: Duration,
    },
    PoolReady,
    PoolCleared {
        interrupt: bool,
    },
    PoolClosed,
    /// The cancellation notice to connections in use.
    Interrupt,
    Answered {
        request: u32,
        heard: bool,
        answer: Answer,
    },
    /// A request that was dropped unanswered.
    Gone {
        request: u32,
        heard: bool,
    },
}

#[derive(Clone, Copy)]
pub(crate) enum Outcome {
    Success,
    Failure,
}

/// A task that waits; the connection it establishes, if it does.
pub(crate) struct Spawned {
    pub(crate) connection: Option<u32>,
    pub(crate) task: Rc<dyn Run>,
}

thread_local! {
    static SEEN: RefCell<Vec<Seen>> = const { RefCell::new(Vec::new()) };
    static SPAWNED: RefCell<Vec<Spawned>> = const { RefCell::new(Vec::new()) };
    static ESTABLISHING: Cell<Option<u32>> = const { Cell::new(None) };
    static OUTCOME: Cell<Option<Outcome>> = const { Cell::new(None) };
}

pub(crate) fn see(seen: Seen) {
    SEEN.with(|list| list.borrow_mut().push(seen));
}

/// Moves all that was seen since the last call behind `into`.
pub(crate) fn take_seen(into: &mut Vec<Seen>) {
    SEEN.with(|list| into.append(&mut list.borrow_mut()));
}

pub(crate) fn see_event(event: CmapEvent) {
    see(match event {
        CmapEvent::ConnectionCreated(e) => Seen::Created(e.connection_id),
        CmapEvent::ConnectionReady(e) => Seen::Ready(e.connection_id),
        CmapEvent::ConnectionCheckedIn(e) => Seen::CheckedIn(e.connection_id),
        CmapEvent::ConnectionClosed(e) => Seen::Closed {
            connection: e.connection_id,
            reason: e.reason,
            measured: last_measured(),
        },
        CmapEvent::PoolReady(_) => Seen::PoolReady,
        CmapEvent::PoolCleared(e) => Seen::PoolCleared {
            interrupt: e.interrupt_in_use_connections,
        },
        CmapEvent::PoolClosed(_) => Seen::PoolClosed,
        // Left out of the log.
        CmapEvent::PoolCreated(_)
        | CmapEvent::ConnectionCheckoutStarted(_)
        | CmapEvent::ConnectionCheckoutFailed(_)
        | CmapEvent::ConnectionCheckedOut(_) => return,
    });
}

pub(crate) fn see_interrupt() {
    see(Seen::Interrupt);
}

pub(crate) fn spawned(connection: Option<u32>, task: Rc<dyn Run>) {
    SPAWNED.with(|list| list.borrow_mut().push(Spawned { connection, task }));
}

pub(crate) fn take_spawned(into: &mut Vec<Spawned>) {
    SPAWNED.with(|list| into.append(&mut list.borrow_mut()));
}

/// The task that is running establishes this connection.
pub(crate) fn establishing(connection: u32) {
    ESTABLISHING.with(|place| place.set(Some(connection)));
}

pub(crate) fn take_establishing() -> Option<u32> {
    ESTABLISHING.with(Cell::take)
}

/// The next task that is run and establishes a connection ends so.
pub(crate) fn set_outcome(outcome: Outcome) {
    OUTCOME.with(|place| place.set(Some(outcome)));
}

pub(crate) fn outcome() -> Option<Outcome> {
    OUTCOME.with(Cell::take)
}
